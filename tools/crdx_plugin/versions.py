"""Which version of a definition is asked about."""
from __future__ import annotations

import re

from crdx_schemas.documents import below
from crdx_schemas.programs import say

from .inputs import STANDARD_INPUT
from .sources import Document
from .texts import NAME


def is_version(word: str) -> bool:
    """Whether a word has the form of a version's name, and not that of a path or of a file."""
    return re.fullmatch("[^./]+", word) is not None and word != STANDARD_INPUT


def chosen_version(definition: Document, objects: list[Document]) -> str:
    """The version that the objects name, or else the storage version; crdx judges whatever is wrong with the definition."""
    listed = below(definition.tree, "spec", "versions")
    versions = [version for version in listed if isinstance(version, dict)] if isinstance(listed, list) else []
    names = [str(version.get("name")) for version in versions]
    by_api_version = {f"{below(definition.tree, 'spec', 'group')}/{name}": name for name in names}
    named = {str(below(one.tree, "apiVersion")) for one in objects}
    if len(named) == 1 and named <= by_api_version.keys():
        version, why = by_api_version[named.pop()], "which the objects name"
    else:
        version, why = stored_version(names, [str(version.get("name")) for version in versions if version.get("storage") is True])
    say(NAME, [f"version {version}, {why}"])
    return version


def stored_version(names: list[str], storage: list[str]) -> tuple[str, str]:
    """The storage version, or another one where there is not one alone, and why it is taken."""
    if len(storage) == 1:
        return storage[0], "the storage version"
    if storage:
        return storage[0], f"the first of {len(storage)} storage versions"
    return (names[0], "the first one, as none is the storage version") if names else ("v1", "as the definition names none")
