"""CustomResourceDefinitions: their versions, and relaxing the schemas of these."""
from __future__ import annotations

from .changes import said, said_once
from .documents import Json, Refusal, below, has_decimal, path_order, pointer, shown
from .judging import still_refused
from .keywords import broken_forms
from .relaxing import Relaxed, relaxed


def is_name(value):
    return isinstance(value, str) and value != ""


def versions_of(document):
    """The versions of a CustomResourceDefinition, S1 for any other document."""
    versions = below(document, "spec", "versions")
    versions = versions if isinstance(versions, list) else []
    names = [below(version, "name") for version in versions]
    if (
        below(document, "apiVersion") != "apiextensions.k8s.io/v1"
        or below(document, "kind") != "CustomResourceDefinition"
        or not is_name(below(document, "spec", "group"))
        or not is_name(below(document, "spec", "names", "kind"))
        or not all(isinstance(name, str) for name in names)
        or len(names) > len(set(names))
        or not any(isinstance(below(version, "schema", "openAPIV3Schema"), dict) for version in versions)
    ):
        raise Refusal("crd: S1", 3)
    return versions


def take_version(document: Json, name: str) -> None:
    """Leaves this version alone in a definition."""
    check_version(document, name)
    document["spec"]["versions"] = [version for version in versions_of(document) if version["name"] == name]


def take_schema(document: Json, name: str) -> None:
    """Leaves the schema of this version alone in a definition: other versions accept any object."""
    check_version(document, name)
    for version in versions_of(document):
        if version["name"] != name and isinstance(below(version, "schema", "openAPIV3Schema"), dict):
            version["schema"]["openAPIV3Schema"] = {"type": "object"}


def check_version(document: Json, name: str) -> None:
    if not any(version["name"] == name for version in versions_of(document)):
        raise Refusal("crd: S2", 3)


def relax_definition(document: Json) -> dict[str, Relaxed]:
    """Relaxes the schema of each version in place, and answers these schemas by the names of the versions."""
    schemas = {}
    for version in versions_of(document):
        schema = below(version, "schema", "openAPIV3Schema")
        if not isinstance(schema, dict):
            continue
        broken = min(broken_forms(schema), key=path_order, default=None)
        if broken is not None:
            raise Refusal(f"crd: S3 {shown(pointer(broken))}", 3)
        version["schema"]["openAPIV3Schema"] = relaxed(schema)
        schemas[version["name"]] = Relaxed(schema, version["schema"]["openAPIV3Schema"])
    if has_decimal(document):
        raise Refusal("crd: J1", 3)
    return schemas


def relax_document(document: Json) -> tuple[dict[str, Relaxed], list[str]]:
    """Relaxes the schema of each version in place. Answers the schemas by the names of the versions, and the lines on them."""
    schemas = relax_definition(document)
    named = len(document["spec"]["versions"]) > 1
    lines = said_once({version: said(schema) for version, schema in schemas.items()}, named)
    return schemas, lines + said_once({version: still_refused(schema.after) for version, schema in schemas.items()}, named)
