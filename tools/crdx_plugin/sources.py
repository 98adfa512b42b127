"""Documents as Kubernetes has them: files of JSON or YAML with one or several, and definitions in a cluster."""
from __future__ import annotations

import dataclasses
import json
import re
import shutil
import subprocess

from crdx_schemas.documents import MOST_BYTES, Json, Refusal, below, read_bytes

MOST_BYTES_OF_FILE = 64 * MOST_BYTES
WHITE_SPACE = re.compile(r"[ \t\r\n]*")

# what makes JSON of YAML on its standard input: kubectl, which asks no cluster for it, and the two programs of the name yq
KUBECTL = ["kubectl", "patch", "--local", "-f", "-", "--type=merge", "-p", "{}", "-o", "json"]
YQ_OF_FARAH = ["yq", "-o", "json", ".", "-"]
YQ_OF_JQ = ["yq", "."]


@dataclasses.dataclass
class Document:
    """A document: its text in JSON, as it was read where that is JSON already, and its tree."""

    text: str
    tree: Json

    @property
    def kind(self) -> Json:
        return below(self.tree, "kind")

    @property
    def name(self) -> Json:
        return below(self.tree, "metadata", "name")

    @property
    def is_definition(self) -> bool:
        return self.kind == "CustomResourceDefinition"


def past_white_space(text: str, at: int) -> int:
    found = WHITE_SPACE.match(text, at)
    return found.end() if found else at


def split_json(text: str) -> list[Document]:
    """The documents of JSON that follow one another in a text; a ValueError where something else is there."""
    decoder, documents, at = json.JSONDecoder(), [], past_white_space(text, 0)
    while at < len(text):
        tree, end = decoder.raw_decode(text, at)
        documents.append(Document(text[at:end], tree))
        at = past_white_space(text, end)
    return documents


def items_of(document: Document) -> list[Document]:
    """The items of a List, or else the document itself; none for an empty one."""
    items = below(document.tree, "items")
    if str(document.kind).endswith("List") and isinstance(items, list):
        return [Document(json.dumps(item), item) for item in items]
    return [] if document.tree is None else [document]


def converter() -> list[str] | None:
    """The command that makes JSON of YAML here; None where there is none."""
    if shutil.which("kubectl"):
        return KUBECTL
    if not shutil.which("yq"):
        return None
    version = subprocess.run(["yq", "--version"], stdout=subprocess.PIPE, stderr=subprocess.DEVNULL, check=False).stdout
    return YQ_OF_FARAH if b"mikefarah" in version else YQ_OF_JQ


def from_yaml(data: bytes, role: str) -> list[Document]:
    """The documents of a text of YAML."""
    command = converter()
    if command is None:
        raise Refusal(f"{role}: J3: this is no JSON, and neither kubectl nor yq is there to read YAML", 3)
    ran = subprocess.run(command, input=data, capture_output=True, check=False)
    if ran.returncode != 0:
        reason = ran.stderr.decode("utf-8", "replace").strip().splitlines() or [f"status {ran.returncode}"]
        raise Refusal(f"{role}: J3\n    {command[0]}: {reason[0]}", 3)
    return split_json(ran.stdout.decode("utf-8"))


def documents_in(file: str, role: str) -> list[Document]:
    """The documents in a file of JSON or YAML, or on the standard input for `-`."""
    data = read_bytes(file, role, MOST_BYTES_OF_FILE)
    try:
        documents = split_json(data.decode("utf-8"))
    except (ValueError, RecursionError):
        documents = from_yaml(data, role)
    return [item for document in documents for item in items_of(document)]


def definition_in_cluster(name: str, flags: list[str]) -> Document:
    """The definition of this name; kubectl itself says why there is none."""
    if not shutil.which("kubectl"):
        raise Refusal("crd: read failed: there is no kubectl", 4)
    ran = subprocess.run(["kubectl", "get", "crd", name, *flags, "-o", "json"], stdout=subprocess.PIPE, check=False)
    if ran.returncode != 0:
        raise Refusal("crd: read failed", 4)
    try:
        return split_json(ran.stdout.decode("utf-8"))[0]
    except (ValueError, RecursionError, IndexError):
        raise Refusal("crd: J3", 3) from None
