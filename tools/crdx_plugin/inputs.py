"""What a command is asked about: the definition and the objects, in files, on standard input or in the cluster."""
from __future__ import annotations

import dataclasses
import os
import re
from typing import Iterator, Sequence

from crdx_schemas.documents import Refusal, below
from crdx_schemas.programs import say

from .arguments import Arguments
from .sources import Document, definition_in_cluster, documents_in
from .texts import NAME

STANDARD_INPUT = "-"


@dataclasses.dataclass
class Input:
    """The documents of a file."""

    file: str
    documents: list[Document]

    @property
    def has_definition(self) -> bool:
        return any(document.is_definition for document in self.documents)


def inputs_of(asked: Arguments) -> list[Input]:
    return [Input(file, documents_in(file, "crd")) for file in asked.files]


def check_inputs(inputs: Sequence[str], so_far: Sequence[str] = ()) -> None:
    """Refuses a second input from standard input, and says that a terminal is read."""
    if [*inputs, *so_far].count(STANDARD_INPUT) > 1:
        raise Refusal("the standard input can be only one of the inputs", 2)
    if STANDARD_INPUT in inputs and os.isatty(0):
        say(NAME, ["reads from standard input"])


def definition_of(asked: Arguments, inputs: list[Input]) -> Document:
    """The definition in the documents, by its name where that is given, or else the one in the cluster of the name that is given."""
    found = [document for one in inputs for document in one.documents if document.is_definition]
    names = [document.name for document in found]
    if asked.words and asked.words[0] in names:
        return found[names.index(asked.words.pop(0))]
    if len(found) > 1:
        raise Refusal("crd: S1\n    there are several definitions: give the name of one of " + ", ".join(map(str, names)), 3)
    if found:
        return found[0]
    if asked.words and os.path.isfile(asked.words[0]):
        raise Refusal(f"{asked.words[0]} is a file, and no name of a definition: use -f {asked.words[0]}", 2)
    if not asked.words or not re.fullmatch(r"[^/]*\.[^/]*", asked.words[0]):
        raise Refusal("crd: S1\n    no file of -f has a CustomResourceDefinition, and there is no NAME of one, such as issuers.example.org", 3)
    return definition_in_cluster(asked.words.pop(0), asked.cluster)


def objects_of(asked: Arguments, definition: Document, inputs: list[Input]) -> list[Document]:
    """The objects: those of the files that are named and of the inputs without a definition; where there are none, those of the kind beside
    a definition, or else those on the standard input."""
    files, asked.words = asked.words, []
    check_inputs(files, asked.files)
    given = [one for one in inputs if one.documents and not one.has_definition]
    given += [objects_in(file, f"object: {file}" if len(files) > 1 else "object") for file in files]
    if not given:
        beside = objects_beside(definition, inputs)
        if beside:
            refuse_other_kinds(definition, beside)
            return beside
        check_inputs([STANDARD_INPUT], asked.files)
        given = [objects_in(STANDARD_INPUT, "object")]
    if len(given) > 1:
        say(NAME, numbers_of(given))
    objects = [document for one in given for document in one.documents]
    refuse_other_kinds(definition, objects)
    return objects


def objects_in(file: str, role: str) -> Input:
    """The objects in a file. What has no document at all is left to crdx."""
    return Input(file, documents_in(file, role) or [Document("", None)])


def objects_beside(definition: Document, inputs: list[Input]) -> list[Document]:
    """The objects among documents with a definition: those of its kind, and those of its group of which no definition is there, which are
    refused. A line has the kinds of the others."""
    documents = [document for one in inputs for document in one.documents]
    defined = [below(document.tree, "spec", "names", "kind") for document in documents if document.is_definition]
    objects: list[Document] = []
    others: list[Document] = []
    for document in documents:
        is_stray = is_in_group(definition, document) and document.kind not in defined
        if not document.is_definition:
            (objects if document.kind and (is_stray or is_of_kind(definition, document)) else others).append(document)
    if others:
        kinds = ", ".join(sorted({str(document.kind or "none") for document in others}))
        say(NAME, [f"{counted(len(others), 'document')} of another kind beside the definition, not judged: {kinds}"])
    return objects


def counted(number: int, what: str) -> str:
    return f"{number} {what}" if number == 1 else f"{number} {what}s"


def numbers_of(inputs: list[Input]) -> Iterator[str]:
    """The lines on which objects are in which file."""
    number = 1
    for one in inputs:
        last = number + len(one.documents) - 1
        numbers = f"object {number}" if number == last else f"objects {number} to {last}"
        yield f"{numbers}: {'standard input' if one.file == STANDARD_INPUT else one.file}"
        number = last + 1


def is_in_group(definition: Document, document: Document) -> bool:
    return str(below(document.tree, "apiVersion")).rpartition("/")[0] == below(definition.tree, "spec", "group")


def is_of_kind(definition: Document, document: Document) -> bool:
    """Whether a document is an object of the definition, as far as it says of which group and kind it is."""
    return document.kind in (None, below(definition.tree, "spec", "names", "kind")) and (
        below(document.tree, "apiVersion") is None or is_in_group(definition, document))


def refuse_other_kinds(definition: Document, objects: list[Document]) -> None:
    """Refuses objects of another kind, since crdx does not look at it. A definition without a kind is left to crdx."""
    kind, group = below(definition.tree, "spec", "names", "kind"), below(definition.tree, "spec", "group")
    others = [(number, one) for number, one in enumerate(objects, 1) if not is_of_kind(definition, one)]
    if others and isinstance(kind, str) and isinstance(group, str):
        lines = [f"{label(number, one)} of {below(one.tree, 'apiVersion') or 'no group'}" for number, one in others]
        raise Refusal("\n    ".join([f"object: not of the kind {kind} of {group}", *lines]), 3)


def label(number: int, document: Document) -> str:
    """The words that say which object one is."""
    return " ".join(str(word) for word in ["object", number, document.kind, document.name] if word)
