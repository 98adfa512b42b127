#!/usr/bin/env python3
"""Compares the crate `judge` with kube-openapi's validator, by which the API server judges objects.

Usage: tools/test_judge.py [--cases COUNT] [--seed NUMBER]

A case is a schema of all keywords and a value near it (`judged_cases.py`). Left out are sets and map lists, which the validator does not
judge, and the formats of Kubernetes, which that of 2021 lacks. `main.rt.txt` and `main.go` in `tools/test_judge` answer for both sides.
Each difference is counted with its class, and the status is 0 only where each class is one of `CLASSES`, which docs/reference/judging.md
names, and all of them together are at most 1 percent of the cases. `--cases 20000` tries as many as that page says. Where there is no `go`
or no kube-openapi, a line says so.
"""
from __future__ import annotations

import argparse
import collections
import json
import pathlib
import random
import re
import shutil
import sys
import tempfile
from typing import Callable, NamedTuple

sys.dont_write_bytecode = True

from compared_lines import GOPATH, ROOT, of_crates, of_go
from crdx_schemas.documents import Json
from judged_cases import PATTERNS, Cases
from large_schema import Schema
from test_formats import listed

PROGRAMS = ROOT / "tools" / "test_judge"
VALIDATE = pathlib.Path(GOPATH) / "src" / "k8s.io" / "kube-openapi" / "pkg" / "validation" / "validate"
CRATES = """jtree: fast_float itoa json serde_json thiserror
text_tests:
go_text:
formats: text_tests
patterns: go_text regex regex_syntax text_tests thiserror
judge: jtree text_tests
judge_lines: formats jtree judge patterns
"""
BELOW = ("jtree", "text_tests", "go_text", "formats", "patterns", "judge")
NEW_FORMATS = ("k8sshortname", "k8slongname")
SHOWN = 3
PANIC = "panic: runtime error: integer divide by zero"


class Answers(NamedTuple):
    """What is said of a case: by the validator, by the crate, and by the validator where whole numbers are written as integers."""

    line: str
    go: str
    rt: str
    go_as_read: str

    @property
    def is_valid(self) -> bool:
        return self.rt == "1"

    @property
    def is_same(self) -> bool:
        return self.go == self.rt[:1]


def texts_of_formats() -> dict[str, list[str]]:
    texts = {name: texts for name, texts in listed().items() if name not in NEW_FORMATS}
    return {**texts, "date-time": texts["datetime"]}


def line_of(schema: Json, value: Json) -> str:
    return f"{json.dumps(schema)}\t{json.dumps(value)}\n"


def drawn(cases: Cases, count: int) -> dict[str, tuple[Schema, Json]]:
    """So many cases by their lines, no two of them the same."""
    made: dict[str, tuple[Schema, Json]] = {}
    while len(made) < count:
        case = cases.case()
        made[line_of(*case)] = case
    return made


def as_read(tree: Json) -> Json:
    """The tree with integers for floats that are whole and less than 2^53 in size, as the crate reads it."""
    if isinstance(tree, float) and tree.is_integer() and abs(tree) < 2**53:
        return int(tree)
    if isinstance(tree, list):
        return [*map(as_read, tree)]
    if isinstance(tree, dict):
        return {name: as_read(below) for name, below in tree.items()}
    return tree


# ---- the classes of differences

# name, and a test of the answers; the first that holds
CLASSES: list[tuple[str, Callable[[Answers], bool]]] = [
    ("an integer and a factor below 1, at which the API server panics", lambda said: said.go == PANIC),
    ("a whole number with a point or an exponent, which is read as an integer", lambda said: said.go_as_read in (said.rt[:1], PANIC)),
]


def class_of(said: Answers) -> str | None:
    return next((name for name, test in CLASSES if test(said)), None)


def share(part: int, whole: int) -> str:
    return f"{part} ({part / whole:.2%})"


def show(name: str | None, members: list[Answers], count: int) -> None:
    taken = sum(said.is_valid and said.go == "0" for said in members)
    print(f"  {share(len(members), count)} differ, {name or 'and no class has them'}; {taken} of them are valid here and refused there:")
    for said in members if name is None else sorted(members, key=lambda said: len(said.line))[:SHOWN]:
        print(f"    {said.line.strip()}: validator {said.go}, crate {said.rt}")


def compare(answers: list[Answers]) -> bool:
    count, valid = len(answers), sum(said.is_valid for said in answers)
    differing = [said for said in answers if not said.is_same]
    faults = collections.Counter(fault for said in answers for fault in {*re.findall(r" (F\d\d) ", said.rt)})
    print(f"test_judge: {count} cases, of which {share(valid, count)} are valid, and {share(len(differing), count)} differ")
    print("  faulty cases: " + ", ".join(f"{fault} {number}" for fault, number in sorted(faults.items())))
    classes: dict[str | None, list[Answers]] = collections.defaultdict(list)
    for said in differing:
        classes[class_of(said)].append(said)
    for name, members in classes.items():
        show(name, members, count)
    return None not in classes and len(differing) * 100 <= count


def main() -> int:
    words = argparse.ArgumentParser()
    words.add_argument("--cases", type=int, default=10_000)
    words.add_argument("--seed", type=int, default=1)
    chosen = words.parse_args()
    if shutil.which("go") is None or not VALIDATE.is_dir():
        print("test_judge: no go or no kube-openapi here, so the judge is not compared with the API server's")
        return 0
    formats = texts_of_formats()
    made = drawn(Cases(formats, random.Random(int(chosen.seed))), int(chosen.cases))
    lines = [*made]
    read = [line_of(as_read(schema), as_read(value)) for schema, value in made.values()]
    kept = "\t".join((" ".join(formats), *PATTERNS)) + "\n"
    with tempfile.TemporaryDirectory() as name:
        folder = pathlib.Path(name)
        go = of_go(folder, PROGRAMS / "main.go", "".join([*lines, *read]))
        rt = of_crates(folder, BELOW, PROGRAMS / "main.rt.txt", CRATES, "".join([kept, *lines]))[1:]
    return 0 if compare([*map(Answers, lines, go, rt, go[len(lines):])]) else 1


if __name__ == "__main__":
    sys.exit(main())
