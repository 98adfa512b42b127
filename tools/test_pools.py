#!/usr/bin/env python3
"""Tests of `crdx pools` on the examples: over the pools that it prints, each field of a schema is in some sample.

The program is the wrapper ./crdx, or another that the variable CRDX names.
"""
from __future__ import annotations

import json
import os
import subprocess
import sys
import unittest
from pathlib import Path
from typing import Iterator

sys.dont_write_bytecode = True

from crdx_schemas.documents import Json

ROOT = Path(__file__).resolve().parent.parent

# the examples, each with its definition and a number of nodes within which its samples have every field
EXAMPLES = {
    "alert-rule": ("crd.json", 12),
    "certificate": ("relaxed.json", 13),
    "composition": ("relaxed.json", 18),
    "issuer": ("crd.json", 14),
    "node-pool": ("relaxed.json", 18),
    "pipeline": ("relaxed.json", 11),
    "scaled-object": ("relaxed.json", 10),
    "service-monitor": ("relaxed.json", 12),
    "widget": ("crd.json", 3),
}

# the letters that are written otherwise in the step of a path
ESCAPES = (("~", "~0"), ("/", "~1"), ("[", "~2"), ("{", "~3"))


def crdx(*words: str, text: str = "") -> tuple[str, str]:
    """Runs crdx on a text at its standard input, and answers what it writes to standard output, and to standard error."""
    ran = subprocess.run([os.environ.get("CRDX", ROOT / "crdx"), *words], input=text, capture_output=True, text=True, check=True)
    return ran.stdout, ran.stderr


def fields_of(definition: str) -> set[str]:
    """The paths of all fields of a definition."""
    out, _ = crdx("explain", definition, "v1")
    decoder = json.JSONDecoder()
    return {decoder.raw_decode(line)[0] for line in out.splitlines()}


def step_text(name: str) -> str:
    """The step of a path that is the name of a field."""
    for letter, written in ESCAPES:
        name = name.replace(letter, written)
    return name


def mark_of(path: str) -> str:
    """What is in the text of each object that has the field with this path."""
    step = path.rsplit("/", 1)[1]
    if step in ("[]", "{}"):
        return step[0]
    for letter, written in reversed(ESCAPES):
        step = step.replace(written, letter)
    return json.dumps(step, ensure_ascii=False) + ":"


def paths_in(value: Json, path: str, fields: set[str]) -> Iterator[str]:
    """The paths of the fields in a value with this path."""
    if path in fields:
        yield path
    if isinstance(value, list):
        for item in value:
            yield from paths_in(item, path + "/[]", fields)
    if isinstance(value, dict):
        for name, member in value.items():
            step = "{}" if path + "/{}" in fields else step_text(name)
            yield from paths_in(member, f"{path}/{step}", fields)


def missing_fields(definition: str, limit: int) -> set[str]:
    """The fields that are in none of the samples within this limit, over the pools that `crdx pools` prints."""
    pools, _ = crdx("pools", definition, "v1")
    fields = fields_of(definition)
    missing = set(fields)
    words = ["sample", definition, "v1", "--pools", "-", "--limit", str(limit), "--count", "10000"]
    more: list[str] = []
    while missing:
        out, err = crdx(*words, *more, text=pools)
        marks = {mark_of(path) for path in missing}
        for line in out.splitlines():
            if any(mark in line for mark in marks):
                missing.difference_update(paths_in(json.loads(line), "", fields))
        if err == "crdx: end\n":
            break
        more = ["--after", line]
    return missing


class Samples(unittest.TestCase):
    """Samples over the pools to start with."""

    def test_each_field_is_in_some_sample(self) -> None:
        for name, (file, limit) in EXAMPLES.items():
            with self.subTest(name):
                definition = str(ROOT / "examples" / name / file)
                self.assertEqual(missing_fields(definition, limit), set())

    def test_each_example_is_tried(self) -> None:
        examples = {path.parent.name for path in (ROOT / "examples").glob("*/crd.json")}
        # which is not structural, and is relaxed nowhere
        examples.remove("workflow")
        self.assertEqual(set(EXAMPLES), examples)


if __name__ == "__main__":
    unittest.main()
