#!/usr/bin/env python3
"""Tests of every command with `--profile cluster`, over schemas and objects with fractions.

The two judges of objects, of which one goes by the nodes of a schema (`--strict`) and the other by the schema as it is written, refuse the same
values; and what `sample` lists over suggested pools, each value once, every other command takes as it is. What each command writes, tables of
crdx_tests say. The program is the wrapper ./crdx, or another that the variable CRDX names.
"""
from __future__ import annotations

import json
import os
import subprocess
import sys
import tempfile
import unittest
from pathlib import Path

sys.dont_write_bytecode = True

CRDX = os.environ.get("CRDX", str(Path(__file__).resolve().parent.parent / "crdx"))

KEYS = '"x-kubernetes-list-type":"map","x-kubernetes-list-map-keys":["k"]'
# the schemas of a field, with numbers as they are written
FIELDS = [
    '{"type":"number"}',
    '{"type":"number","nullable":true,"default":0.50}',
    '{"type":"number","minimum":0.5,"maximum":2.5}',
    '{"type":"number","minimum":1.5,"exclusiveMinimum":true}',
    '{"type":"number","maximum":1e2,"exclusiveMaximum":true}',
    '{"type":"number","maximum":9223372036854775808}',
    '{"type":"number","minimum":-1e300}',
    '{"type":"number","enum":[0.50,1,2.5,5e-1]}',
    '{"type":"number","enum":[-0,1.0]}',
    '{"type":"number","nullable":true,"enum":[0.5]}',
    '{"type":"string","nullable":true,"enum":["a"]}',
    '{"type":"string","nullable":true,"anyOf":[{"enum":["a"]},{"minLength":2}]}',
    '{"type":"number","anyOf":[{"minimum":2},{"enum":[0.5,-1]}]}',
    '{"type":"number","oneOf":[{"minimum":0.75},{"maximum":1.25}]}',
    '{"type":"number","not":{"enum":[0.5,2]}}',
    '{"type":"integer","minimum":0.5,"maximum":2.5}',
    '{"type":"integer","minimum":1.5,"exclusiveMinimum":true}',
    '{"x-kubernetes-int-or-string":true,"maximum":1.5}',
    '{"type":"array","x-kubernetes-list-type":"set","items":{"type":"number","enum":[0.50,1,0.5]}}',
    '{"type":"array",' + KEYS + ',"items":{"type":"object","required":["k"],"properties":{"k":{"type":"number"}}}}',
    '{"type":"object","additionalProperties":{"type":"number","maximum":1.5}}',
]
NUMBERS = "0 1 2 3 100 -1 -0 1.0 1e2 0.5 0.50 5e-1 -0.5 0.75 1.25 1.5 2.5 2.75 99.5 9223372036854775807 9223372036854775808 -1e300 1e300".split()
OTHERS = ['"a"', '"0.5"', "true", "null", "[]", "{}"]
LISTS = ["[0.5]", "[0.5,1]", "[0.5,0.50]", "[1,1.0]", "[0.5,null]", '[{"k":0.5},{"k":1}]', '[{"k":0.5},{"k":5e-1}]', '[{"k":"x"}]']
# a place where only the judge by nodes refuses null
OPEN = '{"x-kubernetes-preserve-unknown-fields":true}'
VALUES = NUMBERS + OTHERS + LISTS + ['{"a":0.5,"b":1}', '{"a":2.5}']


HEAD = '{"apiVersion":"apiextensions.k8s.io/v1","kind":"CustomResourceDefinition","metadata":{"name":"things.example.org"},"spec":'
SPEC = '{"group":"example.org","names":{"kind":"Thing","plural":"things"},"scope":"Namespaced","versions":'
VERSION = '[{"name":"v1","served":true,"storage":true,"schema":{"openAPIV3Schema":'


def definition(field: str) -> str:
    """A definition of objects with one field, x, of this schema."""
    return HEAD + SPEC + VERSION + '{"type":"object","properties":{"x":' + field + "}}}}]}}"


class Commands(unittest.TestCase):
    """What every command says of each field."""

    def setUp(self) -> None:
        folder = tempfile.TemporaryDirectory()
        self.addCleanup(folder.cleanup)
        self.folder = Path(folder.name)

    def crdx(self, status: int, command: str, *words: str, text: str = "") -> str:
        """What a command writes of the definition in the folder, and ends with this status."""
        arguments = [CRDX, command, str(self.folder / "crd.json"), "v1", *words, "--profile", "cluster"]
        ran = subprocess.run(arguments, input=text, capture_output=True, text=True, check=False)
        self.assertEqual(ran.returncode, status, f"{command} {words}: {ran.stderr}")
        return ran.stdout

    def define(self, field: str) -> None:
        (self.folder / "crd.json").write_text(definition(field), encoding="utf-8")

    def refused(self, *words: str) -> list[str]:
        """The values that a judge refuses."""
        objects = "".join(f'{{"x":{value}}}\n' for value in VALUES)
        lines = self.crdx(1, "validate", "--lines", *words, text=objects).splitlines()
        numbers = {int(line.split(":")[0]) for line in lines}
        return [VALUES[number - 1] for number in sorted(numbers)]

    def test_both_judges_refuse_the_same_values(self) -> None:
        for field in FIELDS:
            with self.subTest(field):
                self.define(field)
                self.assertEqual(self.refused("--strict"), self.refused())

    def samples(self) -> list[str]:
        """All samples of a few nodes over suggested pools, which are left in the folder."""
        pools = self.folder / "pools.json"
        pools.write_text(self.crdx(0, "pools"), encoding="utf-8")
        return self.crdx(0, "sample", "--all", "--limit", "5", "--pools", str(pools)).splitlines(keepends=True)

    def test_every_command_takes_the_samples(self) -> None:
        for field in [*FIELDS, OPEN]:
            with self.subTest(field):
                self.define(field)
                self.assertEqual(self.crdx(0, "check"), "structural\n")
                self.assertIn('"/x" <', self.crdx(0, "explain"))
                samples = self.samples()
                self.assertGreater(len(samples), 1)
                self.assertEqual(len({json.dumps(json.loads(sample)) for sample in samples}), len(samples))
                text = "".join(samples)
                for words in (["validate"], ["validate", "--strict"]):
                    self.assertEqual(self.crdx(0, *words, "--lines", text=text), "")
                for command in ("prune", "default"):
                    self.assertEqual(self.crdx(0, command, "--lines", text=text), text)
                self.crdx(0, "leaves", "--lines", text=text)
                cover = self.crdx(0, "cover", "--values", "--limit", "5", "--pools", str(self.folder / "pools.json"))
                self.assertLessEqual(set(cover.splitlines(keepends=True)), set(samples))
                self.crdx(0, "pools", "--from", "-", text=text)


if __name__ == "__main__":
    unittest.main()
