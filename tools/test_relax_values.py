#!/usr/bin/env python3
"""Tests of what tools/crdx-relax says of values: the limits and the defaults that crdx still refuses, and the values for pools.

Usage: tools/test_relax_values.py [TEST..], as `unittest` takes them. What is wanted is written here by hand; that values are valid is
judged by the validator of tools/test_relax.py, whose class `Structural` compares bad defaults with those that crdx finds.
"""
import json
import tempfile
import unittest
from pathlib import Path

from test_relax import INT_OR_STRING, OPEN, ROOT, Validator, definition, relax, schema_of, with_field

# a name; a schema; whether its default is good: pruning leaves it, and with the defaults below it is valid
DEFAULTS = [
    ("a text", {"type": "string", "default": "a"}, True),
    ("a number at a text", {"type": "string", "default": 1}, False),
    ("a truth value at an integer", {"type": "integer", "default": True}, False),
    ("null", {"type": "string", "default": None}, False),
    ("null where it may be", {"type": "string", "nullable": True, "enum": ["a"], "default": None}, True),
    ("an enum", {"type": "string", "enum": ["a", "b"], "default": "c"}, False),
    ("a text at int-or-string", {**INT_OR_STRING, "default": "a"}, True),
    ("a list at int-or-string", {**INT_OR_STRING, "default": []}, False),
    ("the least", {"type": "integer", "minimum": 1, "default": 1}, True),
    ("below the least", {"type": "integer", "minimum": 1, "default": 0}, False),
    ("an exclusive bound", {"type": "integer", "maximum": 1, "exclusiveMaximum": True, "default": 1}, False),
    ("too long", {"type": "string", "maxLength": 1, "default": "é"}, True),
    ("too short", {"type": "string", "minLength": 2, "default": "é"}, False),
    ("a pattern, which is dropped", {"type": "string", "pattern": "^a", "format": "uuid", "default": "b"}, True),
    ("a junctor", {"type": "integer", "oneOf": [{"minimum": 1}, {"maximum": 2}], "default": 2}, False),
    ("a junctor that holds", {"type": "integer", "allOf": [{"not": {"enum": [1]}}], "anyOf": [{"minimum": 5}, {"maximum": 2}], "default": 2},
     True),
    ("too few items", {"type": "array", "items": {"type": "integer"}, "minItems": 1, "default": []}, False),
    ("an item", {"type": "array", "items": {"type": "integer"}, "default": [1, "a"]}, False),
    ("a set", {"type": "array", "x-kubernetes-list-type": "set", "items": {"type": "integer"}, "default": [1, 2, 1]}, False),
    ("an atomic list", {"type": "array", "items": {"type": "integer"}, "default": [1, 2, 1]}, True),
    ("a map list", {"type": "array", "x-kubernetes-list-type": "map", "x-kubernetes-list-map-keys": ["k", "n"], "items": {
        "type": "object", "required": ["k"], "properties": {"k": {"type": "string"}, "n": {"type": "integer", "default": 1}}},
        "default": [{"k": "a"}, {"k": "a", "n": 2}]}, True),
    ("a map list whose items are the same with their defaults", {"type": "array", "x-kubernetes-list-type": "map",
        "x-kubernetes-list-map-keys": ["k", "n"], "items": {"type": "object", "required": ["k"], "properties": {
            "k": {"type": "string"}, "n": {"type": "integer", "default": 1}}}, "default": [{"k": "a"}, {"k": "a", "n": 1}]}, False),
    ("a map", {"type": "object", "additionalProperties": {"type": "integer"}, "default": {"a": 1}}, True),
    ("a value of a map", {"type": "object", "additionalProperties": {"type": "integer"}, "default": {"a": "b"}}, False),
    ("a null of a map, which goes", {"type": "object", "additionalProperties": {"type": "integer"}, "default": {"a": None}}, True),
    ("too many members", {"type": "object", "additionalProperties": {"type": "integer"}, "maxProperties": 1, "default": {"a": 1, "b": 1}},
     False),
    ("a member that is pruned", {"type": "object", "properties": {"a": {"type": "string"}}, "default": {"b": 1}}, False),
    ("a member that is kept", {"type": "object", "properties": {"a": {"type": "string"}}, "default": {"b": 1}, **OPEN}, True),
    ("a required member", {"type": "object", "required": ["a"], "properties": {"a": {"type": "string"}}, "default": {}}, False),
    ("a required member with a default", {"type": "object", "required": ["a"], "properties": {"a": {"type": "string", "default": "x"}},
        "default": {"a": None}}, True),
    ("a junctor of members", {"type": "object", "properties": {"a": {"type": "string"}, "b": {"type": "string"}},
        "oneOf": [{"required": ["a"]}, {"required": ["b"]}], "default": {"a": "", "b": ""}}, False),
    ("anything at an open place", {**OPEN, "default": {"a": [None]}}, True),
    ("null at an open place", {**OPEN, "default": None}, False),
    ("deep in a list", {"type": "array", "items": {"type": "object", "properties": {"a": {"type": "integer"}}}, "default": [{"a": 1, "b": 2}]},
     False),
]


class StillRefused(unittest.TestCase):
    """What is said last: what crdx refuses of the relaxed schema."""

    def lines(self, *schemas):
        status, _, err = relax(json.dumps(definition(*schemas)))
        self.assertEqual(status, 0)
        return [line[len("crdx-relax: "):] for line in err.splitlines() if "still refused" in line]

    def test_defaults(self):
        fields = [f"f{number}" for number in range(len(DEFAULTS))]
        lines = self.lines(*({"type": "object", "properties": {field: schema}} for field, (_, schema, _) in zip(fields, DEFAULTS)))
        for field, (name, _, is_good) in zip(fields, DEFAULTS):
            with self.subTest(name):
                said = [line for line in lines if line.endswith(f': still refused: V14 "/properties/{field}" bad default')]
                self.assertEqual(len(said), 0 if is_good else 1)

    def test_defaults_come_in_path_order_and_once(self):
        bad = {"type": "string", "default": 1}
        schema = {"type": "object", "properties": {"b": bad, "a": {"type": "array", "items": {"type": "object", "properties": {"c": bad}}}}}
        self.assertEqual(self.lines(schema, schema), [
            'versions "v1", "v2": still refused: V14 "/properties/a/items/properties/c" bad default',
            'versions "v1", "v2": still refused: V14 "/properties/b" bad default',
        ])

    def test_limits(self):
        """Each limit just reached, and passed by one."""
        def fields(count):
            return {"type": "object", "properties": {f"f{number:04}": {"type": "string"} for number in range(count)}}

        def deep(steps):
            return {"type": "string"} if steps == 0 else {"type": "array", "items": deep(steps - 1)}

        def keyed(count):
            return {"type": "array", "x-kubernetes-list-type": "map", "x-kubernetes-list-map-keys": list(fields(count)["properties"]),
                    "items": {**fields(count), "required": list(fields(count)["properties"])}}

        x = "/properties/x"
        for name, of, most, place, what, large in [
            ("properties", lambda count: with_field(fields(count)), 32, f"{x}/properties", "properties", 1024),
            ("required", lambda count: with_field({"type": "object", "properties": {"a": {"type": "string"}}, "required": ["a"] * count}), 32,
             f"{x}/required", "required fields", 1024),
            ("keys", lambda count: with_field(keyed(count)), 4, f"{x}/x-kubernetes-list-map-keys", "keys", 8),
            ("enum", lambda count: with_field({"type": "integer", "enum": list(range(count))}), 64, f"{x}/enum", "values", 1024),
            ("enum of a branch", lambda count: with_field({"type": "integer", "not": {"enum": list(range(count))}}), 64, f"{x}/not/enum",
             "values", 1024),
            ("steps", lambda count: with_field(deep(count - 1)), 24, x + "/items" * 24, "steps to this place", 60),
            ("places", lambda count: {"type": "object", "properties": {f"g{number:02}": {
                "type": "integer", "anyOf": [{"minimum": 1}] * (511 // 10 - 1 + (1 if number == 0 else 0) + (count - 512 if number == 1 else 0))}
                for number in range(10)}}, 512, "", "places in the schema", 16384),
        ]:
            with self.subTest(name):
                self.assertEqual(self.lines(of(most)), [])
                wanted = f'still refused: S4 "{place}" {most + 1} {what}; allowed are {most}, and {large} with --large'
                self.assertEqual(self.lines(of(most + 1)), [wanted])

    def test_of_each_limit_the_greatest_number(self):
        numbers = {name: {"type": "integer", "enum": list(range(count))} for name, count in [("a", 65), ("b", 70), ("c", 66)]}
        self.assertEqual(self.lines({"type": "object", "properties": {**numbers, "d": {"type": "string", "default": 1}}}), [
            'still refused: S4 "/properties/b/enum" 70 values; allowed are 64, and 1024 with --large',
            'still refused: V14 "/properties/d" bad default',
        ])


HEX = "0a" * 20

# a name; a schema; the values that --pools writes for it: [] where none is found, None where crdx judges all of it
VALUES = [
    ("a pattern", {"type": "string", "pattern": "^v[0-9]"}, ["v1", "v1beta1", "v1.2.3"]),
    ("what the schema names comes first", {"type": "string", "pattern": "^[0-9]+[smh]$", "default": "2160h", "example": "90m"},
     ["2160h", "90m", "500m", "30s", "10m", "1h"]),
    ("several examples, each once", {"type": "string", "pattern": "^x", "example": ["xa", 1, "b", {}, "xa"]}, ["xa"]),
    ("an enum", {"type": "string", "pattern": "^a", "enum": ["b", "ab", "a"]}, ["ab", "a"]),
    ("lengths", {"type": "string", "pattern": "^[a-z]+$", "minLength": 2, "maxLength": 3}, ["web"]),
    ("pattern and format", {"type": "string", "pattern": "8", "format": "ipv6"}, ["2001:db8::1"]),
    ("a pattern in branches", {"type": "string", "anyOf": [{"pattern": "^v[0-9]$"}, {"pattern": "^#"}]}, ["v1", "#00ff00"]),
    ("a pattern under not", {"type": "string", "allOf": [{"pattern": "^v"}], "not": {"pattern": "^v1$"}}, ["v1beta1", "v1.2.3"]),
    ("a pattern in oneOf", {"type": "string", "oneOf": [{"pattern": "^v1"}, {"pattern": "^v1[b.]"}]}, ["v1"]),
    ("a pattern that Python does not read", {"type": "string", "pattern": "^\\p{L}+$", "default": "a"}, []),
    ("a pattern that is no text", {"type": "string", "pattern": 1}, []),
    ("a pattern without common texts", {"type": "string", "pattern": "^[X]+$"}, []),
    ("a pattern of an int-or-string", {**INT_OR_STRING, "pattern": "^[0-9]+(Gi)?$"}, [0, 1, "0", "1", "1Gi", "8080"]),
    ("an int-or-string with a default", {**INT_OR_STRING, "pattern": "^[0-9]+%$", "default": "10%", "minimum": 1}, ["10%", 1, 2, "50%"]),

    ("multiples", {"type": "integer", "multipleOf": 8, "minimum": 256, "maximum": 8192}, [256, 264, 8184, 8192]),
    ("multiples with a default", {"type": "integer", "multipleOf": 5, "default": 25, "enum": [25, 26, 30, 35.0]}, [25, 30, 35]),
    ("multiples of a fraction", {"type": "integer", "multipleOf": 0.5, "maximum": 1}, [0, 1]),
    ("multiples of nothing", {"type": "integer", "multipleOf": 0}, []),
    ("a number", {"type": "number"}, [0, 1]),
    ("a number with fractions as bounds", {"type": "number", "minimum": 0.5, "maximum": 2, "exclusiveMaximum": True}, [1]),
    ("a number with a default", {"type": "number", "maximum": 5, "default": 3, "example": 0.5}, [3, 0, 1, 4, 5]),
    ("a number with no integer", {"type": "number", "minimum": 0.1, "maximum": 0.9}, []),
    ("a number beyond all bounds", {"type": "number", "minimum": -1e300, "maximum": 1e300}, [0, 1]),
    ("an enum of numbers", {"type": "number", "enum": [0.5, 2, "a"]}, [2]),

    ("date-time", {"type": "string", "format": "date-time"}, ["2024-01-31T12:00:00Z", "2024-01-31T12:00:00+01:00"]),
    ("date", {"type": "string", "format": "date", "default": "2024-02-30", "example": "2024-02-29"}, ["2024-02-29", "2024-01-31"]),
    ("duration", {"type": "string", "format": "duration"}, ["500m", "30s", "10m", "1h", "1h30m", "500ms"]),
    ("uri", {"type": "string", "format": "uri"}, ["https://example.org/web", "http://example.org:8080", "ssh://git@example.org/web.git",
        "oci://example.org/web", "s3://web/data"]),
    ("email", {"type": "string", "format": "email"}, ["web@example.org"]),
    ("ipv4", {"type": "string", "format": "ipv4", "default": "10.0.0.256"}, ["10.0.0.1"]),
    ("ipv6", {"type": "string", "format": "ipv6"}, ["2001:db8::1"]),
    ("cidr", {"type": "string", "format": "cidr", "default": "10.0.0.1"}, ["10.0.0.0/24"]),
    ("mac", {"type": "string", "format": "mac"}, ["00:00:5e:00:53:01"]),
    ("uuid", {"type": "string", "format": "uuid"}, ["123e4567-e89b-42d3-a456-426614174000"]),
    ("byte", {"type": "string", "format": "byte"}, ["500m", "10GB", "PT1H", HEX, "8080", "d2Vi"]),
    ("hostname", {"type": "string", "format": "hostname", "pattern": "[.]org"}, ["example.org", "www.example.org"]),
    ("hexcolor", {"type": "string", "format": "hexcolor"}, ["#00ff00"]),
    ("isbn", {"type": "string", "format": "isbn"}, []),
    ("a format that a cluster does not judge", {"type": "string", "format": "cron"}, None),
    ("a format of a number", {"type": "integer", "format": "int32"}, None),
    ("a text", {"type": "string", "minLength": 1}, None),
    ("an enum alone", {"type": "string", "enum": ["a"]}, None),
    ("a truth value", {"type": "boolean"}, None),
    ("any value", OPEN, None),
]


class Pools(unittest.TestCase):
    """The values that are written into a pools document with --pools."""

    def setUp(self):
        folder = tempfile.TemporaryDirectory()
        self.addCleanup(folder.cleanup)
        self.file = Path(folder.name) / "pools.json"

    def written(self, *schemas, words=()):
        """The document, and the lines on it."""
        status, out, err = relax(json.dumps(definition(*schemas)), "--pools", self.file, *words)
        self.assertEqual((status, out), (0, relax(json.dumps(definition(*schemas)), *words)[1]))
        lines = [line[len("crdx-relax: "):] for line in err.splitlines()]
        return json.loads(self.file.read_text(encoding="utf-8")), [line for line in lines if line.startswith("pools: ")]

    def test_values(self):
        fields = {f"f{number:02}": schema for number, (_, schema, _) in enumerate(VALUES)}
        pools, lines = self.written({"type": "object", "properties": fields})
        for number, (name, _, wanted) in enumerate(VALUES):
            with self.subTest(name):
                path = f"/f{number:02}"
                self.assertEqual(pools["paths"].get(path), wanted or None)
                self.assertEqual(f'pools: no value found for "{path}"' in lines, wanted == [])

    def test_values_are_valid_as_written(self):
        """Each value is one of the schema before it was relaxed, says the validator of these tests."""
        for file in sorted((ROOT / "examples").glob("*/crd.json")):
            with self.subTest(file.parent.name):
                text = file.read_text(encoding="utf-8")
                self.file.write_text("{}", encoding="utf-8")
                self.assertEqual(relax(text, "--pools", self.file)[0], 0)
                for path, values in json.loads(self.file.read_text(encoding="utf-8"))["paths"].items():
                    schema = schema_of(json.loads(text))
                    for step in path.split("/")[1:]:
                        word = {"[]": "items", "{}": "additionalProperties"}.get(step)
                        schema = schema[word] if word else schema["properties"][step]
                    self.assertNotEqual(values, [])
                    for value in values:
                        self.assertTrue(Validator.accepts(schema, value), f"{path}: {value}")

    def test_paths(self):
        """Names, items of lists and values of maps; nothing of the envelope, and nothing below a place that was opened."""
        text = {"type": "string", "pattern": "^#"}
        pools, lines = self.written({"type": "object", "properties": {
            "kind": text, "metadata": {"type": "object", "properties": {"name": text}},
            "spec": {"type": "object", "properties": {"metadata": text, "": text, "a/b~c[d{e": {"type": "array", "items": text}}},
            "map": {"type": "object", "additionalProperties": {"type": "object", "properties": {"x": text}}},
            "open": {"properties": {"x": text}}, "free": {"type": "array", "items": text, **OPEN},
            "any": {"type": "object", "additionalProperties": True},
        }})
        values = ["#00ff00"]
        self.assertEqual((pools, lines), ({"paths": {
            "/spec/metadata": values, "/spec/": values, "/spec/a~1b~0c~2d~3e/[]": values, "/map/{}/x": values, "/free/[]": values}}, []))

    def test_what_is_there_stays(self):
        """A document that is there keeps what it has, in its order, and its own values at a path."""
        self.file.write_text('{"strings":["x"],"paths":{"/b":[1],"/z":[]},"integers":[7]}', encoding="utf-8")
        text = {"type": "string", "pattern": "^#"}
        pools, lines = self.written({"type": "object", "properties": {"a": text, "b": text}})
        self.assertEqual(lines, [])
        self.assertEqual(json.dumps(pools), '{"strings": ["x"], "paths": {"/b": [1], "/z": [], "/a": ["#00ff00"]}, "integers": [7]}')
        self.assertEqual(self.written({"type": "object", "properties": {"a": text, "b": text}})[0], pools)

    def test_as_many_paths_as_crdx_reads(self):
        for count, lines in [
            (64, []),
            (65, ["pools: 65 paths; allowed are 64, and 1024 with --large"]),
            (1025, ['pools: no room for "/f1024"', "pools: 1024 paths; allowed are 64, and 1024 with --large"]),
        ]:
            with self.subTest(count):
                self.file.unlink(missing_ok=True)
                fields = {f"f{number}": {"type": "number"} for number in range(count)}
                pools, said = self.written({"type": "object", "properties": fields})
                self.assertEqual((len(pools["paths"]), said), (min(count, 1024), lines))

    def test_as_many_values_as_crdx_reads(self):
        own = [f"x{number}" for number in range(70)]
        pools, _ = self.written(with_field({"type": "string", "pattern": "^x", "enum": own}))
        self.assertEqual(pools, {"paths": {"/x": own[:64]}})

    def test_one_version(self):
        first, second = with_field({"type": "number"}), with_field({"type": "string", "pattern": "^#"})
        self.assertEqual(self.written(first, second, words=["--version", "v2"]), ({"paths": {"/x": ["#00ff00"]}}, []))
        self.file.unlink()
        line = "crdx-relax: --pools needs --version, since the definition has several\n"
        self.assertEqual(relax(json.dumps(definition(first, second)), "--pools", self.file), (2, "", line))
        self.assertFalse(self.file.exists())

    def test_documents_that_are_no_pools(self):
        text = json.dumps(definition(with_field({"type": "number"})))
        for document, line in [("", "J3"), ("[]", 'P1 ""'), ('{"paths":[]}', 'P1 "/paths"'), ('{"any":[0.5]}', "J1"), (" " * 1_048_577, "J4")]:
            with self.subTest(line):
                self.file.write_text(document, encoding="utf-8")
                self.assertEqual(relax(text, "--pools", self.file), (3, "", f"crdx-relax: pools: {line}\n"))
                self.assertEqual(self.file.read_text(encoding="utf-8"), document)

    def test_files_that_cannot_be_used(self):
        text = json.dumps(definition(with_field({"type": "number"})))
        self.assertEqual(relax(text, "--pools", self.file.parent), (4, "", "crdx-relax: pools: read failed\n"))
        self.assertEqual(relax(text, "--pools", self.file / "x"), (4, "", "crdx-relax: pools: write failed\n"))
        self.assertEqual(relax(text, "--pools", "-")[0], 2)


if __name__ == "__main__":
    unittest.main()
