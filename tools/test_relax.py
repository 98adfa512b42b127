#!/usr/bin/env python3
"""Tests of tools/crdx-relax.

Usage: tools/test_relax.py [TEST..], as `unittest` takes them. The tests of class `Structural` ask the program crdx what it says of relaxed
schemas: the wrapper ./crdx, or another program that the variable CRDX names. The other tests need Python alone.

What is wanted is written here by hand. Whether an object is valid is judged by the few lines of `Validator`, which share nothing with
crdx-relax: they follow the OpenAPI 3.0 Schema Object and the Kubernetes documentation of CustomResourceDefinition, CEL rules aside.
"""
import json
import os
import random
import re
import subprocess
import tempfile
import unittest
from pathlib import Path

ROOT = Path(__file__).resolve().parent.parent
RELAX = ROOT / "tools" / "crdx-relax"
OPEN = {"x-kubernetes-preserve-unknown-fields": True}
ANY = {"x-kubernetes-preserve-unknown-fields": True, "nullable": True}
INT_OR_STRING = {"x-kubernetes-int-or-string": True, "anyOf": [{"type": "integer"}, {"type": "string"}]}
SHAPES = ["certificate", "composition", "node-pool", "pipeline", "scaled-object", "service-monitor"]


def relax(text, *words):
    """Runs crdx-relax on a text at its standard input."""
    data = text.encode("utf-8") if isinstance(text, str) else text
    ran = subprocess.run([RELAX, *words], input=data, capture_output=True, check=False)
    return ran.returncode, ran.stdout.decode("utf-8"), ran.stderr.decode("utf-8")


def definition(*schemas):
    """A CustomResourceDefinition with a version v1, v2 and so on for each schema."""
    return {
        "apiVersion": "apiextensions.k8s.io/v1",
        "kind": "CustomResourceDefinition",
        "metadata": {"name": "widgets.example.org"},
        "spec": {
            "group": "example.org",
            "names": {"kind": "Widget", "plural": "widgets"},
            "scope": "Namespaced",
            "versions": [
                {"name": f"v{number}", "served": True, "storage": number == 1, "schema": {"openAPIV3Schema": schema}}
                for number, schema in enumerate(schemas, 1)
            ],
        },
    }


def schema_of(document, version=0):
    return document["spec"]["versions"][version]["schema"]["openAPIV3Schema"]


def relaxed_root(schema):
    """The relaxed form of a root schema, and the lines on it without the program's name."""
    status, out, err = relax(json.dumps(definition(schema)))
    if status != 0:
        raise AssertionError(f"status {status}: {err}")
    lines = [re.sub("^crdx-relax: ", "", line) for line in err.splitlines()]
    return schema_of(json.loads(out)), lines


def with_field(schema):
    """A root schema with the field x alone."""
    return {"type": "object", "properties": {"x": schema}}


def program(*words):
    """Runs crdx, and answers its status and what it writes to standard output."""
    ran = subprocess.run([os.environ.get("CRDX", ROOT / "crdx"), *words], stdout=subprocess.PIPE, stderr=subprocess.PIPE, check=False)
    return ran.returncode, ran.stdout.decode("utf-8")


class Validator:
    """Which values a schema accepts, as a cluster does: with defaults in, and before that as they are."""

    @staticmethod
    def is_number(value):
        return isinstance(value, (int, float)) and not isinstance(value, bool)

    @classmethod
    def is_of_type(cls, kind, value):
        return {
            "integer": cls.is_number(value) and value == int(value),
            "number": cls.is_number(value),
            "string": isinstance(value, str),
            "boolean": isinstance(value, bool),
            "array": isinstance(value, list),
            "object": isinstance(value, dict),
        }[kind]

    @classmethod
    def accepts(cls, schema, value):
        """Whether a value is valid as it is."""
        if value is None:
            return bool(schema.get("nullable"))
        if schema.get("type") and not cls.is_of_type(schema["type"], value):
            return False
        if schema.get("x-kubernetes-int-or-string") and not (cls.is_of_type("integer", value) or isinstance(value, str)):
            return False
        return cls.meets(schema, value) and cls.has_parts(schema, value)

    @classmethod
    def meets(cls, schema, value):
        """Whether a value meets the keywords that speak of it, in a junctor too."""
        if "enum" in schema and schema["enum"] and json.dumps(value) not in map(json.dumps, schema["enum"]):
            return False
        if cls.is_number(value):
            low, high = schema.get("minimum", float("-inf")), schema.get("maximum", float("inf"))
            if value < low or value > high or (value == low and schema.get("exclusiveMinimum")):
                return False
            if (value == high and schema.get("exclusiveMaximum")) or value % schema.get("multipleOf", value or 1) != 0:
                return False
        for kind, least, most in ((str, "minLength", "maxLength"), (list, "minItems", "maxItems"), (dict, "minProperties", "maxProperties")):
            if isinstance(value, kind) and not schema.get(least, 0) <= len(value) <= schema.get(most, len(value)):
                return False
        if isinstance(value, str) and not re.search(schema.get("pattern", ""), value):
            return False
        if isinstance(value, dict) and not all(name in value for name in schema.get("required", [])):
            return False
        return cls.meets_junctors(schema, value)

    @classmethod
    def meets_junctors(cls, schema, value):
        def holds(branch):
            typed = not branch.get("type") or cls.is_of_type(branch["type"], value)
            return typed and cls.meets(branch, value) and cls.has_parts(branch, value)

        return (
            all(map(holds, schema.get("allOf", [])))
            and ("anyOf" not in schema or any(map(holds, schema["anyOf"])))
            and ("oneOf" not in schema or sum(map(holds, schema["oneOf"])) == 1)
            and not ("not" in schema and holds(schema["not"]))
        )

    @classmethod
    def has_parts(cls, schema, value):
        """Whether what is in a list or an object is valid, and no two items of a list are too much alike."""
        if isinstance(value, dict):
            fields, others = schema.get("properties", {}), schema.get("additionalProperties")
            return all(
                cls.accepts(fields[name], part) if name in fields else not isinstance(others, dict) or cls.accepts(others, part)
                for name, part in value.items()
            )
        if not isinstance(value, list):
            return True
        kind = schema.get("x-kubernetes-list-type")
        keys = [json.dumps(item, sort_keys=True) for item in value]
        if kind == "map":
            keys = [json.dumps([item.get(key) for key in schema["x-kubernetes-list-map-keys"]]) for item in value if isinstance(item, dict)]
        if (kind in ("set", "map") or schema.get("uniqueItems")) and len(keys) > len(set(keys)):
            return False
        return all(cls.accepts(schema["items"], item) for item in value) if "items" in schema else True

    @classmethod
    def completed(cls, schema, value):
        """A value with defaults in it. Nulls that may not be there give way to defaults, or go."""
        if isinstance(value, dict):
            fields, others = schema.get("properties", {}), schema.get("additionalProperties")
            below = {name: fields[name] if name in fields else others for name in value}
            below = {name: one if isinstance(one, dict) else ANY for name, one in below.items()}
            kept = {name: part for name, part in value.items() if part is not None or below[name].get("nullable")}
            for name, field in fields.items():
                if "default" in field and name not in kept:
                    kept[name] = field["default"]
            return {name: cls.completed(fields.get(name, below.get(name)), part) for name, part in kept.items()}
        if isinstance(value, list):
            items = schema.get("items", {})
            lacks = "default" in items and not items.get("nullable")
            return [cls.completed(items, items["default"] if lacks and item is None else item) for item in value]
        return value

    @classmethod
    def takes(cls, schema, value):
        return cls.accepts(schema, cls.completed(schema, value))


# a name; the schema of the field x; its relaxed form; the lines, as the place below x, the keyword and what became of it; values of x that
# were valid and stay so
FIELDS = [
    # what crdx takes stays
    ("a string", {"type": "string", "minLength": 1, "maxLength": 3, "enum": ["a", "b"], "format": "uuid", "title": "T"}, None, [], ["a"]),
    ("an example", {"type": "integer", "example": [1, {"a": None}], "externalDocs": {"url": "u"}}, None, [], [7]),
    ("bounds", {"type": "integer", "minimum": -2, "exclusiveMinimum": True, "maximum": 2, "default": 0}, None, [], [-1, 2]),
    ("a false uniqueItems", {"type": "array", "uniqueItems": False, "items": {"type": "string"}}, None, [], [["a", "a"]]),
    ("int-or-string", INT_OR_STRING, None, [], [1, "1"]),
    ("the other int-or-string", {"x-kubernetes-int-or-string": True, "allOf": [{"anyOf": INT_OR_STRING["anyOf"]}, {"minimum": 1}]}, None, [],
     [1, "a"]),
    ("an open place", {"x-kubernetes-preserve-unknown-fields": True, "nullable": True, "default": {"a": 1}}, None, [], [None, 1, {}]),
    ("junctors of a scalar", {"type": "integer", "oneOf": [{"minimum": 5}, {"not": {"enum": [1, 2]}, "maximum": 3}]}, None, [], [0, 6]),
    ("a set", {"type": "array", "x-kubernetes-list-type": "set", "items": {"type": "string"}}, None, [], [["a", "b"]]),
    ("a map list", {"type": "array", "x-kubernetes-list-type": "map", "x-kubernetes-list-map-keys": ["k", "p"], "items": {
        "type": "object", "required": ["k"], "properties": {"k": {"type": "string"}, "p": {"type": "integer", "default": 1}}}}, None, [],
     [[{"k": "a"}, {"k": "b"}]]),
    ("presence junctors", {"type": "object", "properties": {"a": {"type": "string"}, "b": {"type": "string"}, "c": {"type": "string"},
        "d": {"type": "string"}, "e": {"type": "string"}}, "oneOf": [{"required": ["a"]}, {"required": ["b"], "not": {"required": ["c"]}}],
        "allOf": [{"anyOf": [{"required": ["c", "d"]}, {}]}]}, None, [], [{"a": "1"}, {"b": "1"}, {"a": "1", "c": "", "d": ""}]),

    # keywords that are dropped
    ("pattern", {"type": "string", "pattern": "^a", "maxLength": 2}, {"type": "string", "maxLength": 2}, [("", "pattern", "dropped")], ["a"]),
    ("multipleOf", {"type": "integer", "multipleOf": 2}, {"type": "integer"}, [("", "multipleOf", "dropped")], [4]),
    ("CEL rules", {"type": "object", "x-kubernetes-validations": [{"rule": "has(self.a)"}]}, {"type": "object"},
     [("", "x-kubernetes-validations", "dropped")], [{}]),
    ("uniqueItems", {"type": "array", "uniqueItems": True, "items": {"type": "string"}}, {"type": "array", "items": {"type": "string"}},
     [("", "uniqueItems", "dropped")], [["a", "b"]]),
    ("an embedded resource", {"type": "object", "x-kubernetes-embedded-resource": True, "x-kubernetes-preserve-unknown-fields": True},
     {"type": "object", **OPEN}, [("", "x-kubernetes-embedded-resource", "dropped")], [{"kind": "K"}]),
    ("an embedded resource with properties", {"type": "object", "x-kubernetes-embedded-resource": True, "maxProperties": 4, "properties": {
        "spec": {"type": "object"}}}, {"type": "object", "properties": {"spec": {"type": "object"}}, **OPEN},
     [("", "maxProperties", "dropped"), ("", "x-kubernetes-embedded-resource", "dropped"),
      ("", "x-kubernetes-preserve-unknown-fields", "set to true")], [{"kind": "K", "spec": {}}]),
    ("keywords of another kind", {"type": "boolean", "required": ["a"], "items": {"type": "string"}, "minItems": 1, "x-what": [0.5]},
     {"type": "boolean"}, [("", "items", "dropped"), ("", "minItems", "dropped"), ("", "required", "dropped"), ("", "x-what", "dropped")],
     [True]),
    ("keywords that are not supported", {"type": "string", "id": "a", "readOnly": True, "definitions": {"a": {"minimum": 0.5}}},
     {"type": "string"}, [("", "definitions", "dropped"), ("", "id", "dropped"), ("", "readOnly", "dropped")], ["a"]),
    ("an example with a fraction", {"type": "integer", "example": [{"a": 0.5}]}, {"type": "integer"}, [("", "example", "dropped")], [1]),
    ("preserving at a scalar", {"type": "string", **OPEN}, {"type": "string"}, [("", "x-kubernetes-preserve-unknown-fields", "dropped")],
     ["a"]),
    ("a type beside int-or-string", {"type": "integer", "x-kubernetes-int-or-string": True}, {"x-kubernetes-int-or-string": True},
     [("", "type", "dropped")], [1]),
    ("list and map types of others", {"type": "string", "x-kubernetes-list-type": "set", "x-kubernetes-map-type": "atomic"},
     {"type": "string"}, [("", "x-kubernetes-list-type", "dropped"), ("", "x-kubernetes-map-type", "dropped")], ["a"]),
    ("an unknown map type", {"type": "object", "x-kubernetes-map-type": "half"}, {"type": "object"},
     [("", "x-kubernetes-map-type", "dropped")], [{}]),

    # places for any value
    ("type number", {"type": "number", "minimum": 0.5, "maximum": 2, "nullable": True, "description": "D", "format": "double", "default": 1},
     {"nullable": True, "description": "D", "format": "double", "default": 1, **OPEN},
     [("", "maximum", "dropped"), ("", "minimum", "dropped"), ("", "type", "dropped"),
      ("", "x-kubernetes-preserve-unknown-fields", "set to true")], [None, 1, 0.75, 2]),
    ("numbers in a list", {"type": "array", "items": {"type": "number", "enum": [0.5, 1]}}, {"type": "array", "items": OPEN},
     [("/items", "enum", "dropped"), ("/items", "type", "dropped"), ("/items", "x-kubernetes-preserve-unknown-fields", "set to true")],
     [[0.5, 1], []]),
    ("numbers in a map", {"type": "object", "additionalProperties": {"type": "number", "anyOf": [{"minimum": 1}]}},
     {"type": "object", "additionalProperties": OPEN},
     [("/additionalProperties", "anyOf", "dropped"), ("/additionalProperties", "type", "dropped"),
      ("/additionalProperties", "x-kubernetes-preserve-unknown-fields", "set to true")], [{"a": 1.5}]),
    ("a reference", {"$ref": "#/definitions/a", "description": "D", "type": "object"}, {"description": "D", **ANY},
     [("", "$ref", "dropped"), ("", "nullable", "set to true"), ("", "type", "dropped"),
      ("", "x-kubernetes-preserve-unknown-fields", "set to true")], [{}]),
    ("properties by pattern", {"type": "object", "patternProperties": {"^a": {"type": "string"}}, "properties": {"b": {"type": "string"}}},
     OPEN, [("", "patternProperties", "dropped"), ("", "properties", "dropped"), ("", "type", "dropped"),
            ("", "x-kubernetes-preserve-unknown-fields", "set to true")], [{"b": "x"}]),
    ("no type", {"properties": {"a": {"type": "string"}}}, OPEN,
     [("", "properties", "dropped"), ("", "x-kubernetes-preserve-unknown-fields", "set to true")], [{"a": "x"}, 1]),
    ("an unknown type", {"type": "null", "nullable": True}, ANY,
     [("", "type", "dropped"), ("", "x-kubernetes-preserve-unknown-fields", "set to true")], [None]),
    ("what an open place may not have", {**OPEN, "properties": {"a": {"type": "string"}}, "required": ["a"], "not": {"enum": [1]}}, OPEN,
     [("", "not", "dropped"), ("", "properties", "dropped"), ("", "required", "dropped")], [{"a": "x"}]),
    ("additionalProperties true", {"type": "object", "additionalProperties": True, "maxProperties": 2},
     {"type": "object", "additionalProperties": ANY, "maxProperties": 2},
     [("", "additionalProperties", 'true becomes {"x-kubernetes-preserve-unknown-fields": true, "nullable": true}')],
     [{}, {"a": 1, "b": "x"}, {"a": None}]),
    ("additionalProperties false", {"type": "object", "additionalProperties": False}, {"type": "object"},
     [("", "additionalProperties", "dropped")], [{}]),
    ("additionalProperties beside properties", {"type": "object", "properties": {"a": {"type": "string"}},
        "additionalProperties": {"type": "string"}, "maxProperties": 2}, {"type": "object", "properties": {"a": {"type": "string"}}, **OPEN},
     [("", "additionalProperties", "dropped"), ("", "maxProperties", "dropped"), ("", "x-kubernetes-preserve-unknown-fields", "set to true")],
     [{"a": "x", "b": "y"}]),
    ("a map that preserves", {"type": "object", "additionalProperties": {"type": "string"}, **OPEN, "required": ["a"]},
     {"type": "object", "additionalProperties": {"type": "string"}},
     [("", "required", "dropped"), ("", "x-kubernetes-preserve-unknown-fields", "dropped")], [{"a": "x"}]),
    ("a list without items", {"type": "array", "maxItems": 2}, {"type": "array", "maxItems": 2, "items": ANY},
     [("", "items", 'set to {"x-kubernetes-preserve-unknown-fields": true, "nullable": true}')], [[1, None]]),
    ("a list that preserves", {"type": "array", "items": {"type": "object"}, **OPEN}, {"type": "array", "items": ANY},
     [("", "x-kubernetes-preserve-unknown-fields", "dropped"), ("/items", "nullable", "set to true"), ("/items", "type", "dropped"),
      ("/items", "x-kubernetes-preserve-unknown-fields", "set to true")], [[{}]]),

    # fractions and numbers beyond 64 bits
    ("a least integer", {"type": "integer", "minimum": 0.5, "maximum": 2.5}, {"type": "integer", "minimum": 1, "maximum": 2},
     [("", "maximum", "2.5 becomes 2"), ("", "minimum", "0.5 becomes 1")], [1, 2]),
    ("a least integer, exclusive", {"type": "integer", "minimum": -0.5, "exclusiveMinimum": True, "maximum": 2.5, "exclusiveMaximum": True},
     {"type": "integer", "minimum": -1, "exclusiveMinimum": True, "maximum": 3, "exclusiveMaximum": True},
     [("", "maximum", "2.5 becomes 3"), ("", "minimum", "-0.5 becomes -1")], [0, 2]),
    ("bounds beyond 64 bits", {"type": "integer", "minimum": -(2**63) - 1, "maximum": 2**63, "exclusiveMaximum": True}, {"type": "integer"},
     [("", "exclusiveMaximum", "dropped"), ("", "maximum", "dropped"), ("", "minimum", "dropped")], [2**63 - 1, -(2**63)]),
    ("bounds of 64 bits", {"type": "integer", "minimum": -(2**63), "maximum": 2**63 - 1}, None, [], [2**63 - 1, -(2**63)]),
    ("a bound of texts", {"type": "string", "minimum": 0.5}, {"type": "string"}, [("", "minimum", "dropped")], ["a"]),
    ("lengths", {"type": "string", "minLength": 0.5, "maxLength": 2**64}, {"type": "string"},
     [("", "maxLength", "dropped"), ("", "minLength", "dropped")], ["a"]),
    ("a fraction as a default", {"type": "object", "properties": {"a": {"type": "number", "default": 0.5}}},
     {"type": "object", "properties": {"a": OPEN}},
     [("/properties/a", "default", "dropped"), ("/properties/a", "type", "dropped"),
      ("/properties/a", "x-kubernetes-preserve-unknown-fields", "set to true")], [{}, {"a": 1}]),
    ("a fraction in a default", {"type": "object", "default": {"a": [0.5]}, "properties": {"a": {"type": "array", "items": OPEN}}},
     {"type": "object", "properties": {"a": {"type": "array", "items": OPEN}}}, [("", "default", "dropped")], [{}]),

    # a default takes with it what asks for its field
    ("a default of a required field", {"type": "object", "required": ["a", "b"], "minProperties": 2, "maxProperties": 3, "properties": {
        "a": {**OPEN, "default": 0.5}, "b": {"type": "string"}}},
     {"type": "object", "required": ["b"], "maxProperties": 3, "properties": {"a": OPEN, "b": {"type": "string"}}},
     [("", "minProperties", "dropped"), ("", "required", 'without "a"'), ("/properties/a", "default", "dropped")], [{"b": "x"}]),
    ("a default of the only required field", {"type": "object", "required": ["a"], "properties": {"a": {**OPEN, "default": [0.5]}}},
     {"type": "object", "properties": {"a": OPEN}}, [("", "required", "dropped"), ("/properties/a", "default", "dropped")], [{}]),
    ("a default of a field that a junctor names", {"type": "object", "oneOf": [{"required": ["a"]}, {"required": ["b"]}],
        "allOf": [{"required": ["a"]}, {"not": {"required": ["b"]}}], "properties": {"a": {**OPEN, "default": 0.5}, "b": {"type": "string"}}},
     {"type": "object", "allOf": [{"not": {"required": ["b"]}}], "properties": {"a": OPEN, "b": {"type": "string"}}},
     [("", "allOf", "without branch 0"), ("", "oneOf", "dropped"), ("/properties/a", "default", "dropped")], [{}]),
    ("a default of items", {"type": "array", "items": {"type": "integer", "default": 1}},
     {"type": "array", "items": {"type": "integer", "nullable": True}}, [("/items", "default", "dropped"), ("/items", "nullable", "set to true")],
     [[1, None]]),

    # enums
    ("an enum with others", {"type": "string", "nullable": True, "enum": ["a", None, 1, ["a"], {}, 0.5]},
     {"type": "string", "nullable": True, "enum": ["a"]}, [("", "enum", 'without null, 1, ["a"], {}, 0.5')], ["a", None]),
    ("an enum of integers", {"type": "integer", "enum": [True, 1, 2.5]}, {"type": "integer", "enum": [1]},
     [("", "enum", "without true, 2.5")], [1]),
    ("an enum of nothing that is a value", {"type": "integer", "enum": ["a"]}, {"type": "integer"}, [("", "enum", "dropped")], []),
    ("an empty enum", {"type": "string", "enum": []}, {"type": "string"}, [("", "enum", "dropped")], ["a"]),
    ("an enum beyond 64 bits", {"type": "integer", "enum": [1, 2**63]}, {"type": "integer"}, [("", "enum", "dropped")], [1, 2**63]),
    ("an enum of int-or-string", {"x-kubernetes-int-or-string": True, "enum": [1, "a", True]},
     {"x-kubernetes-int-or-string": True, "enum": [1, "a"]}, [("", "enum", "without true")], [1, "a"]),
    ("an enum of lists", {"type": "array", "items": {"type": "string"}, "enum": [["a"]]}, {"type": "array", "items": {"type": "string"}},
     [("", "enum", "dropped")], [["a"]]),

    # junctors
    ("a pattern in oneOf", {"type": "string", "oneOf": [{"minLength": 1}, {"pattern": "^$"}]}, {"type": "string"},
     [("", "oneOf", "dropped")], ["", "a"]),
    ("a pattern in allOf", {"type": "string", "allOf": [{"pattern": "^a"}, {"maxLength": 3}, {"format": "uuid"}]},
     {"type": "string", "allOf": [{"maxLength": 3}]}, [("", "allOf", "without branch 0, 2")], ["abc"]),
    ("nothing left in allOf", {"type": "string", "allOf": [{"pattern": "^a"}]}, {"type": "string"}, [("", "allOf", "dropped")], ["abc"]),
    ("deep in a junctor", {"type": "string", "anyOf": [{"maxLength": 1}, {"not": {"oneOf": [{"allOf": [{"pattern": "^a"}]}]}}]},
     {"type": "string"}, [("", "anyOf", "dropped")], ["b", "bb"]),
    ("a fraction in a junctor", {"type": "integer", "not": {"minimum": 2.5}, "anyOf": [{"enum": [0.5, 1]}, {"minimum": 1}]},
     {"type": "integer"}, [("", "anyOf", "dropped"), ("", "not", "dropped")], [1, 2]),
    ("an enum in a junctor", {"type": "string", "nullable": True, "not": {"enum": [None]}, "anyOf": [{"enum": []}]},
     {"type": "string", "nullable": True}, [("", "anyOf", "dropped"), ("", "not", "dropped")], ["a"]),
    ("a type in a junctor", {"x-kubernetes-int-or-string": True, "anyOf": [{"type": "integer", "minimum": 1}, {"type": "string"}],
        "allOf": [{"maximum": 5}, {"anyOf": INT_OR_STRING["anyOf"]}]}, {"x-kubernetes-int-or-string": True, "allOf": [{"maximum": 5}]},
     [("", "allOf", "without branch 1"), ("", "anyOf", "dropped")], [1, "a"]),
    ("properties in a junctor", {"type": "object", "properties": {"a": {"type": "string"}, "b": {"type": "string"}},
        "oneOf": [{"required": ["a"], "properties": {"a": {"enum": ["x"]}}}, {"required": ["b"]}]},
     {"type": "object", "properties": {"a": {"type": "string"}, "b": {"type": "string"}}}, [("", "oneOf", "dropped")],
     [{"a": "x"}, {"b": "x", "a": "y"}]),
    ("properties that say nothing in a junctor", {"type": "object", "properties": {"a": {"type": "string"}, "b": {"type": "string"}},
        "oneOf": [{"required": ["a"], "properties": {"a": {}}}, {"required": ["b"], "not": {"required": ["a"], "properties": {"a": {
            "properties": {"c": {}}}}}}],
        "not": {"properties": {}, "required": ["a", "b"]}, "anyOf": [{"required": ["a"], "properties": {"a": {"minLength": 1}}}]},
     {"type": "object", "properties": {"a": {"type": "string"}, "b": {"type": "string"}},
        "oneOf": [{"required": ["a"]}, {"required": ["b"], "not": {"required": ["a"]}}], "not": {"required": ["a", "b"]}},
     [("", "anyOf", "dropped"), ("", "not", 'without "properties" that say nothing'),
      ("", "oneOf", 'without "properties" that say nothing')], [{"a": "x"}]),
    ("properties that say nothing in allOf", {"type": "object", "properties": {"a": {"type": "string"}}, "allOf": [
        {"properties": {"a": {}}}, {"properties": {"a": {"minLength": 1}}}, {"required": ["a"]}]},
     {"type": "object", "properties": {"a": {"type": "string"}}, "allOf": [{}, {"required": ["a"]}]},
     [("", "allOf", 'without branch 1, without "properties" that say nothing')], [{"a": "x"}]),
    ("properties that say nothing of a text", {"type": "string", "anyOf": [{"properties": {"a": {}}, "maxLength": 1}]},
     {"type": "string", "anyOf": [{"maxLength": 1}]}, [("", "anyOf", 'without "properties" that say nothing')], ["a"]),
    ("a junctor with an undeclared name", {"type": "object", **OPEN, "properties": {"a": {"type": "string"}},
        "anyOf": [{"required": ["a"]}, {"required": ["z"]}], "required": ["a", "z"]},
     {"type": "object", **OPEN, "properties": {"a": {"type": "string"}}, "required": ["a"]},
     [("", "anyOf", "dropped"), ("", "required", 'without "z"')], [{"a": "x", "z": 1}]),
    ("five names", {"type": "object", "properties": {name: {"type": "boolean"} for name in "abcde"},
        "oneOf": [{"required": [name]} for name in "abcde"]}, {"type": "object", "properties": {name: {"type": "boolean"} for name in "abcde"}},
     [("", "oneOf", "dropped")], [{"e": True}]),
    ("five names in all", {"type": "object", "properties": {name: {"type": "boolean"} for name in "abcde"},
        "allOf": [{"required": ["a", "b"]}, {"required": ["b", "c", "d", "e"]}, {"required": ["c"]}], "not": {"required": ["d", "e"]},
        "oneOf": [{"required": ["d"]}, {"required": ["a"]}]},
     {"type": "object", "properties": {name: {"type": "boolean"} for name in "abcde"},
        "allOf": [{"required": ["a", "b"]}, {"required": ["c"]}], "oneOf": [{"required": ["d"]}, {"required": ["a"]}]},
     [("", "allOf", "without branch 1"), ("", "not", "dropped")], []),
    ("junctors of a list and a map", {"type": "object", "properties": {
        "l": {"type": "array", "items": {"type": "string"}, "not": {"maxItems": 1}},
        "m": {"type": "object", "additionalProperties": {"type": "string"}, "anyOf": [{"required": ["a"]}]}}},
     {"type": "object", "properties": {"l": {"type": "array", "items": {"type": "string"}},
        "m": {"type": "object", "additionalProperties": {"type": "string"}}}},
     [("/properties/l", "not", "dropped"), ("/properties/m", "anyOf", "dropped")], [{"l": ["a", "b"], "m": {"a": "x"}}]),

    # sets and map lists
    ("a set of objects", {"type": "array", "x-kubernetes-list-type": "set", "items": {"type": "object", "x-kubernetes-map-type": "atomic"}},
     {"type": "array", "x-kubernetes-list-type": "atomic", "items": {"type": "object", "x-kubernetes-map-type": "atomic"}},
     [("", "x-kubernetes-list-type", '"set" becomes "atomic"')], [[{}, {"a": 1}]]),
    ("a set of numbers", {"type": "array", "x-kubernetes-list-type": "set", "items": {"type": "number"}},
     {"type": "array", "x-kubernetes-list-type": "atomic", "items": OPEN},
     [("", "x-kubernetes-list-type", '"set" becomes "atomic"'), ("/items", "type", "dropped"),
      ("/items", "x-kubernetes-preserve-unknown-fields", "set to true")], [[0.5, 1]]),
    ("a set of nullables", {"type": "array", "x-kubernetes-list-type": "set", "items": {"type": "string", "nullable": True}},
     {"type": "array", "x-kubernetes-list-type": "atomic", "items": {"type": "string", "nullable": True}},
     [("", "x-kubernetes-list-type", '"set" becomes "atomic"')], [["a", None]]),
    ("an unknown list type", {"type": "array", "x-kubernetes-list-type": "bag", "items": {"type": "string"}},
     {"type": "array", "x-kubernetes-list-type": "atomic", "items": {"type": "string"}},
     [("", "x-kubernetes-list-type", '"bag" becomes "atomic"')], [["a"]]),
    ("keys without a map list", {"type": "array", "x-kubernetes-list-map-keys": ["a"], "items": {"type": "string"}},
     {"type": "array", "items": {"type": "string"}}, [("", "x-kubernetes-list-map-keys", "dropped")], [["a"]]),
    ("a key that is a number", {"type": "array", "x-kubernetes-list-type": "map", "x-kubernetes-list-map-keys": ["k"], "items": {
        "type": "object", "required": ["k"], "properties": {"k": {"type": "number"}}}},
     {"type": "array", "x-kubernetes-list-type": "atomic", "items": {"type": "object", "required": ["k"], "properties": {"k": OPEN}}},
     [("", "x-kubernetes-list-map-keys", "dropped"), ("", "x-kubernetes-list-type", '"map" becomes "atomic"'),
      ("/items/properties/k", "type", "dropped"), ("/items/properties/k", "x-kubernetes-preserve-unknown-fields", "set to true")],
     [[{"k": 1}, {"k": 1.5}]]),
    ("a key that loses its default", {"type": "array", "x-kubernetes-list-type": "map", "x-kubernetes-list-map-keys": ["k", "n"], "items": {
        "type": "object", "required": ["k", "n"], "properties": {"k": {"type": "string"}, "n": {"type": "integer", "default": 2**64}}}},
     {"type": "array", "x-kubernetes-list-type": "atomic", "items": {
        "type": "object", "required": ["k"], "properties": {"k": {"type": "string"}, "n": {"type": "integer"}}}},
     [("", "x-kubernetes-list-map-keys", "dropped"), ("", "x-kubernetes-list-type", '"map" becomes "atomic"'),
      ("/items", "required", 'without "n"'), ("/items/properties/n", "default", "dropped")], [[{"k": "a"}, {"k": "a", "n": 1}]]),
    ("a key that may be absent", {"type": "array", "x-kubernetes-list-type": "map", "x-kubernetes-list-map-keys": ["k"], "items": {
        "type": "object", "properties": {"k": {"type": "string"}}}},
     {"type": "array", "x-kubernetes-list-type": "atomic", "items": {"type": "object", "properties": {"k": {"type": "string"}}}},
     [("", "x-kubernetes-list-map-keys", "dropped"), ("", "x-kubernetes-list-type", '"map" becomes "atomic"')], [[{}, {"k": "a"}]]),
    ("a key twice", {"type": "array", "x-kubernetes-list-type": "map", "x-kubernetes-list-map-keys": ["k", "k"], "items": {
        "type": "object", "required": ["k"], "properties": {"k": {"type": "string"}}}},
     {"type": "array", "x-kubernetes-list-type": "atomic", "items": {
        "type": "object", "required": ["k"], "properties": {"k": {"type": "string"}}}},
     [("", "x-kubernetes-list-map-keys", "dropped"), ("", "x-kubernetes-list-type", '"map" becomes "atomic"')], [[{"k": "a"}]]),
    ("items that may be null", {"type": "array", "x-kubernetes-list-type": "map", "x-kubernetes-list-map-keys": ["k"], "items": {
        "type": "object", "nullable": True, "required": ["k"], "properties": {"k": {"type": "string"}}}},
     {"type": "array", "x-kubernetes-list-type": "atomic", "items": {
        "type": "object", "nullable": True, "required": ["k"], "properties": {"k": {"type": "string"}}}},
     [("", "x-kubernetes-list-map-keys", "dropped"), ("", "x-kubernetes-list-type", '"map" becomes "atomic"')], [[None, {"k": "a"}]]),
]

# a name; a root schema; its relaxed form; its lines
ROOTS = [
    ("an envelope with too much", {"type": "object", "properties": {
        "kind": {"type": "string", "pattern": "^K", "default": "K"},
        "metadata": {"required": ["name"], "description": "D", "properties": {
            "name": {"type": "string", "pattern": "^a", "maxLength": 3, "default": "a"}, "labels": {"type": "number"}}}}},
     {"type": "object", "properties": {"kind": {"type": "string"}, "metadata": {"description": "D", "type": "object", "properties": {
        "name": {"type": "string", "maxLength": 3}}}}},
     ['"/properties/kind" "default": dropped', '"/properties/kind" "pattern": dropped',
      '"/properties/metadata" "properties": without "labels"', '"/properties/metadata" "required": dropped',
      '"/properties/metadata" "type": set to "object"', '"/properties/metadata/properties/name" "default": dropped',
      '"/properties/metadata/properties/name" "pattern": dropped']),
    ("what a root may not have", {"type": "object", "nullable": True, "default": {}, "minProperties": 3, "maxProperties": 9,
        "additionalProperties": True, "required": ["kind", "spec", "what"], "anyOf": [{"required": ["kind"]}],
        "oneOf": [{"required": ["spec"]}, {"required": ["status"]}], "x-kubernetes-validations": [],
        "properties": {"kind": {"type": "string"}, "spec": {"type": "string"}, "status": {"type": "string"}}},
     {"type": "object", "required": ["kind", "spec"], "oneOf": [{"required": ["spec"]}, {"required": ["status"]}],
        "properties": {"kind": {"type": "string"}, "spec": {"type": "string"}, "status": {"type": "string"}}, **OPEN},
     ['"" "additionalProperties": dropped', '"" "anyOf": dropped', '"" "default": dropped', '"" "maxProperties": dropped',
      '"" "minProperties": dropped', '"" "nullable": dropped', '"" "required": without "what"', '"" "x-kubernetes-preserve-unknown-fields": set to true',
      '"" "x-kubernetes-validations": dropped']),
    ("a root that is no object", {"x-kubernetes-int-or-string": True}, {"type": "object"},
     ['"" "type": set to "object"', '"" "x-kubernetes-int-or-string": dropped']),
    ("a root that is open", OPEN, {"type": "object", **OPEN}, ['"" "type": set to "object"']),
    ("a reference as a root", {"$ref": "#", "properties": {"spec": {"type": "string"}}}, {"type": "object", **OPEN},
     ['"" "$ref": dropped', '"" "properties": dropped', '"" "type": set to "object"', '"" "x-kubernetes-preserve-unknown-fields": set to true']),
    ("names that look like steps", {"type": "object", "properties": {"properties": {"type": "object", "properties": {
        "items": {"type": "array", "default": [], "items": {"type": "string", "pattern": "a"}}, "a/b~c": {"type": "string", "pattern": "a"}}},
        "metadata.name": {"type": "string", "default": "a"}}},
     {"type": "object", "properties": {"properties": {"type": "object", "properties": {
        "items": {"type": "array", "default": [], "items": {"type": "string"}}, "a/b~c": {"type": "string"}}},
        "metadata.name": {"type": "string", "default": "a"}}},
     ['"/properties/properties/properties/a~1b~0c" "pattern": dropped', '"/properties/properties/properties/items/items" "pattern": dropped']),
]


class Fields(unittest.TestCase):
    def test_tables(self):
        """Each schema becomes what is written beside it, with these lines, and keeps the values that it accepted."""
        for name, before, after, changes, values in FIELDS:
            with self.subTest(name):
                got, lines = relaxed_root(with_field(before))
                self.assertEqual(got, with_field(before if after is None else after))
                wanted = [f'"/properties/x{place}" "{word}": {change}' for place, word, change in changes]
                self.assertEqual(lines, wanted)
                for value in values:
                    self.assertTrue(Validator.takes(before, value), f"{value} is not valid before")
                    self.assertTrue(Validator.takes(got["properties"]["x"], value), f"{value} is not valid any more")
        for name, before, after, lines in ROOTS:
            with self.subTest(name):
                self.assertEqual(relaxed_root(before), (after, lines))

    def test_properties_that_say_nothing_change_nothing(self):
        """Without them the same objects are valid, under oneOf and not too."""
        fields = {name: {"type": "string"} for name in "abc"}
        before = {"type": "object", "properties": fields, "oneOf": [
            {"required": ["a"], "properties": {"a": {}}},
            {"required": ["b"], "not": {"required": ["c"], "properties": {"c": {"properties": {"d": {}}}, "a": {}}}},
        ]}
        after, _ = relaxed_root(with_field(before))
        for number in range(8):
            value = {name: "x" for bit, name in enumerate("abc") if number >> bit & 1}
            self.assertEqual(Validator.accepts(before, value), Validator.accepts(after["properties"]["x"], value), value)
            self.assertEqual(Validator.accepts(before, value), ("a" in value) != ("b" in value and "c" not in value), value)

    def test_the_order_of_members_stays(self):
        schema = with_field({"maxLength": 3, "type": "string", "pattern": "a", "description": "é \u2028"})
        _, out, _ = relax(json.dumps(definition(schema)))
        wanted = definition(with_field({"maxLength": 3, "type": "string", "description": "é \u2028"}))
        self.assertEqual(out, json.dumps(wanted, indent=2, ensure_ascii=False) + "\n")

    def test_once_more_changes_nothing(self):
        schemas = [with_field(field[1]) for field in FIELDS] + [root[1] for root in ROOTS]
        _, once, _ = relax(json.dumps(definition(*schemas)))
        self.assertEqual(relax(once), (0, once, ""))


class Numbers(unittest.TestCase):
    def test_numbers_are_kept_exactly(self):
        """An integer of 64 bits stays one however it is written; none is rounded on the way."""
        text = json.dumps(definition(with_field({"type": "integer", "enum": ["NUMBERS"], "example": "NUMBERS"})))
        text = text.replace('["NUMBERS"]', "[9007199254740993, 1.0, 1e2, -0, 9223372036854775807]").replace('"NUMBERS"', "9007199254740993.0")
        status, out, err = relax(text)
        self.assertEqual((status, err), (0, ""))
        got = schema_of(json.loads(out, parse_float=str))["properties"]["x"]
        self.assertEqual(got["enum"], [9007199254740993, 1, 100, 0, 9223372036854775807])
        self.assertEqual(got["example"], 9007199254740993)

    def test_bounds_that_no_float_holds(self):
        text = json.dumps(definition(with_field({"type": "integer", "minimum": "LEAST", "maximum": "MOST"})))
        for least, most, wanted in [
            ("9007199254740992.5", "9223372036854775806.5", {"minimum": 9007199254740993, "maximum": 9223372036854775806}),
            ("9223372036854775807.5", "-9223372036854775808.5", {}),
            ("0.00000000000000000000000000000000001", "1e-400", {"minimum": 1, "maximum": 0}),
            ("1e999", "-1e99999999999999999999", {}),
        ]:
            with self.subTest(least):
                _, out, _ = relax(text.replace('"LEAST"', least).replace('"MOST"', most))
                self.assertEqual(schema_of(json.loads(out))["properties"]["x"], {"type": "integer", **wanted})


class Definitions(unittest.TestCase):
    def test_versions(self):
        """Each version is relaxed, and the lines name it. A version without a schema stays as it is."""
        document = definition(with_field({"type": "string", "pattern": "a"}), {"type": "object"}, with_field({"type": "number"}))
        document["spec"]["versions"].append({"name": "v4", "served": False})
        status, out, err = relax(json.dumps(document))
        self.assertEqual(status, 0)
        self.assertEqual(err.splitlines(), [
            'crdx-relax: version "v1": "/properties/x" "pattern": dropped',
            'crdx-relax: version "v3": "/properties/x" "type": dropped',
            'crdx-relax: version "v3": "/properties/x" "x-kubernetes-preserve-unknown-fields": set to true',
        ])
        wanted = definition(with_field({"type": "string"}), {"type": "object"}, with_field(OPEN))
        wanted["spec"]["versions"].append({"name": "v4", "served": False})
        self.assertEqual(json.loads(out), wanted)

    def test_a_change_of_several_versions_is_said_once(self):
        both = {"x": {"type": "string", "pattern": "a"}, "y": {"type": "string", "pattern": "a"}}
        document = definition({"type": "object", "properties": both}, {"type": "object"}, with_field({"type": "string", "pattern": "b"}))
        self.assertEqual(relax(json.dumps(document))[2].splitlines(), [
            'crdx-relax: versions "v1", "v3": "/properties/x" "pattern": dropped',
            'crdx-relax: version "v1": "/properties/y" "pattern": dropped',
        ])

    def test_one_version(self):
        """With --version that version is printed alone, and nothing is said of the others, whatever they have."""
        document = definition(with_field({"type": "integer", "minimum": "x"}), with_field({"type": "string", "pattern": "a"}))
        document["spec"]["versions"][0]["weight"] = 0.5
        status, out, err = relax(json.dumps(document), "--version", "v2")
        self.assertEqual((status, err), (0, 'crdx-relax: "/properties/x" "pattern": dropped\n'))
        wanted = definition({}, with_field({"type": "string"}))
        wanted["spec"]["versions"] = wanted["spec"]["versions"][1:]
        self.assertEqual(json.loads(out), wanted)

    def test_a_version_that_is_not_there(self):
        document = definition(with_field({"type": "string"}))
        document["spec"]["versions"].append({"name": "v2"})
        for version, line in [("v3", "S2"), ("", "S2"), ("v2", "S1")]:
            with self.subTest(version):
                self.assertEqual(relax(json.dumps(document), "--version", version), (3, "", f"crdx-relax: crd: {line}\n"))

    def test_the_rest_stays(self):
        document = definition(with_field({"type": "string"}))
        document["status"] = {"conditions": [], "storedVersions": ["v1"], "$ref": {"pattern": "type"}}
        self.assertEqual(json.loads(relax(json.dumps(document))[1]), document)

    def test_a_long_definition_is_printed_so_that_crdx_can_read_it(self):
        fields = {f"f{number}": {"type": "string", "pattern": "a", "description": "d" * 100} for number in range(6500)}
        text = json.dumps(definition({"type": "object", "properties": fields}), separators=(",", ":"))
        self.assertLessEqual(len(text), 1_048_576)
        status, out, _ = relax(text)
        self.assertEqual(status, 0)
        self.assertLessEqual(len(out), 1_048_576)
        self.assertEqual(json.loads(out), json.loads(text.replace(',"pattern":"a"', "")))


class BadInput(unittest.TestCase):
    def refused(self, text, line, status=3):
        self.assertEqual(relax(text), (status, "", f"crdx-relax: {line}\n"))

    def test_no_json(self):
        whole = json.dumps(definition(with_field({"type": "string"})))
        deep = "[" * 128 + "]" * 128
        for text in [
            "", "kind: CustomResourceDefinition\n", "\ufeff" + whole, whole[:-1], whole + "x", b"\xff", whole.replace("Widget", "\x01"),
            '{"a":NaN}', '{"a":-Infinity}', '{"a":01}', '["\\ud800"]', '{"\\udc00":1}', deep, "[" * 100_000,
        ]:
            with self.subTest(text[:30]):
                self.refused(text, "crd: J3")

    def test_too_long(self):
        self.refused(" " * 1_048_577, "crd: J4")
        self.refused(" " * 1_048_576, "crd: J3")

    def test_no_definition(self):
        good = definition(with_field({"type": "string"}))
        spec = good["spec"]
        twice = [*spec["versions"], *spec["versions"]]
        for bad in [
            [], 1, {}, {**good, "apiVersion": "apiextensions.k8s.io/v1beta1"}, {**good, "kind": "List"}, {**good, "spec": []},
            *({**good, "spec": {**spec, **change}} for change in [
                {"group": ""}, {"names": {"kind": 1}}, {"names": None}, {"versions": {}}, {"versions": 1}, {"versions": []}, {"versions": twice},
                {"versions": [{"name": "v1"}]}, {"versions": [*spec["versions"], {}]}, {"versions": ["v1"]},
            ]),
        ]:
            with self.subTest(json.dumps(bad)[:60]):
                self.refused(json.dumps(bad), "crd: S1")

    def test_forms_of_keywords(self):
        for schema, pointer in [
            ({"type": ["string", "null"]}, "/properties/x/type"),
            ({"type": "string", "minLength": -1}, "/properties/x/minLength"),
            ({"type": "integer", "minimum": True}, "/properties/x/minimum"),
            ({"type": "integer", "minimum": "0.5", "exclusiveMaximum": 5}, "/properties/x/exclusiveMaximum"),
            ({"type": "object", "required": ["a", 0.5]}, "/properties/x/required/1"),
            ({"type": "object", "properties": {"b": 1, "a/b": {"items": []}}}, "/properties/x/properties/a~1b/items"),
            ({"type": "string", "anyOf": []}, "/properties/x/anyOf"),
            ({"type": "string", "pattern": 1, "allOf": [{}] * 10 + [1, {"not": 1}] + [{"enum": 1}]}, "/properties/x/allOf/10"),
            ({"type": "string", "allOf": [{"not": {"nullable": None}}]}, "/properties/x/allOf/0/not/nullable"),
            ({"type": "object", "additionalProperties": {"uniqueItems": 1}}, "/properties/x/additionalProperties/uniqueItems"),
            ({"type": "object", "additionalProperties": None}, "/properties/x/additionalProperties"),
        ]:
            with self.subTest(pointer):
                self.refused(json.dumps(definition(with_field(schema))), f'crd: S3 "{pointer}"')

    def test_a_fraction_outside_schemas(self):
        document = definition(with_field({"type": "string"}))
        document["metadata"]["weight"] = 0.5
        self.refused(json.dumps(document), "crd: J1")

    def test_files(self):
        with tempfile.TemporaryDirectory() as folder:
            for words in [[f"{folder}/missing.json"], [folder], ["--", "-missing"]]:
                with self.subTest(words):
                    self.assertEqual(relax("", *words), (4, "", "crdx-relax: crd: read failed\n"))
            path = Path(folder) / "-"
            path.write_text(json.dumps(definition({"type": "object"})), encoding="utf-8")
            ran = subprocess.run([RELAX, "./-"], cwd=folder, stdin=subprocess.DEVNULL, capture_output=True, check=False)
            self.assertEqual((ran.returncode, json.loads(ran.stdout)), (0, definition({"type": "object"})))
            self.assertEqual(relax(path.read_text(encoding="utf-8"), "-")[0], 0)

    def test_arguments(self):
        for words in [["a", "b"], ["--what"], ["--version"]]:
            status, out, err = relax("", *words)
            self.assertEqual((status, out), (2, ""))
            self.assertIn("usage: crdx-relax", err)
        status, out, err = relax("", "--help")
        self.assertEqual((status, err), (0, ""))
        self.assertIn("usage: crdx-relax", out)


class Streams(unittest.TestCase):
    """Real streams that break. The shell sets them up, since it can close them."""

    def shell(self, script, text=""):
        ran = subprocess.run(["bash", "-c", script, "bash", RELAX], input=text.encode("utf-8"), capture_output=True, check=False)
        return ran.returncode, ran.stdout.decode("utf-8"), ran.stderr.decode("utf-8")

    def setUp(self):
        fields = {f"f{number}": {"type": "string", "pattern": "a"} for number in range(5000)}
        self.long = json.dumps(definition({"type": "object", "properties": fields}))

    def test_a_reader_that_goes_away_is_not_reported(self):
        self.assertEqual(self.shell('"$1" | head -n 1; echo "${PIPESTATUS[0]}"', self.long), (0, "{\n4\n", ""))
        self.assertEqual(self.shell('"$1" --help | true'), (0, "", ""))

    def test_a_full_device(self):
        self.assertEqual(self.shell('"$1" >/dev/full', self.long), (4, "", "crdx-relax: write failed\n"))

    def test_closed_streams(self):
        self.assertEqual(self.shell('"$1" <&-'), (4, "", "crdx-relax: crd: read failed\n"))
        self.assertEqual(self.shell('"$1" >&-', self.long), (4, "", "crdx-relax: write failed\n"))
        status, out, err = self.shell('"$1" 2>&-', self.long)
        self.assertEqual((status, json.loads(out), err), (0, json.loads(self.long.replace(', "pattern": "a"', "")), ""))

    def test_a_file_without_end(self):
        self.assertEqual(self.shell('"$1" /dev/zero'), (3, "", "crdx-relax: crd: J4\n"))


class Drawn:
    """Schemas and values drawn at random, the same ones in each run."""

    def __init__(self, seed):
        self.random = random.Random(seed)

    def some(self, choices, most=2):
        return self.random.sample(choices, self.random.randint(0, most))

    def branch(self, depth):
        choices = [
            ("minimum", self.random.choice([0, 1, 0.5])), ("maximum", self.random.choice([1, 2, 1.5])), ("exclusiveMinimum", True),
            ("maxLength", 1), ("minLength", 1), ("enum", self.some([0, 1, "a", None, 0.5], 3)), ("pattern", "a"), ("multipleOf", 2),
            ("required", self.some(["a", "b", "c"])), ("type", "integer"), ("properties", {"a": self.random.choice([{}, {"minimum": 1}])}), ("maxProperties", 1),
        ]
        branch = dict(self.some(choices))
        if depth > 0 and self.random.random() < 0.3:
            branch.update(self.junctors(depth - 1))
        return branch

    def junctors(self, depth=1):
        word = self.random.choice(["allOf", "anyOf", "oneOf", "not"])
        if word == "not":
            return {word: self.branch(depth)}
        return {word: [self.branch(depth) for _ in range(self.random.randint(1, 3))]}

    def schema(self, depth):
        kind = self.random.choice(["integer", "string", "boolean", "number", "int-or-string", "open", "array", "object", "map"])
        if depth == 0 and kind in ("array", "object", "map"):
            kind = "integer"
        schema = {"type": {"map": "object"}.get(kind, kind)}
        if kind == "int-or-string":
            schema = {"x-kubernetes-int-or-string": True}
        elif kind == "open":
            schema = dict(OPEN)
        elif kind == "array":
            schema["items"] = self.schema(depth - 1)
            schema.update(self.some([("minItems", 1), ("maxItems", 2), ("uniqueItems", True), ("x-kubernetes-list-type", "set")]))
            if schema["items"].get("properties") and self.random.random() < 0.7:
                schema.update({"x-kubernetes-list-type": "map", "x-kubernetes-list-map-keys": list(schema["items"]["properties"])[:1]})
        elif kind == "object":
            schema["properties"] = {name: self.field(depth - 1) for name in self.some(["a", "b", "c"], 3)}
            schema.update(self.some([
                ("required", self.some(["a", "b", "c"])), ("minProperties", 1), ("maxProperties", 2), ("additionalProperties", True),
                ("x-kubernetes-preserve-unknown-fields", True), ("x-kubernetes-embedded-resource", True),
            ]))
        elif kind == "map":
            schema["additionalProperties"] = self.random.choice([True, self.schema(depth - 1)])
            schema.update(self.some([("minProperties", 1), ("maxProperties", 2), ("required", ["a"])]))
        else:
            schema.update({word: value for word, value in self.branch(0).items() if word not in ("type", "properties")})
        schema.update(self.some([("nullable", True)], 1))
        if self.random.random() < 0.4:
            schema.update(self.junctors())
        return schema

    def field(self, depth):
        schema = self.schema(depth)
        if self.random.random() < 0.4:
            schema["default"] = self.value(schema, 2)
        return schema

    def value(self, schema, depth):
        """A value that is likely one of this schema."""
        if depth == 0 or self.random.random() < 0.1:
            return self.random.choice([None, True, 0, 1, 2, 0.5, "", "a", "ab", [], {}])
        kind = schema.get("type", "number")
        if kind == "array":
            return [self.value(schema.get("items", {}), depth - 1) for _ in range(self.random.randint(0, 3))]
        if kind == "object":
            fields, others = schema.get("properties", {}), schema.get("additionalProperties")
            names = self.some(["a", "b", "c", "d"], 3)
            below = {name: fields.get(name, others if isinstance(others, dict) else {}) for name in names}
            return {name: self.value(one, depth - 1) for name, one in below.items() if name in fields or others is not None}
        return self.random.choice({"string": ["", "a", "ab"], "boolean": [True, False]}.get(kind, [0, 1, 2, 3, 0.5, "a"]))


class Widening(unittest.TestCase):
    def test_what_was_valid_stays_valid(self):
        """For schemas drawn at random: what was valid, as it is or with defaults in it, stays so."""
        drawn, kept = Drawn(1), 0
        schemas = [with_field(drawn.field(3)) for _ in range(1500)]
        _, out, _ = relax(json.dumps(definition(*schemas)))
        document = json.loads(out)
        for number, before in enumerate(schemas):
            after = schema_of(document, number)
            for _ in range(40):
                value = {"x": drawn.value(before["properties"]["x"], 4)} if drawn.random.random() < 0.9 else {}
                for test in (Validator.accepts, Validator.takes):
                    if test(before, value):
                        kept += 1
                        self.assertTrue(test(after, value), f"{test.__name__}: {value}\nbefore {before}\nafter {after}")
        self.assertGreater(kept, 20_000)
        status, again, err = relax(out)
        self.assertEqual((status, again), (0, out))
        for line in err.splitlines():
            self.assertRegex(line, ': still refused: V14 "[^"]*" bad default$')


class Examples(unittest.TestCase):
    def test_relaxed_forms(self):
        """The relaxed form of each example, and the lines on it, are those that are kept beside it."""
        for name in SHAPES:
            with self.subTest(name):
                folder = ROOT / "examples" / name
                status, out, err = relax("", folder / "crd.json")
                self.assertEqual((status, err), (0, (folder / "relaxed.txt").read_text(encoding="utf-8")))
                self.assertEqual(out, (folder / "relaxed.json").read_text(encoding="utf-8"))
                self.assertEqual(relax(out), (0, out, ""))

    def test_what_is_structural_stays_as_it_is(self):
        for name in ["widget", "issuer", "alert-rule"]:
            text = (ROOT / "examples" / name / "crd.json").read_text(encoding="utf-8")
            status, out, err = relax(text)
            self.assertEqual((status, json.loads(out), err), (0, json.loads(text), ""))


class Structural(unittest.TestCase):
    """What the program says of relaxed schemas."""

    def check(self, text):
        """The status and the lines of `crdx check` for a text after crdx-relax."""
        with tempfile.TemporaryDirectory() as folder:
            file = Path(folder) / "crd.json"
            file.write_text(relax(text)[1], encoding="utf-8")
            return program("check", file, "v1")

    def test_examples(self):
        for name in [*SHAPES, "workflow"]:
            with self.subTest(name):
                text = (ROOT / "examples" / name / "crd.json").read_text(encoding="utf-8")
                self.assertEqual(self.check(text), (0, "structural\n"))

    def test_tables(self):
        """All fields of the table in one schema, in groups, and each root."""
        groups = {}
        for number, field in enumerate(FIELDS):
            groups.setdefault(f"g{number // 20}", {"type": "object", "properties": {}})["properties"][f"f{number}"] = field[1]
        for name, schema in [("fields", {"type": "object", "properties": groups}), *(root[:2] for root in ROOTS)]:
            with self.subTest(name):
                self.assertEqual(self.check(json.dumps(definition(schema))), (0, "structural\n"))

    def test_samples_without_status(self):
        """With `status` out of the schema, the samples are those that had none."""
        folder = ROOT / "examples" / "certificate"
        document = json.loads((folder / "relaxed.json").read_text(encoding="utf-8"))
        del schema_of(document)["properties"]["status"]
        lines = (folder / "samples-of-8-nodes.txt").read_text(encoding="utf-8").splitlines(keepends=True)
        with tempfile.TemporaryDirectory() as temporary:
            file = Path(temporary) / "no-status.json"
            file.write_text(json.dumps(document), encoding="utf-8")
            got = program("sample", file, "v1", "--pools", folder / "pools.json", "--limit", "8", "--name", "sample")
        envelope = '{"apiVersion":"certs.example.org/v1","kind":"Certificate","metadata":{"name":"sample"},'
        wanted = [envelope + line[1:] for line in lines if '"status"' not in line]
        self.assertEqual(got, (0, "".join(wanted)))

    def test_samples_over_the_values_of_pools(self):
        """Over the values that --pools writes, each sample is valid in the schema as it was written."""
        folder = ROOT / "examples" / "certificate"
        text = (folder / "crd.json").read_text(encoding="utf-8")
        with tempfile.TemporaryDirectory() as temporary:
            file, pools = Path(temporary) / "crd.json", Path(temporary) / "pools.json"
            pools.write_text('{"strings":["web"]}', encoding="utf-8")
            file.write_text(relax(text, "--pools", pools)[1], encoding="utf-8")
            status, lines = program("sample", file, "v1", "--pools", pools, "--limit", "9", "--count", "1000")
        self.assertEqual(status, 0)
        self.assertEqual(len(lines.splitlines()), 1000)
        for line in lines.splitlines():
            self.assertTrue(Validator.accepts(schema_of(json.loads(text)), json.loads(line)), line)

    def test_drawn(self):
        """Schemas drawn at random break no rule but that on bad defaults, and crdx-relax says at which places."""
        drawn, bad = Drawn(2), 0
        for number in range(8):
            with self.subTest(number):
                fields = {f"f{index}": drawn.field(3) for index in range(30)}
                text = json.dumps(definition({"type": "object", "properties": fields}))
                said = re.findall("still refused: (.*\n)", relax(text)[2])
                self.assertEqual(self.check(text), (1, "".join(said)) if said else (0, "structural\n"))
                bad += len(said)
        self.assertGreater(bad, 20)


if __name__ == "__main__":
    unittest.main()
