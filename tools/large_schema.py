#!/usr/bin/env python3
"""Prints a CustomResourceDefinition whose schema has exactly so many places, with so many fields at the widest object; with
--object, an object of it that has every field. Its shape is that of definitions that operators ship: objects in objects, lists, map
lists, maps, texts, integers with bounds, choices and defaults."""
from __future__ import annotations

import argparse
import json
import sys
from typing import Dict

sys.dont_write_bytecode = True

from crdx_schemas.documents import Json

Schema = Dict[str, Json]

SCALARS: list[tuple[Schema, Json]] = [
    ({"type": "string"}, "text"),
    ({"type": "integer", "minimum": 0, "maximum": 65535}, 80),
    ({"type": "boolean"}, True),
    ({"type": "string", "enum": ["Always", "IfNotPresent", "Never"]}, "Always"),
    ({"type": "integer", "default": 30}, 30),
    ({"x-kubernetes-int-or-string": True}, "50%"),
]


def compound(places: int, number: int) -> tuple[Schema, Json]:
    """A schema of so many places, at least two, and a value of it."""
    if places == 2:
        scalar, value = SCALARS[0]
        if number % 2:
            return {"type": "object", "additionalProperties": scalar}, {"key": value}
        return {"type": "array", "items": scalar}, [value]
    if places >= 4 and number % 3 == 0:
        item, value = fields(places - 2, 16)
        item["required"] = ["name"]
        return {"type": "array", "items": item, "x-kubernetes-list-type": "map", "x-kubernetes-list-map-keys": ["name"]}, [value]
    return fields(places - 1, 16)


def fields(places: int, most: int) -> tuple[Schema, Json]:
    """An object with so many places below it and at most so many fields, the first of them the text `name`; and a value of it."""
    (scalar, text), others = SCALARS[0], min(most, places) - 1
    properties: Schema = {"name": scalar}
    value: dict[str, Json] = {"name": text}
    for number in range(1, others + 1):
        name = f"f{number}"
        below = (places - 1) // others + (number <= (places - 1) % others)
        properties[name], value[name] = SCALARS[number % len(SCALARS)] if below == 1 else compound(below, number)
    return {"type": "object", "properties": properties}, value


def large(places: int, widest: int) -> tuple[Json, Json]:
    """A definition whose schema has so many places, and an object of it."""
    spec, value = fields(places - 2, widest)
    return definition("Large", {"type": "object", "properties": {"spec": spec}}), {"spec": value}


def definition(kind: str, schema: Schema) -> Json:
    version: dict[str, Json] = {"name": "v1", "served": True, "storage": True, "schema": {"openAPIV3Schema": schema}}
    plural = f"{kind.lower()}s"
    names: dict[str, Json] = {"kind": kind, "plural": plural}
    return {
        "apiVersion": "apiextensions.k8s.io/v1",
        "kind": "CustomResourceDefinition",
        "metadata": {"name": f"{plural}.example.org"},
        "spec": {"group": "example.org", "names": names, "scope": "Namespaced", "versions": [version]},
    }


def compact(tree: Json) -> str:
    return json.dumps(tree, separators=(",", ":"))


def main() -> None:
    parser = argparse.ArgumentParser(description=__doc__)
    parser.add_argument("places", type=int, help="how many places the schema has, at least 3")
    parser.add_argument("widest", type=int, help="how many fields spec has at most; other objects have 16 at most")
    parser.add_argument("--object", action="store_true", help="prints an object with every field")
    arguments = parser.parse_args()
    crd, value = large(arguments.places, arguments.widest)
    print(compact(value if arguments.object else crd))


if __name__ == "__main__":
    main()
