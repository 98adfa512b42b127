"""The definitions, objects and pools over which tools/cost.py runs crdx."""
from __future__ import annotations

from typing import Callable, Dict, Iterable

from crdx_schemas.documents import Json
from large_schema import Schema, definition, large

Documents = Dict[str, Callable[[], Json]]

INTEGER: Schema = {"type": "integer"}
BOOLEAN: Schema = {"type": "boolean"}
SET: Schema = {"type": "array", "x-kubernetes-list-type": "set", "items": INTEGER}


# ---- schemas

def define(schema: Schema) -> Json:
    return definition("Widget", schema)


def object_of(fields: dict[str, Schema], **keywords: Json) -> Schema:
    """An object of these fields, with other keywords."""
    properties: Schema = {**fields}
    return {"type": "object", **keywords, "properties": properties}


def field_of(schema: Schema) -> Json:
    """A definition of an object with one field, `x`."""
    return define(object_of({"x": schema}))


def map_list(keys: list[str], fields: dict[str, Schema]) -> Schema:
    names: list[Json] = [*keys]
    return {"type": "array", "x-kubernetes-list-type": "map", "x-kubernetes-list-map-keys": names, "items": object_of(fields, required=names)}


def list_of_fifteen(item: Schema) -> Json:
    """A definition of a required list, `t`, of exactly fifteen items."""
    return define(object_of({"t": {"type": "array", "minItems": 15, "maxItems": 15, "items": item}}, required=["t"]))


def objects(outer: int, inner: int, scalar: Schema, description: int = 0) -> Json:
    """A definition of so many objects of so many scalars, each place with a description of so many bytes."""
    said: Schema = {"description": "x" * description} if description else {}
    scalars: dict[str, Schema] = {f"b{number}": {**said, **scalar} for number in range(inner)}
    return define(object_of({f"a{number}": {**said, **object_of(scalars)} for number in range(outer)}))


def nested(depth: int) -> Json:
    schema: Schema = {"type": "object"}
    for _ in range(depth):
        schema = object_of({"p": schema})
    return define(schema)


def enums(branches: int) -> Json:
    """A definition of a field with an enum of 64 integers, and so many branches with one each."""
    values: list[Json] = [*range(64)]
    any_of: list[Json] = [{"enum": values} for _ in range(branches)]
    return define(object_of({"a": {**INTEGER, "enum": values, "anyOf": any_of}}))


def branches(count: int) -> Json:
    """A definition of a list of integers, each of which so many branches have to hold for, with an enum of 64 each."""
    all_of: list[Json] = [{"enum": [*range(64)]} for _ in range(count)]
    return field_of({"type": "array", "items": {**INTEGER, "allOf": all_of}})


def keywords(count: int) -> Json:
    """A definition of a field with so many keywords that no kind has."""
    unknown: Schema = {f"k{number:05}": 1 for number in range(count)}
    return define(object_of({"a": {**unknown, "type": "string"}}))


def map_lists(outer: int, inner: int) -> Json:
    """A definition of so many objects of so many map lists of four keys each."""
    keys = [f"k{number}" for number in range(4)]
    lists = {f"b{number}": map_list(keys, {key: {"type": "string"} for key in keys}) for number in range(inner)}
    return define(object_of({f"a{number}": object_of(lists) for number in range(outer)}))


def optional(names: str) -> Json:
    """A definition of an optional integer for each of these letters."""
    return define(object_of({name: INTEGER for name in names}))


def named_fields(named: int) -> Json:
    """A definition of 28 objects of truth values, with junctors at each object that name so many fields, or with none: with junctors 511
    places."""
    junctor: Schema = {"not": {"required": [f"b{number}" for number in range(named)]}} if named else {}

    def truth_values(count: int) -> dict[str, Schema]:
        return {f"b{number}": BOOLEAN for number in range(count)}

    inner = {f"a{number}": object_of(truth_values(16 if number else 17), **junctor) for number in range(28)}
    return define(object_of({**truth_values(4), **inner}, **junctor))


# ---- values

def x_of(value: Iterable[Json]) -> Json:
    """An object whose field `x` has these items."""
    return {"x": [*value]}


def name_of(number: int) -> str:
    """A pattern of names, each number's its own."""
    return rf"^a{number}[a-z0-9]([-a-z0-9]{{0,61}}[a-z0-9])?(\.[a-z0-9]+)*$"


def digits(number: int, base: int) -> list[int]:
    """The last fifteen digits of a number, the highest first."""
    return [number // base**place % base for place in reversed(range(15))]


def fifteen(number: int) -> Json:
    """The object of this number, from 0 on, among those of a required list of fifteen objects of three required truth values: all have
    62 nodes."""
    return {"t": [{"a": digit >= 4, "b": digit % 4 >= 2, "c": digit % 2 == 1} for digit in digits(number, 8)]}


def one_of_two(number: int) -> Json:
    """The object of this number, from 0 on, among those of a required list of fifteen objects that have one of two truth values: all
    have 32 nodes."""
    return {"t": [{"a" if digit >= 2 else "b": digit % 2 == 1} for digit in digits(number, 4)]}


def two_of_truths(number: int) -> Json:
    """The object of this number, from 0 on, among those of 1,024 optional truth values that have two of them: the later the first field,
    the earlier the object."""
    first = 1022
    while number >= 4 * (1023 - first):
        number -= 4 * (1023 - first)
        first -= 1
    half = 2 * (1023 - first)
    rest = number % half
    return {f"f{first:04}": number >= half, f"f{1023 - rest // 2:04}": rest % 2 == 1}


# ---- pools

def integers_and_strings(count: int) -> dict[str, Json]:
    return {"integers": [*range(count)], "strings": [f"s{number}" for number in range(count)]}


def full_pools(count: int) -> Json:
    """Pools with so many entries in each list but that of names."""
    return {**integers_and_strings(count), "names": [f"n{number}" for number in range(min(count, 32))], "any": [[number] for number in range(count)]}


# ---- all of them, by the names that commands have for them

LARGE_SCHEMAS: Documents = {
    "24-steps": lambda: nested(24),
    "32-by-16-properties": lambda: objects(32, 16, INTEGER),
    "511-enums-of-64": lambda: enums(510),
    "511-places-1-MiB": lambda: objects(30, 16, INTEGER, 2000),
    "80001-keywords": lambda: keywords(80000),
    "84-map-lists-of-4-keys": lambda: map_lists(3, 28),
    "default-of-160000-integers-in-a-set": lambda: field_of({**SET, "default": [*range(160000)]}),
    "descriptions-of-1000000-bytes": lambda: objects(1, 1, INTEGER, 500000),
}

LARGE_OBJECTS: Documents = {
    "160000-integers": lambda: x_of(range(160000)),
    "150000-descending-integers": lambda: x_of(reversed(range(150000))),
    "200000-integers-of-10000-values": lambda: x_of(number % 10000 for number in range(200000)),
    "500000-digits": lambda: x_of(number % 10 for number in range(500000)),
    "10000-items-of-4-keys": lambda: x_of({"a": 0, "b": 0, "c": 0, "d": number} for number in range(10000)),
    "90000-members": lambda: {"x": {f"m{number}": 0 for number in range(90000)}},
}

SCHEMAS_OF_OBJECTS: Documents = {
    "set": lambda: field_of(SET),
    "500-branches": lambda: branches(500),
    "list": lambda: field_of({"type": "array", "items": INTEGER}),
    "numbers": lambda: field_of({"type": "array", "items": {"type": "number", "minimum": 0.25}}),
    "map-list": lambda: field_of(map_list([*"abcd"], {key: INTEGER for key in "abcd"})),
    "map": lambda: field_of({"type": "object", "additionalProperties": INTEGER}),
    "object": lambda: field_of({"type": "object"}),
    "preserving": lambda: define({"type": "object", "x-kubernetes-preserve-unknown-fields": True}),
}

# definitions in the shape of those that operators ship, with an object that has every field, and one with a pattern at each field
REAL_SIZE: Documents = {
    "16000-places": lambda: large(16000, 117)[0],
    "object-of-16000-places": lambda: large(16000, 117)[1],
    "2021-places": lambda: large(2021, 117)[0],
    "300-patterns": lambda: define(object_of({f"p{number}": {"type": "string", "pattern": name_of(number)} for number in range(300)})),
    "300-texts": lambda: {f"p{number}": f"a{number}b.example.org" for number in range(300)},
}

SCHEMAS_OF_SAMPLES: Documents = {
    "truths": lambda: define(object_of({f"f{number:04}": BOOLEAN for number in range(1024)})),
    "optional": lambda: optional("abcdefghijkl"),
    "six": lambda: optional("abcdef"),
    "fifteen": lambda: list_of_fifteen(object_of({key: BOOLEAN for key in "abc"}, required=[*"abc"])),
    "one-of-two": lambda: list_of_fifteen(object_of({key: BOOLEAN for key in "ab"}, oneOf=[{"required": ["a"]}, {"required": ["b"]}])),
    "named-0": lambda: named_fields(0),
    "named-2": lambda: named_fields(2),
    "named-4": lambda: named_fields(4),
    "keys": lambda: define(object_of({"m": map_list(["host", "port"], {"host": {"type": "string"}, "port": INTEGER})})),
    "11-by-1000-integers": lambda: objects(11, 1000, INTEGER),
    "15-by-32-int-or-strings": lambda: objects(15, 32, {"x-kubernetes-int-or-string": True}),
}

POOLS: Documents = {
    "full-pools": lambda: full_pools(64),
    "large-pools": lambda: full_pools(1024),
    # 64 lists of 64 integers, for the paths of the first four objects of 511-places-1-MiB
    "listed-pools": lambda: {"paths": {f"/a{outer}/b{inner}": [*range(64)] for outer in range(4) for inner in range(16)}},
    "small-pools": lambda: {"integers": [1], "strings": ["a"], "names": ["k"]},
    "descending-pools": lambda: {"fixed": {"/x": [[*reversed(range(80000))]]}},
    "integers-pools": lambda: {"fixed": {"/x": [[number % 64 for number in range(80000)]]}},
    "two": lambda: {"integers": [0, 1]},
    "four": lambda: {"strings": [*"abcd"], "integers": [*range(4)]},
    "nine": lambda: {"integers": [*range(9)]},
    # of each field of the last object of 11-by-1000-integers the value is fixed
    "1000-fixed-fields": lambda: {"integers": [0], "fixed": {f"/a10/b{number}": [0] for number in range(1000)}},
    "64-integers-and-strings": lambda: integers_and_strings(64),
}

DOCUMENTS: Documents = {**LARGE_SCHEMAS, **LARGE_OBJECTS, **SCHEMAS_OF_OBJECTS, **REAL_SIZE, **SCHEMAS_OF_SAMPLES, **POOLS}
