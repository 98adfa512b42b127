"""Schemas of all keywords that a definition may have, but for list types and rules, and values near them, drawn at random."""
from __future__ import annotations

import random
from typing import Callable, Dict, List, Mapping, Sequence, Tuple

from crdx_schemas.documents import Json
from large_schema import Schema

NAMES = ("a", "b", "c", "d/e")
# the types, and what has none: `x-kubernetes-int-or-string`, and schemas that ask nothing of the type
SCALARS = ("string", "integer", "number", "boolean", "int-or-string", "")
SORTS = (*3 * ("object", "array"), *SCALARS)
JUNCTORS = ("allOf", "anyOf", "oneOf")

TEXTS = ("", "a", "b", "ab", "aab", "abc", "10", "1.5", "\u00e9", "\u00df\U0001f600", "a\nb", "A b", "\u0001", "null")
INTEGERS = (0, 1, -1, 2, 3, 5, 7, 10, 97, 100, 2**31, 2**53 - 1, 2**53 + 1, 2**63 - 1, 2**63, -(2**63))
FLOATS = (0.5, 1.5, 2.5, -0.5, 0.1, 0.3, 99.5, 1e16, 1e300, 5e-324, 100000000.5, 1000000000.5, -1000000000.5)
ODD: Tuple[Json, ...] = (None, True, False, 0, 1, 0.5, "", "a", [], [1], {}, {"a": 1})
LEAST_BOUNDS = (-1, 0, 0, 1, 2, 0.5, 1.5, -2.5, 2.0, -(2**53), -1e300)
GREATEST_BOUNDS = (3, 5, 10, 100, 2.5, 99.5, 8.0, 2**31, 2**53 + 1, 2**63 - 1, 1e300)
FACTORS = (1, 2, 2, 3, 5, 10, 100, 1.5, 2.5, 2.0, -1)
# of these an integer has no multiples
SMALL_FACTORS = (0.5, 0.1, 0.25, 0.3)

# patterns, and texts that match
PATTERNS: Mapping[str, Sequence[str]] = {
    "": ("", "a"),
    "^a+$": ("a", "aa"),
    "b": ("ab", "b", "abc"),
    "^[a-z]([-a-z0-9]*[a-z0-9])?$": ("a", "a-1", "web"),
    "^(([0-9]+(s|m|h))+|Never)$": ("1h30m", "Never"),
    "^[0-9]+(\\.[0-9]+)?([numkMGTPE]|[KMGTPE]i)?$": ("10", "1.5Gi"),
    "^\\S+$": ("a", "\u00e9", "A.b"),
    "^.{2,3}$": ("ab", "\u00df\U0001f600", "abc"),
    "(?i)^ab": ("ab", "ABc"),
    "^[^/]+/[^/]+$": ("a/b",),
    "\\d": ("10", "a1"),
    "(": ("(",),
}
# what is no format asks nothing
NO_FORMATS = ("int32", "int64", "double", "other")


def items_of(tree: Json) -> List[Json]:
    return tree if isinstance(tree, list) else []


def members_of(tree: Json) -> Dict[str, Json]:
    return tree if isinstance(tree, dict) else {}


def number_of(tree: Json, otherwise: float) -> int | float:
    return tree if isinstance(tree, (int, float)) else otherwise


def count_of(tree: Json, otherwise: int) -> int:
    return tree if isinstance(tree, int) else otherwise


class Cases:
    """Draws schemas and values. `formats` has texts of each format, and some that are not of it."""

    def __init__(self, formats: Mapping[str, Sequence[str]], draw: random.Random) -> None:
        self.formats, self.draw = formats, draw

    def case(self) -> tuple[Schema, Json]:
        """A schema, and a value that is near it."""
        schema = self.schema(self.draw.choice((0, 1, 1, 2, 2, 2, 3)))
        value = self.value(schema)
        while self.is_drawn(0.3):
            value = self.changed(value)
        return schema, value

    def is_drawn(self, share: float) -> bool:
        return self.draw.random() < share

    def picked(self, *keywords: tuple[float, str, Callable[[], Json]]) -> Schema:
        """Each keyword in so great a share of the schemas."""
        return {name: make() for share, name, make in keywords if self.is_drawn(share)}

    # ---- schemas

    def schema(self, depth: int) -> Schema:
        sort = self.draw.choice(SORTS if depth else SCALARS)
        made = self.typed(sort)
        made.update(self.keywords(sort, depth))
        made.update(self.picked((0.1, "nullable", self.truth)))
        if depth and self.is_drawn(0.3):
            made.update(self.junctors(sort, depth - 1))
        return made

    def typed(self, sort: str) -> Schema:
        if sort == "int-or-string":
            return {"x-kubernetes-int-or-string": True}
        return {"type": sort} if sort else {}

    def truth(self) -> Json:
        return self.is_drawn(0.7)

    def keywords(self, sort: str, depth: int) -> Schema:
        """Keywords of values of a type, and rarely of others."""
        made: Schema = {}
        if sort in ("string", "int-or-string") or self.is_drawn(0.1):
            made.update(self.of_texts())
        if sort in ("integer", "number", "int-or-string") or self.is_drawn(0.1):
            made.update(self.of_numbers(sort))
        if depth and (sort == "array" or self.is_drawn(0.1)):
            made.update(self.of_lists(depth - 1))
        if depth and (sort == "object" or self.is_drawn(0.1)):
            made.update(self.of_objects(depth - 1))
        if self.is_drawn(0.12):
            made["enum"] = [self.listed({**made, **self.typed(sort)}) for _ in range(self.draw.randint(0, 3))]
        return made

    def listed(self, schema: Schema) -> Json:
        return self.draw.choice(ODD) if self.is_drawn(0.1) else self.value(schema)

    def of_texts(self) -> Schema:
        return self.picked(
            (0.3, "minLength", lambda: self.draw.randint(0, 3)),
            (0.3, "maxLength", lambda: self.draw.choice((1, 2, 3, 5, 40))),
            (0.25, "pattern", lambda: self.draw.choice(list(PATTERNS))),
            (0.25, "format", lambda: self.draw.choice([*self.formats, *NO_FORMATS])),
        )

    def of_numbers(self, sort: str) -> Schema:
        small = self.is_drawn(0.08 if sort == "number" else 0.02)
        return self.picked(
            (0.4, "minimum", lambda: self.draw.choice(LEAST_BOUNDS)),
            (0.2, "exclusiveMinimum", self.truth),
            (0.4, "maximum", lambda: self.draw.choice(GREATEST_BOUNDS)),
            (0.2, "exclusiveMaximum", self.truth),
            (0.2, "multipleOf", lambda: self.draw.choice(SMALL_FACTORS if small else FACTORS)),
        )

    def of_lists(self, depth: int) -> Schema:
        return self.picked(
            (0.8, "items", lambda: self.schema(depth)),
            (0.25, "minItems", lambda: self.draw.randint(0, 3)),
            (0.25, "maxItems", lambda: self.draw.randint(1, 4)),
        )

    def of_objects(self, depth: int) -> Schema:
        return self.picked(
            (0.8, "properties", lambda: {name: self.schema(depth) for name in self.names()}),
            (0.4, "required", lambda: [*self.names()]),
            (0.15, "minProperties", lambda: self.draw.randint(0, 3)),
            (0.15, "maxProperties", lambda: self.draw.randint(1, 4)),
            (0.3, "additionalProperties", lambda: self.schema(depth) if self.is_drawn(0.7) else self.is_drawn(0.5)),
        )

    def names(self) -> list[str]:
        return self.draw.sample(NAMES, self.draw.randint(1, 3))

    def junctors(self, sort: str, depth: int) -> Schema:
        def branches() -> Json:
            return [self.branch(sort, depth) for _ in range(self.draw.choice((0, 1, 2, 2, 3)))]

        return self.picked(
            *((0.4, name, branches) for name in JUNCTORS),
            (0.2, "not", lambda: self.branch(sort, depth)),
        )

    def branch(self, sort: str, depth: int) -> Json:
        if self.is_drawn(0.2):
            return self.schema(depth)
        made = self.keywords(sort, depth)
        if depth and self.is_drawn(0.2):
            made.update(self.junctors(sort, depth - 1))
        return made

    # ---- values

    def parts(self, schema: Schema) -> list[Schema]:
        """All branches of `allOf`, one of each other junctor, and the schema itself."""
        others = [items_of(schema.get(name)) for name in ("anyOf", "oneOf")]
        branches = [*items_of(schema.get("allOf")), *(self.draw.choice(branches) for branches in others if branches)]
        return [*(self.joined(members_of(branch)) for branch in branches), schema]

    def joined(self, schema: Schema) -> Schema:
        """What the parts ask, as one schema."""
        made: Schema = {}
        for part in self.parts(schema):
            properties = {**members_of(made.get("properties")), **members_of(part.get("properties"))}
            required = [*items_of(made.get("required")), *items_of(part.get("required"))]
            made = {**made, **part, "properties": properties, "required": required}
        return made

    def value(self, schema: Schema) -> Json:
        asked = self.joined(schema)
        if asked.get("nullable") is True and self.is_drawn(0.2):
            return None
        if items_of(asked.get("enum")) and self.is_drawn(0.8):
            return self.draw.choice(items_of(asked.get("enum")))
        return self.of_sort(self.sort_of(asked), asked)

    def sort_of(self, schema: Schema) -> str:
        if schema.get("x-kubernetes-int-or-string") is True:
            return self.draw.choice(("integer", "string"))
        return str(schema.get("type", self.draw.choice(SORTS)))

    def of_sort(self, sort: str, schema: Schema) -> Json:
        made: Dict[str, Callable[[Schema], Json]] = {
            "object": self.an_object,
            "array": self.a_list,
            "string": self.a_text,
            "integer": self.an_integer,
            "number": self.a_number,
        }
        return made[sort](schema) if sort in made else self.is_drawn(0.5)

    def a_number(self, schema: Schema) -> Json:
        if self.is_drawn(0.5):
            return self.an_integer(schema)
        if self.is_drawn(0.3):
            return self.draw.choice(FLOATS)
        return self.multiple(schema) if "multipleOf" in schema else self.between(schema) + self.draw.choice((0.5, 0.5, 0.25, 0.1))

    def an_integer(self, schema: Schema) -> Json:
        if self.is_drawn(0.15):
            return self.draw.choice(INTEGERS)
        return int(self.multiple(schema))

    def between(self, schema: Schema) -> int:
        """An integer that is near the bounds, or between them."""
        low = int(number_of(schema.get("minimum"), 0))
        high = max(low, int(number_of(schema.get("maximum"), low + 10)))
        near = self.draw.choice((low, high, low + 1, high - 1, self.draw.randint(low, high), self.draw.randint(low, min(high, low + 10))))
        return max(-(2**63), min(near, 2**63 - 1))

    def multiple(self, schema: Schema) -> int | float:
        factor = number_of(schema.get("multipleOf"), 1)
        return round(self.between(schema) / factor) * factor if factor != 1 else self.between(schema)

    def a_text(self, schema: Schema) -> Json:
        name, pattern = schema.get("format"), schema.get("pattern")
        if isinstance(name, str) and name in self.formats:
            return self.draw.choice(self.formats[name])
        if isinstance(pattern, str) and self.is_drawn(0.9):
            return self.draw.choice(PATTERNS[pattern])
        least = count_of(schema.get("minLength"), 0)
        return self.draw.choice(TEXTS).ljust(least, "a")[:count_of(schema.get("maxLength"), 40)]

    def a_list(self, schema: Schema) -> Json:
        least = count_of(schema.get("minItems"), 0)
        count = self.draw.randint(least, max(least, count_of(schema.get("maxItems"), least + 3)))
        return [self.value(members_of(schema.get("items"))) for _ in range(count)]

    def an_object(self, schema: Schema) -> Json:
        properties, others = members_of(schema.get("properties")), schema.get("additionalProperties", True)
        required = [str(name) for name in items_of(schema.get("required"))]
        names = {*required, *(name for name in properties if self.is_drawn(0.7))}
        if others is not False and self.is_drawn(0.4):
            names.update(self.names())
        for name in self.draw.sample(NAMES, len(NAMES)):
            if len(names) < count_of(schema.get("minProperties"), 0):
                names.add(name)
            if len(names) > count_of(schema.get("maxProperties"), 4) and name not in required:
                names.discard(name)
        return {name: self.value(members_of(properties.get(name, others))) for name in sorted(names)}

    # ---- changes of values

    def changed(self, value: Json) -> Json:
        """The value with one change, mostly somewhere below."""
        if isinstance(value, list) and value and self.is_drawn(0.6):
            at = self.draw.randrange(len(value))
            return [*value[:at], self.changed(value[at]), *value[at + 1:]]
        if isinstance(value, dict) and value and self.is_drawn(0.6):
            name = self.draw.choice(list(value))
            return {**value, name: self.changed(value[name])}
        return self.draw.choice(ODD) if self.is_drawn(0.15) else self.varied(value)

    def varied(self, value: Json) -> Json:
        """Another value, of the same type where it has parts."""
        if isinstance(value, dict):
            left_out = self.draw.choice((*value, ""))
            added = self.draw.choice((*NAMES, left_out))
            return {**{name: below for name, below in value.items() if name != left_out}, added: self.draw.choice(ODD)}
        if isinstance(value, list):
            return self.draw.choice((value[:-1], value + value[:1], [*value, self.draw.choice(ODD)]))
        if isinstance(value, str):
            return self.draw.choice((value[:-1], value[1:], value + "a", value + value, "b" + value))
        if isinstance(value, bool) or not isinstance(value, (int, float)):
            return self.draw.choice(ODD)
        if self.is_drawn(0.04) and abs(value) < 2**53:
            return float(value)
        return self.draw.choice((value + 1, value - 1, value + 0.5, -value, value * 10, str(value)))
