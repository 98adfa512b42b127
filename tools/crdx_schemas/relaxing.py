"""The wider schema that crdx takes in place of another one. docs/RELAX.md says what is dropped and what is kept, and why."""
from __future__ import annotations

import dataclasses
import decimal

from .documents import GREATEST, LEAST, Json, has_decimal, is_whole
from .keywords import (
    ANY_VALUE, ENVELOPE, INT_OR_STRING, INT_OR_STRING_BRANCHES, JUNCTORS, KEYWORDS, LENGTHS, LIST_KEYS, LIST_TYPE, MAP_TYPE,
    OF_SCALARS, PRESERVE, SCALARS, Kind, Step, branches_of, has_values, kind_of, with_branches,
)


@dataclasses.dataclass
class Relaxed:
    """The schema of a version, as it was written and as it is now."""

    before: dict[str, Json]
    after: dict[str, Json]


# ---- junctors

def says_nothing(branch):
    """Whether a branch accepts every value, since it has nothing but `properties` that do."""
    return all(word == "properties" and all(map(says_nothing, below.values())) for word, below in branch.items())


def without_idle_properties(branch):
    """A branch without the `properties` that say nothing, here and in its own branches. It accepts the same values."""
    idle = "properties" in branch and says_nothing({"properties": branch["properties"]})
    return with_branches({word: value for word, value in branch.items() if not (idle and word == "properties")}, without_idle_properties)


def is_branch_of_scalar(branch):
    """Whether crdx takes this branch of a junctor at a scalar as it is."""
    return (
        all(word in OF_SCALARS or word in JUNCTORS for word in branch)
        and branch.get("enum") != []
        and all(type(value) in (bool, int, str) for value in branch.get("enum", []))
        and not any(isinstance(value, decimal.Decimal) for value in branch.values())
        and all(map(is_branch_of_scalar, branches_of(branch)))
    )


def is_branch_of_object(branch):
    """Whether this branch of a junctor at an object asks for nothing but which fields are there."""
    return all(word == "required" or word in JUNCTORS for word in branch) and all(map(is_branch_of_object, branches_of(branch)))


def named(branch):
    """The fields that a branch names, at any depth."""
    return set(branch.get("required", [])).union(*map(named, branches_of(branch)))


def relax_junctors(schema, takes):
    """Drops each junctor with branches that `takes` refuses. Of `allOf` such branches alone go, since each of them only narrows; a junctor
    inside another one asks the same as before, since less there may accept less here."""
    for word in JUNCTORS:
        if word == "allOf":
            replace(schema, word, [branch for branch in schema.get(word, []) if takes([branch])])
        elif word in schema and not takes(branches_of({word: schema[word]})):
            del schema[word]


def relax_junctors_of_scalar(schema, kind):
    """Keeps what crdx takes, and the pattern which says that an int-or-string is an integer or a text."""
    pattern = []
    if kind is Kind.INT_OR_STRING:
        if schema.get("anyOf") == INT_OR_STRING_BRANCHES:
            pattern += schema["anyOf"]
        if schema.get("allOf", [None])[0] == {"anyOf": INT_OR_STRING_BRANCHES}:
            pattern.append(schema["allOf"][0])
    relax_junctors(schema, lambda branches: all(
        is_branch_of_scalar(branch) or any(branch is one for one in pattern) for branch in branches
    ))


def relax_junctors_of_object(schema, fields):
    """Keeps what asks which of these fields are there, from the first junctor on, while all that is kept names four fields at most."""
    seen = set()

    def takes(branches):
        names = seen.union(*map(named, branches))
        if len(names) > 4 or not names <= fields or not all(map(is_branch_of_object, branches)):
            return False
        seen.update(names)
        return True

    relax_junctors(schema, takes)


# ---- places

def replace(schema, word, values):
    """Replaces the list at a keyword with a shorter one, and drops the keyword where that is empty."""
    if word in schema and len(values) < len(schema[word]):
        if values:
            schema[word] = values
        else:
            del schema[word]


def drop(schema, *words):
    for word in words:
        schema.pop(word, None)


def drop_set(schema, *words):
    """Drops keywords that say something: not false, and not an empty text."""
    for word in words:
        if schema.get(word):
            del schema[word]


def next_integer(number, least, exclusive):
    """The integer that bounds the same integers as a number does; None where there is none of 64 bits."""
    if not isinstance(number, decimal.Decimal):
        return number
    if not number.is_finite() or not LEAST - 1 < number < GREATEST + 1:
        return None
    whole = int(number.to_integral_value(decimal.ROUND_FLOOR if least == exclusive else decimal.ROUND_CEILING))
    return whole if LEAST <= whole <= GREATEST else None


def relax_bounds(schema, kind):
    for word, flag in (("minimum", "exclusiveMinimum"), ("maximum", "exclusiveMaximum")):
        if not isinstance(schema.get(word), decimal.Decimal):
            continue
        bound = next_integer(schema[word], word == "minimum", schema.get(flag, False)) if int in SCALARS[kind] else None
        if bound is None:
            drop(schema, word, flag)
        else:
            schema[word] = bound


def relax_enum(schema, kind):
    """Leaves out what is no value of the place anyway. An integer beyond 64 bits may be one, so with it the whole keyword goes."""
    values = schema.get("enum", [])
    beyond = any(isinstance(value, decimal.Decimal) and not (value.is_finite() and not is_whole(value)) for value in values)
    kept = [] if beyond and int in SCALARS[kind] else [value for value in values if type(value) in SCALARS[kind]]
    replace(schema, "enum", kept)
    if not kept:
        drop(schema, "enum")


def relax_scalar(schema, kind):
    if kind is Kind.INT_OR_STRING:
        drop(schema, "type")
    relax_junctors_of_scalar(schema, kind)
    relax_bounds(schema, kind)
    relax_enum(schema, kind)


def relax_object(schema, before, path, step):
    """Where the default of a field goes, an object may now be without the field that it was given: `required`, `minProperties` and the
    junctors that ask for it go as well."""
    properties = before.get("properties", {})
    if "properties" in schema:
        schema["properties"] = {name: relaxed(below, (*path, "properties", name), Step.PROPERTY) for name, below in properties.items()}
    fields = schema.get("properties", {})
    lost = {name for name, below in fields.items() if "default" in properties[name] and "default" not in below}
    if lost:
        drop(schema, "minProperties")
    envelope = set(ENVELOPE) if step is Step.ROOT else set()
    replace(schema, "required", [name for name in schema.get("required", []) if name in fields.keys() - lost | envelope])
    relax_junctors_of_object(schema, fields.keys() - lost - envelope)
    if (has_values(before) or before.get("x-kubernetes-embedded-resource")) and not schema.get(PRESERVE):
        drop(schema, "maxProperties")  # what was pruned before it was counted is now there
        schema[PRESERVE] = True


def relax_map(schema, path):
    drop(schema, *JUNCTORS)
    drop_set(schema, "required", PRESERVE)
    values = schema["additionalProperties"]
    schema["additionalProperties"] = dict(ANY_VALUE) if values is True else relaxed(values, (*path, "additionalProperties"), Step.VALUE)


def relax_list(schema, path):
    drop(schema, *JUNCTORS)
    if "items" not in schema or schema.get(PRESERVE):
        schema["items"] = dict(ANY_VALUE)
    else:
        schema["items"] = relaxed(schema["items"], (*path, "items"), Step.ITEM)
    drop_set(schema, PRESERVE)
    kind = schema.get(LIST_TYPE)
    if kind not in ("set", "map") or not items_are_distinct(schema, kind):
        drop(schema, LIST_KEYS)
        if LIST_TYPE in schema:
            schema[LIST_TYPE] = "atomic"


def is_plain_scalar(schema):
    return kind_of(schema, Step.ITEM) in SCALARS and not schema.get("nullable")


def items_are_distinct(schema, kind):
    """Whether the items of a set or of a map list still are what crdx can compare."""
    items = schema["items"]
    if kind == "set":
        return is_plain_scalar(items)
    keys, fields = schema.get(LIST_KEYS, []), items.get("properties", {})
    return (
        0 < len(keys) == len(set(keys))
        and kind_of(items, Step.ITEM) is Kind.OBJECT
        and not items.get("nullable")
        and all(key in fields and is_plain_scalar(fields[key]) for key in keys)
        and all(key in items.get("required", []) or "default" in fields[key] for key in keys)
    )


def relax_metadata(schema, path):
    """`metadata` says how `name` and `generateName` look, and nothing else."""
    kept = {word: value for word, value in schema.items() if word in ("type", "description", "properties")}
    kept["type"] = "object"
    if "properties" in kept:
        names = [name for name in kept["properties"] if name in ("name", "generateName")]
        kept["properties"] = {name: relaxed(kept["properties"][name], (*path, "properties", name), Step.PROPERTY) for name in names}
    return kept


def relax_default(schema, path, step):
    """A default that crdx cannot hold goes. One of items or of values has taken the place of nulls, so these are let through."""
    if "default" not in schema:
        return
    is_envelope = len(path) >= 2 and path[0] == "properties" and path[1] in ENVELOPE
    if step is not Step.PROPERTY or is_envelope or has_decimal(schema["default"]):
        del schema["default"]
        if step in (Step.ITEM, Step.VALUE):
            schema["nullable"] = True


def relaxed(before, path=(), step=Step.ROOT):
    """The wider schema of a place, and of all below it, that crdx takes. The schema that is passed in stays as it is."""
    if path == ("properties", "metadata"):
        return relax_metadata(before, path)
    kind = kind_of(before, step)
    schema = with_branches({word: value for word, value in before.items() if word in KEYWORDS[kind]}, without_idle_properties)
    for word in [word for word in schema if word in LENGTHS or word in ("example", "externalDocs")]:
        if has_decimal(schema[word]):
            del schema[word]
    drop_set(schema, "uniqueItems")
    if kind is not Kind.LIST:
        drop(schema, LIST_TYPE, LIST_KEYS)
    if kind not in (Kind.OBJECT, Kind.MAP) or schema.get(MAP_TYPE) not in ("granular", "atomic"):
        drop(schema, MAP_TYPE)
    relax_default(schema, path, step)
    relax_kind(schema, before, path, step, kind)
    return schema


def relax_kind(schema, before, path, step, kind):
    if kind in SCALARS:
        drop_set(schema, PRESERVE)
        relax_scalar(schema, kind)
    elif kind is Kind.OBJECT:
        if step is Step.ROOT:
            relax_root(schema, before)
        relax_object(schema, before, path, step)
    elif kind is Kind.MAP:
        relax_map(schema, path)
    elif kind is Kind.LIST:
        relax_list(schema, path)
    else:
        drop(schema, *JUNCTORS)
        drop_set(schema, "type", INT_OR_STRING)
        schema.update(ANY_VALUE if "$ref" in before else {PRESERVE: True})


def relax_root(schema, before):
    """A resource is an object and never null, whatever its schema says."""
    drop(schema, "minProperties", "maxProperties")
    drop_set(schema, "nullable", INT_OR_STRING)
    schema["type"] = "object"
    if "$ref" in before or "patternProperties" in before:
        drop(schema, "properties", "required")
        schema[PRESERVE] = True
