"""What crdx says of a relaxed schema: whether values are valid in it, and what it still refuses."""
from .documents import path_order, pointer, shown
from .keywords import LIST_KEYS, LIST_TYPE, PRESERVE, SCALARS, Kind, Step, is_number, kind_of, places

# ---- values

def is_listed(schema, value):
    """Whether an enum, if there is one, lists a scalar."""
    values = schema.get("enum")
    return not values or any(type(one) is type(value) and one == value for one in values)


def is_within_bounds(schema, value):
    if not is_number(value):
        return True
    least, most = schema.get("minimum", value), schema.get("maximum", value)
    is_below = value < least or (value == least and "minimum" in schema and schema.get("exclusiveMinimum"))
    is_above = value > most or (value == most and "maximum" in schema and schema.get("exclusiveMaximum"))
    return not is_below and not is_above


def has_length(schema, value):
    for kind, least, most in ((str, "minLength", "maxLength"), (list, "minItems", "maxItems"), (dict, "minProperties", "maxProperties")):
        if isinstance(value, kind):
            return schema.get(least, 0) <= len(value) <= schema.get(most, len(value))
    return True


def has_required(schema, value):
    return not isinstance(value, dict) or all(name in value for name in schema.get("required", []))


JUDGED = (is_listed, is_within_bounds, has_length, has_required)


def passes(schema, value, tests):
    """Whether a value passes these tests of a schema, and its junctors with the same tests of their branches."""
    def holds(branch):
        return passes(branch, value, tests)

    return (
        all(test(schema, value) for test in tests)
        and all(map(holds, schema.get("allOf", [])))
        and ("anyOf" not in schema or any(map(holds, schema["anyOf"])))
        and ("oneOf" not in schema or sum(map(holds, schema["oneOf"])) == 1)
        and not ("not" in schema and holds(schema["not"]))
    )


def has_repeats(schema, value):
    """Whether a set has an item twice, or a map list two items with the same keys."""
    kind = schema.get(LIST_TYPE)
    if kind == "map" and isinstance(value, list):
        items = [[shown(item[key]) if key in item else "" for key in schema[LIST_KEYS]] for item in value if isinstance(item, dict)]
        return any(item in items[:index] for index, item in enumerate(items))
    return kind == "set" and isinstance(value, list) and len(set(map(shown, value))) < len(value)


def parts_with_schemas(schema, value):
    """The parts of a value in a relaxed schema, each with its own schema: None for a member that is not declared."""
    kind = kind_of(schema, Step.PROPERTY)
    if kind is Kind.LIST and isinstance(value, list):
        return [(schema["items"], part) for part in value]
    if kind is Kind.MAP and isinstance(value, dict):
        return [(schema["additionalProperties"], part) for part in value.values()]
    if kind is Kind.OBJECT and isinstance(value, dict):
        return [(schema.get("properties", {}).get(name), part) for name, part in value.items()]
    return []


def is_pruned(schema, value):
    """Whether pruning leaves a value as it is."""
    return all(schema.get(PRESERVE) if below is None else is_pruned(below, part) for below, part in parts_with_schemas(schema, value))


def filled(schema, value):
    """A value with its defaults. A null that may not be there gives way to one, or goes."""
    kind = kind_of(schema, Step.PROPERTY)
    if kind is Kind.LIST and isinstance(value, list):
        return [filled(schema["items"], part) for part in value]
    if kind not in (Kind.OBJECT, Kind.MAP) or not isinstance(value, dict):
        return value
    fields = schema.get("properties", {}) if kind is Kind.OBJECT else dict.fromkeys(value, schema["additionalProperties"])
    kept = {name: part for name, part in value.items() if part is not None or name not in fields or fields[name].get("nullable")}
    defaults = {name: field["default"] for name, field in fields.items() if "default" in field and name not in kept}
    return {name: filled(fields[name], part) if name in fields else part for name, part in {**kept, **defaults}.items()}


# the types of the values of each kind of place, but for those that are open
TYPES = {**SCALARS, Kind.OBJECT: (dict,), Kind.MAP: (dict,), Kind.LIST: (list,)}


def is_valid(schema, value):
    """Whether a value is valid in a relaxed schema, as crdx judges it."""
    if value is None:
        return bool(schema.get("nullable"))
    kind = kind_of(schema, Step.PROPERTY)
    return (
        (kind is Kind.OPEN or type(value) in TYPES[kind])
        and passes(schema, value, JUDGED)
        and not has_repeats(schema, value)
        and all(below is None or is_valid(below, part) for below, part in parts_with_schemas(schema, value))
    )


# ---- what is refused

# the most that crdx reads, and the most with --large
MOST_PLACES, MOST_STEPS = (512, 16384), (24, 60)
MOST_ENTRIES = {
    "properties": ("properties", (32, 1024)),
    "required": ("required fields", (32, 1024)),
    LIST_KEYS: ("keys", (4, 8)),
    "enum": ("values", (64, 1024)),
}


def greatest_counts(schema):
    """For each limit the path of what comes nearest to it, how much is there, and the limit."""
    everywhere = list(places(schema))
    yield (), len(everywhere), "places in the schema", MOST_PLACES
    path, steps, _ = max(everywhere, key=lambda place: place[1])
    yield path, steps, "steps to this place", MOST_STEPS
    for word, (what, most) in MOST_ENTRIES.items():
        counts = [(len(place[word]), (*path, word)) for path, _, place in everywhere if word in place]
        if counts:
            count, path = max(counts, key=lambda count: count[0])
            yield path, count, what, most


def still_refused(schema):
    """The lines on what crdx refuses of a relaxed schema: the limits that it passes, and its bad defaults."""
    for path, count, what, (most, large) in greatest_counts(schema):
        if count > most:
            yield f"still refused: S4 {shown(pointer(path))} {count} {what}; allowed are {most}, and {large} with --large"
    for path in sorted((path for path, _, place in places(schema) if has_bad_default(place)), key=path_order):
        yield f"still refused: V14 {shown(pointer(path))} bad default"


def has_bad_default(schema):
    return "default" in schema and not (is_pruned(schema, schema["default"]) and is_valid(schema, filled(schema, schema["default"])))
