"""The keywords of schemas: their forms, the kinds of places that they make, and the places below a place."""
import decimal
import enum

INT_OR_STRING, PRESERVE = "x-kubernetes-int-or-string", "x-kubernetes-preserve-unknown-fields"
LIST_TYPE, LIST_KEYS, MAP_TYPE = "x-kubernetes-list-type", "x-kubernetes-list-map-keys", "x-kubernetes-map-type"
ENVELOPE = ("apiVersion", "kind", "metadata")


class Kind(enum.Enum):
    """The kinds of places. A place for any value is open."""

    INTEGER = enum.auto()
    STRING = enum.auto()
    BOOLEAN = enum.auto()
    INT_OR_STRING = enum.auto()
    OBJECT = enum.auto()
    MAP = enum.auto()
    LIST = enum.auto()
    OPEN = enum.auto()


class Step(enum.Enum):
    """How a place is reached: as the root, a property, an item of a list or a value of a map."""

    ROOT = enum.auto()
    PROPERTY = enum.auto()
    ITEM = enum.auto()
    VALUE = enum.auto()


# the forms of keywords, as crdx asks them (S3)
TEXTS = {"type", "description", "title", "format", LIST_TYPE, MAP_TYPE}
TRUTH_VALUES = {"nullable", "uniqueItems", "exclusiveMinimum", "exclusiveMaximum", INT_OR_STRING, PRESERVE}
LISTS_OF_TEXTS = {"required", LIST_KEYS}
BOUNDS = {"minimum", "maximum"}
LENGTHS = {"minLength", "maxLength", "minItems", "maxItems", "minProperties", "maxProperties"}
BRANCHES = ("allOf", "anyOf", "oneOf")
JUNCTORS = ("allOf", "anyOf", "not", "oneOf")

# the keywords that crdx takes at a place of each kind
EVERYWHERE = {
    "type", "description", "title", "format", "example", "externalDocs", "nullable", "default", "uniqueItems", INT_OR_STRING, PRESERVE,
    LIST_TYPE, LIST_KEYS, MAP_TYPE, *JUNCTORS,
}
OF_SCALARS = {"enum", "minimum", "maximum", "exclusiveMinimum", "exclusiveMaximum", "minLength", "maxLength"}
OF_OBJECTS = {"required", "minProperties", "maxProperties"}
SCALARS = {Kind.INTEGER: (int,), Kind.STRING: (str,), Kind.BOOLEAN: (bool,), Kind.INT_OR_STRING: (int, str)}
KEYWORDS = {
    **{kind: EVERYWHERE | OF_SCALARS for kind in SCALARS},
    Kind.OBJECT: EVERYWHERE | OF_OBJECTS | {"properties"},
    Kind.MAP: EVERYWHERE | OF_OBJECTS | {"additionalProperties"},
    Kind.LIST: EVERYWHERE | {"items", "minItems", "maxItems"},
    Kind.OPEN: EVERYWHERE,
}
KINDS_OF_TYPES = {"array": Kind.LIST, "integer": Kind.INTEGER, "string": Kind.STRING, "boolean": Kind.BOOLEAN}
INT_OR_STRING_BRANCHES = [{"type": "integer"}, {"type": "string"}]
ANY_VALUE = {PRESERVE: True, "nullable": True}


def is_number(value):
    return isinstance(value, (int, decimal.Decimal)) and not isinstance(value, bool)


def is_length(value):
    return is_number(value) and not (value == value and value < 0)


def has_form(word, value):
    """Whether a value has the form of its keyword, whatever is in it."""
    if word in TEXTS:
        return isinstance(value, str)
    if word in TRUTH_VALUES:
        return isinstance(value, bool)
    if word in BOUNDS:
        return is_number(value)
    if word in LENGTHS:
        return is_length(value)
    if word in ("properties", "items", "not"):
        return isinstance(value, dict)
    if word == "additionalProperties":
        return isinstance(value, (bool, dict))
    if word in BRANCHES:
        return isinstance(value, list) and value != []
    return isinstance(value, list) or not (word in LISTS_OF_TEXTS or word == "enum")


def subschemas(schema):
    """The step to each place directly below a place, branches of junctors among them, and its schema."""
    for word, value in schema.items():
        if word == "properties":
            yield from (((word, name), below) for name, below in value.items())
        elif word in BRANCHES:
            yield from (((word, index), branch) for index, branch in enumerate(value))
        elif word in ("items", "not") or (word == "additionalProperties" and isinstance(value, dict)):
            yield (word,), value


def broken_forms(schema, path=()):
    """The path of each innermost value that does not have the form of its keyword, here and at all places below."""
    for word, value in schema.items():
        at = (*path, word)
        if not has_form(word, value):
            yield at
        elif word in LISTS_OF_TEXTS:
            yield from ((*at, index) for index, name in enumerate(value) if not isinstance(name, str))
        else:
            for step, below in subschemas({word: value}):
                yield from broken_forms(below, path + step) if isinstance(below, dict) else [path + step]


def branches_of(schema):
    """The branches of the junctors at a place."""
    branches = [branch for word in BRANCHES for branch in schema.get(word, [])]
    return branches + [schema["not"]] if "not" in schema else branches


def with_branches(schema, change):
    """A schema with this change made to each branch of its junctors."""
    changed = {word: [change(branch) for branch in schema[word]] for word in BRANCHES if word in schema}
    return {**schema, **changed, **({"not": change(schema["not"])} if "not" in schema else {})}


def has_values(schema):
    """Whether members that are not declared are let through by `additionalProperties`."""
    return schema.get("additionalProperties", False) is not False


def kind_of(schema, step):
    """The kind of place that a schema becomes."""
    if step is Step.ROOT:
        return Kind.OBJECT
    if "$ref" in schema or "patternProperties" in schema:
        return Kind.OPEN
    if schema.get(INT_OR_STRING):
        return Kind.INT_OR_STRING
    if schema.get("type") == "object":
        return Kind.MAP if has_values(schema) and not schema.get("properties") else Kind.OBJECT
    return KINDS_OF_TYPES.get(schema.get("type"), Kind.OPEN)


def places(schema, path=(), steps=0):
    """The path, the number of steps and the schema of this place and of all below, branches of junctors among them."""
    yield path, steps, schema
    for step, below in subschemas(schema):
        yield from places(below, path + step, steps + 1)
