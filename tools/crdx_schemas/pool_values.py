"""Values for the places of which crdx judges a part alone, for pools: they are valid in the schema as it was written."""
from __future__ import annotations

import datetime
import decimal
import ipaddress
import math
import os
import re
import warnings
from typing import Dict, List

from .documents import GREATEST, LEAST, Json, Refusal, has_decimal, in_text, is_small, parts, read, shown
from .judging import JUDGED, passes
from .keywords import BOUNDS, ENVELOPE, Kind, Step, branches_of, is_number, kind_of
from .relaxing import Relaxed

# values, by the paths of the places that may have them
Values = Dict[str, List[Json]]

# the most values at a path, and the most paths: as many as crdx reads, and with --large
MOST_VALUES, MOST_PATHS = 64, (64, 1024)

# texts of common forms, to be tried where a pattern or a format asks for one
COMMON_TEXTS = [
    "a", "web", "web-1", "web_1", "webServer", "WebServer", "WEB_SERVER", "example.org", "www.example.org", "*.example.org", "example.org/web",
    "example.org/v1", "web=a", "0", "1", "500m", "0.5", "1Gi", "10GB", "50%", "30s", "10m", "1h", "1h30m", "500ms", "1d", "PT1H", "/", "/data/web",
    "data/web.txt", "https://example.org/web", "http://example.org:8080", "ssh://git@example.org/web.git", "oci://example.org/web",
    "s3://web/data", "v1", "v1beta1", "1.2.3", "v1.2.3", ">=1.2.3", "web:1.2.3", "example.org/web:1.2.3", "example.org/web@sha256:" + "0a" * 32,
    "sha256:" + "0a" * 32, "0a" * 20, "8080", "8080-8090", "10.0.0.1", "10.0.0.0/24", "2001:db8::1", "00:00:5e:00:53:01", "web@example.org",
    "123e4567-e89b-42d3-a456-426614174000", "2024-01-31", "2024-01-31T12:00:00Z", "2024-01-31T12:00:00+01:00",
    "0 3 * * *", "d2Vi", "#00ff00", "",
]

UUID = "[0-9a-fA-F]{8}-?[0-9a-fA-F]{4}-?%s[0-9a-fA-F]{3}-?%s[0-9a-fA-F]{3}-?[0-9a-fA-F]{12}"


def matching(pattern):
    return re.compile(pattern).fullmatch


def date(text):
    return re.fullmatch(r"\d{4}-\d\d-\d\d", text) and datetime.date.fromisoformat(text)


def date_time(text):
    form = re.fullmatch(r"(\d{4}-\d\d-\d\dT\d\d:\d\d:\d\d)(\.\d+)?(Z|[+-]\d\d:\d\d)", text)
    return form and datetime.datetime.fromisoformat(form[1])


def cidr(text):
    return ipaddress.ip_network(text, strict=False) if re.fullmatch(r".+/\d+", text) else None


# the formats that a cluster judges, without their dashes: what reads a text, and answers None or raises a ValueError where it is none
FORMATS = {
    "bsonobjectid": matching("[0-9a-fA-F]{24}"),
    "byte": matching("([A-Za-z0-9+/]{4})*([A-Za-z0-9+/]{4}|[A-Za-z0-9+/]{3}=|[A-Za-z0-9+/]{2}==)"),
    "cidr": cidr,
    "creditcard": matching("(?!)"),  # none is known: its last digit, as that of a book, is computed from the others
    "date": date,
    "datetime": date_time,
    "duration": matching(r"(\d+(\.\d+)?(ns|us|ms|s|m|h))+"),
    "email": matching(r"[A-Za-z0-9._-]+@[a-z0-9-]+(\.[a-z0-9-]+)+"),
    "hexcolor": matching("#?([0-9a-fA-F]{3}|[0-9a-fA-F]{6})"),
    "hostname": matching("(?=.{1,255}$)[a-z0-9]([a-z0-9-]{0,61}[a-z0-9])?([.][a-z0-9]([a-z0-9-]{0,61}[a-z0-9])?)*"),
    "ipv4": ipaddress.IPv4Address,
    "ipv6": ipaddress.IPv6Address,
    "isbn": matching("(?!)"),
    "isbn10": matching("(?!)"),
    "isbn13": matching("(?!)"),
    "mac": matching("[0-9a-fA-F]{2}(:[0-9a-fA-F]{2}){5}"),
    "rgbcolor": matching(r"rgb\(\d\d?,\d\d?,\d\d?\)"),
    "ssn": matching(r"\d{3}-\d\d-\d{4}"),
    "uri": matching("[a-z][a-z0-9+.-]*://[A-Za-z0-9._~/?#@!$&=:%+-]+"),
    "uuid": matching(UUID % ("[0-9a-fA-F]", "[0-9a-fA-F]")),
    "uuid3": matching(UUID % ("3", "[0-9a-fA-F]")),
    "uuid4": matching(UUID % ("4", "[89abAB]")),
    "uuid5": matching(UUID % ("5", "[89abAB]")),
}


def reader_of_format(schema):
    return FORMATS.get(schema.get("format", "").replace("-", ""))


def has_format(schema, value):
    reader = reader_of_format(schema)
    if reader is None or not isinstance(value, str):
        return True
    try:
        return reader(value) is not None
    except ValueError:
        return False


def has_pattern(schema, value):
    return not isinstance(value, str) or re.search(schema.get("pattern", ""), value) is not None


def is_multiple(schema, value):
    return not is_number(value) or "multipleOf" not in schema or value % schema["multipleOf"] == 0


def has_type(schema, value):
    return not schema.get("type") or schema["type"] in {int: ("integer", "number"), str: ("string",)}[type(value)]


WRITTEN = (*JUDGED, has_type, has_pattern, has_format, is_multiple)


def fits(schema, value):
    """Whether an integer or a text meets all that a scalar's schema asks as it was written; false too where that cannot be told, since
    Python reads a pattern otherwise, or a number is beyond all bounds."""
    try:
        return passes(schema, value, WRITTEN)
    except (ArithmeticError, TypeError, re.error):
        return False


def is_judged_in_part(schema):
    """Whether a schema, or a branch of it, asks of a scalar what crdx does not judge."""
    unseen = schema.get("type") == "number" or "pattern" in schema or "multipleOf" in schema or reader_of_format(schema) is not None
    return unseen or any(map(is_judged_in_part, branches_of(schema)))


def own_values(schema):
    """The integers and texts that a schema names: its default, its example or examples, its enum."""
    examples = schema.get("example", [])
    values = [schema.get("default"), *(examples if isinstance(examples, list) else [examples]), *schema.get("enum", [])]
    return [value for value in values if type(value) in (int, str)]


def nearby_integers(schema):
    """Integers to try: 0 and 1, those about the bounds, and the multiples next to all these."""
    bounds = [schema[word] for word in BOUNDS if word in schema]
    near = {0, 1, *(math.floor(bound) + step for bound in bounds if is_small(decimal.Decimal(bound)) for step in (-1, 0, 1))}
    unit = schema.get("multipleOf")
    if type(unit) is int and unit > 0:
        near |= {number // unit * unit + step for number in near for step in (0, unit)}
    return sorted(number for number in near if LEAST <= number <= GREATEST)


def values_for(schema):
    """The values for a scalar or a number that its schema accepts as it was written, those that it names itself before common ones."""
    kind = kind_of(schema, Step.PROPERTY)
    integers = nearby_integers(schema) if kind in (Kind.INTEGER, Kind.INT_OR_STRING) or schema.get("type") == "number" else []
    texts = COMMON_TEXTS if kind in (Kind.STRING, Kind.INT_OR_STRING) else []
    tried = dict.fromkeys([*own_values(schema), *integers, *texts])
    return [value for value in tried if fits(schema, value)][:MOST_VALUES]


def step_text(name):
    """A name as a step of the path of a field."""
    return name.replace("~", "~0").replace("/", "~1").replace("[", "~2").replace("{", "~3")


def name_of_step(step):
    """The name that a step of the path of a field is for."""
    return step.replace("~3", "{").replace("~2", "[").replace("~1", "/").replace("~0", "~")


def is_at_or_below(path: str, top: str) -> bool:
    return path == top or path.startswith(f"{top}/")


def values_at(trees, path):
    """What trees have at the path of a field, all items of a list and all values of a map together."""
    for step in path.split("/")[1:]:
        name = name_of_step(step)
        if step in ("[]", "{}"):
            trees = [part for tree in trees for part in parts(tree)]
        else:
            trees = [tree[name] for tree in trees if isinstance(tree, dict) and name in tree]
    return trees


def leaves(before, after, path=""):
    """The path of each scalar or open place of a relaxed schema, and its schema as it was written."""
    kind = kind_of(after, Step.PROPERTY)
    if kind is Kind.OBJECT:
        for name, field in after.get("properties", {}).items():
            if path or name not in ENVELOPE:
                yield from leaves(before["properties"][name], field, f"{path}/{step_text(name)}")
    elif kind in (Kind.MAP, Kind.LIST):
        word, step = ("additionalProperties", "/{}") if kind is Kind.MAP else ("items", "/[]")
        if isinstance(before.get(word), dict):
            yield from leaves(before[word], after[word], path + step)
    else:
        yield path, before


def pool_paths(schema: Relaxed) -> Values:
    """For each place of which crdx judges a part alone, the values that it may have, by its path. There may be none."""
    warnings.simplefilter("ignore")  # on patterns that Python may read otherwise one day
    return {path: values_for(before) for path, before in leaves(schema.before, schema.after) if is_judged_in_part(before)}


def add_to_pools(file, schema):
    """Writes the values of places into a pools document, which may be there already: what it has stays. Answers the lines on it."""
    pools = read(file, "pools") if os.path.exists(file) else {}
    if has_decimal(pools):
        raise Refusal("pools: J1", 3)
    if not isinstance(pools, dict) or not isinstance(pools.setdefault("paths", {}), dict):
        raise Refusal('pools: P1 "/paths"' if isinstance(pools, dict) else 'pools: P1 ""', 3)
    found = pool_paths(schema)
    for path, values in found.items():
        if values and len(pools["paths"]) < MOST_PATHS[1]:
            pools["paths"].setdefault(path, values)
    try:
        with open(file, "w", encoding="utf-8") as sink:
            sink.write(in_text(pools, 2) + "\n")
    except OSError:
        raise Refusal("pools: write failed", 4) from None
    return lines_on_pools(pools["paths"], found)


def line_on_place(path, values):
    """The line on a place that has no values in pools."""
    return f"pools: no room for {shown(path)}" if values else f"pools: no value found for {shown(path)}"


def lines_on_pools(paths, found):
    """The lines on the places that have no values in the pools, and on pools that are read with --large alone."""
    for path, values in found.items():
        if path not in paths:
            yield line_on_place(path, values)
    if len(paths) > MOST_PATHS[0]:
        yield f"pools: {len(paths)} paths; allowed are {MOST_PATHS[0]}, and {MOST_PATHS[1]} with --large"


def two_of(values):
    """The first integer and the first text, or else the first two values."""
    firsts = list({type(value): value for value in reversed(values)}.values())
    return firsts if len(firsts) == 2 else values[:2]


def without_repetitions(values):
    return list({shown(value): value for value in reversed(values)}.values())[::-1]  # by their texts, since true is 1 in Python


def add_found_values(pools: dict[str, Json], found: Values, trees: list[Json], is_around: bool) -> list[str]:
    """Writes two of the values found for each place into pools that crdx suggests, where the trees, which are objects, have none there; in
    pools around an object behind its own. Answers the lines on the places that have neither."""
    listed, lines = pools.get("paths", {}), []
    for path, values in found.items():
        texts = set(map(shown, values_at(trees, path)))
        own = [value for value in listed.get(path, []) if shown(value) in texts]
        if values and (is_around or not own):
            listed[path] = without_repetitions([*own, *two_of(values)])
        elif not own:
            lines.append(line_on_place(path, values))
    lines += [line_on_place(path, listed.pop(path)) for path in list(listed)[MOST_PATHS[1]:]]
    if listed:
        pools["paths"] = listed
    return lines
