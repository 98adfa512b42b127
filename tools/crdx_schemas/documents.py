"""Documents in JSON: how they are read, with exact numbers, and how they and the paths in them are written."""
from __future__ import annotations

import decimal
import json
from typing import Dict, Iterable, List, NoReturn, Tuple, Union

MOST_BYTES = 1_048_576
MOST_DEPTH = 127
LEAST, GREATEST = -(2**63), 2**63 - 1

# a tree of JSON: a number that is no integer of 64 bits is a Decimal where numbers are read exactly, and else a float
Json = Union[None, bool, int, float, decimal.Decimal, str, List["Json"], Dict[str, "Json"]]
# the way to a part of a tree: names of members, and indexes of items
TreePath = Tuple[Union[int, str], ...]


class Refusal(Exception):
    """Ends the run: the line on standard error, if there is one, and the status."""

    def __init__(self, line: str | None, status: int) -> None:
        super().__init__(line)
        self.line, self.status = line, status


def exact(text: str) -> int | decimal.Decimal:
    """The number of a text: an int for an integer of 64 bits, however it is written, else a Decimal of exactly this value."""
    try:
        number = decimal.Decimal(text)
    except decimal.InvalidOperation:  # an exponent beyond all bounds
        return decimal.Decimal("NaN")
    return int(number) if is_small(number) and is_whole(number) else number


def is_small(number: decimal.Decimal) -> bool:
    return number.is_finite() and LEAST <= number <= GREATEST


def is_whole(number: decimal.Decimal) -> bool:
    return number == number.to_integral_value()


def no_number(text: str) -> NoReturn:
    raise ValueError(text)


def parts(tree: Json) -> Iterable[Json]:
    """What is directly in a list or an object."""
    if isinstance(tree, dict):
        return tree.values()
    return tree if isinstance(tree, list) else ()


def below(tree: Json, *names: str) -> Json:
    """What is at a path of names; None where there is nothing."""
    for name in names:
        tree = tree.get(name) if isinstance(tree, dict) else None
    return tree


def has_decimal(tree: Json) -> bool:
    """Whether some number in the tree is none that crdx reads."""
    return isinstance(tree, decimal.Decimal) or any(map(has_decimal, parts(tree)))


def depth_of(tree: Json) -> int:
    """How deep lists and objects are nested."""
    def nested(trees: Iterable[Json]) -> list[Json]:
        return [one for one in trees if isinstance(one, (dict, list))]

    depth, level = 0, nested([tree])
    while level:
        depth, level = depth + 1, nested(part for one in level for part in parts(one))
    return depth


def parse(data: bytes) -> Json:
    """The tree of a text of JSON; a ValueError or a RecursionError where serde_json would refuse it."""
    tree: Json = json.loads(data.decode("utf-8"), parse_int=exact, parse_float=exact, parse_constant=no_number)
    json.dumps(tree, ensure_ascii=False, default=str).encode("utf-8")  # a half of a surrogate pair is no text
    if depth_of(tree) > MOST_DEPTH:
        raise ValueError("nested too deep")
    return tree


def read_bytes(file: str, role: str, most: int = MOST_BYTES) -> bytes:
    """The bytes of a file, or of the standard input for `-`. A refusal names its role."""
    try:
        with open(0 if file == "-" else file, "rb", closefd=file != "-") as source:
            data = source.read(most + 1)
    except (OSError, ValueError):  # a ValueError for a name with a zero byte
        raise Refusal(f"{role}: read failed", 4) from None
    if len(data) > most:
        raise Refusal(f"{role}: J4", 3)
    return data


def read(file: str, role: str) -> Json:
    """The document in a file, or on the standard input for `-`."""
    try:
        return parse(read_bytes(file, role))
    except (ValueError, RecursionError):
        raise Refusal(f"{role}: J3", 3) from None


def in_text(tree: Json, indent: int | None = None) -> str:
    return json.dumps(tree, ensure_ascii=False, indent=indent, separators=None if indent else (",", ":"))


def pointer(path: TreePath) -> str:
    return "".join("/" + str(token).replace("~", "~0").replace("/", "~1") for token in path)


def path_order(path: TreePath) -> list[int | bytes]:
    """Sorts paths: names by their bytes, indexes by number, and a beginning before what goes on."""
    return [token if isinstance(token, int) else token.encode("utf-8") for token in path]


def shown(value: Json) -> str:
    return str(value) if isinstance(value, decimal.Decimal) else json.dumps(value, ensure_ascii=False, default=str)


def definition_text(document: Json) -> str:
    """The text of a definition, without white space where crdx could not read it otherwise."""
    text = in_text(document, 2) + "\n"
    return text if len(text.encode("utf-8")) <= MOST_BYTES else in_text(document) + "\n"
