#!/usr/bin/env python3
"""Compares `crdx cover` of each example, within the greatest limit that has fewer than 10,000 samples, with the first ones of all samples
that `crdx sample` lists: for each path of `crdx explain` the first sample in which it is there, where no line before has it; and the
same with each value of each scalar. CRDX is the program to ask, ./crdx without it."""
from __future__ import annotations

import enum
import json
import os
import pathlib
import subprocess
import sys
from typing import Callable, List, Tuple

sys.dont_write_bytecode = True

from crdx_schemas.documents import Json

ROOT = pathlib.Path(__file__).resolve().parent.parent
CRDX = os.environ.get("CRDX", str(ROOT / "crdx"))
MOST = 30
SCALARS = ("boolean", "integer", "string", "int-or-string")


class Sort(enum.Enum):
    """What a step of a path leads to: the member of a name, all items of a list or all values of a map."""

    MEMBER = ""
    ITEMS = "[]"
    VALUES = "{}"


# the steps of a path, each with a name where it leads to a member
Steps = List[Tuple[Sort, str]]
# samples, each with its line
Samples = List[Tuple[str, Json]]


def run(*words: str) -> subprocess.CompletedProcess[str]:
    return subprocess.run([CRDX, *words], capture_output=True, text=True, check=False)


def steps_of(text: str) -> Steps:
    return [step_of(step) for step in text.split("/")[1:]]


def step_of(text: str) -> tuple[Sort, str]:
    if text in (Sort.ITEMS.value, Sort.VALUES.value):
        return Sort(text), ""
    for mark, letter in (("~1", "/"), ("~2", "["), ("~3", "{"), ("~0", "~")):
        text = text.replace(mark, letter)
    return Sort.MEMBER, text


def below(value: Json, sort: Sort, name: str) -> list[Json]:
    """The values to which a step leads."""
    if sort is Sort.ITEMS:
        return value if isinstance(value, list) else []
    if not isinstance(value, dict):
        return []
    if sort is Sort.VALUES:
        return list(value.values())
    return [value[name]] if name in value else []


def ends(steps: Steps, tree: Json) -> list[Json] | None:
    """The values at the end of the path, or None where it is not there."""
    here = [tree]
    for sort, name in steps:
        found = [below(value, sort, name) for value in here]
        if not all(found):
            return None
        here = [value for values in found for value in values]
    return here


def key(value: Json) -> str:
    return json.dumps(value, separators=(",", ":"))


def rank(value: Json) -> tuple[int, object]:
    """Scalars in the tree order: null, truth values, integers, texts by their bytes."""
    if value is None:
        return (0, 0)
    if isinstance(value, bool):
        return (1, value)
    return (2, value) if isinstance(value, int) else (3, str(value).encode())


def plain_cover(paths: list[str], samples: Samples, values: set[str]) -> tuple[list[str], int]:
    """The lines, and how many paths are missed."""
    all_ends = {path: [ends(steps_of(path), sample) for _, sample in samples] for path in paths}
    chosen: list[int] = []
    missed = 0

    def add(has: Callable[[int], bool]) -> bool:
        if any(has(line) for line in chosen):
            return True
        for place in range(len(samples)):
            if has(place):
                chosen.append(place)
                return True
        return False

    for path in paths:
        found = all_ends[path]
        missed += not add(lambda place: found[place] is not None)
        if path in values:
            seen = {key(value): value for here in found if here for value in here}
            for value in sorted(seen.values(), key=rank):
                text = key(value)
                add(lambda place: has_alone(found[place], text))
    return [samples[place][0] for place in chosen], missed


def has_alone(found: list[Json] | None, text: str) -> bool:
    """Whether a path is there, and has this value at each end."""
    return found is not None and all(key(value) == text for value in found)


def fields_of(crd: str, version: str) -> tuple[list[str], set[str]]:
    """The paths, and those of scalars among them."""
    paths: list[str] = []
    scalars: set[str] = set()
    for line in run("explain", crd, version, "--large").stdout.splitlines():
        path, end = json.JSONDecoder().raw_decode(line)
        paths.append(path)
        if line[end:].split(">")[0].strip(" <") in SCALARS:
            scalars.add(path)
    return paths, scalars


def samples_of(crd: str, version: str, pools: str) -> tuple[Samples, int]:
    """All samples within the greatest limit that has fewer than so many, and that limit."""
    found: tuple[Samples, int] = [], 0
    for limit in range(1, 128):
        words = ("--large", "--pools", pools, "--limit", str(limit), "--count", "10000")
        listed = run("sample", crd, version, *words)
        if "crdx: end" not in listed.stderr:
            break
        found = [(line, json.loads(line)) for line in listed.stdout.splitlines()], limit
        if limit >= MOST:
            break
    return found


def version_of(crd: pathlib.Path) -> str:
    return str(json.loads(crd.read_text())["spec"]["versions"][0]["name"])


def compare(example: str, crd: str, version: str, pools: str) -> None:
    paths, scalars = fields_of(crd, version)
    samples, limit = samples_of(crd, version, pools)
    if not samples:
        print(f"{example}: no samples within a small limit")
        return
    options: list[tuple[list[str], set[str]]] = [([], set()), (["--values"], scalars)]
    for option, values in options:
        cover = run("cover", crd, version, "--large", "--pools", pools, "--limit", str(limit), *option)
        lines, missed = plain_cover(paths, samples, values)
        said = "all paths" if missed == 0 else f"{missed} path"
        assert cover.stdout.splitlines() == lines, f"{example} {option}"
        assert said in cover.stderr, f"{example} {option}: {cover.stderr}"
    print(f"{example}: {len(paths)} paths, {len(samples)} samples of at most {limit} nodes, {len(lines)} lines with values")


def main() -> None:
    for example in sorted((ROOT / "examples").iterdir()):
        crd, pools = example / "relaxed.json", example / "pools.json"
        if not crd.exists():
            crd = example / "crd.json"
        if crd.exists() and pools.exists():
            compare(example.name, str(crd), version_of(crd), str(pools))


main()
