#!/usr/bin/env python3
"""Compares the crate `formats` with kube-openapi's strfmt, by which the API server tests formats.

Usage: tools/test_formats.py [--texts COUNT] [--seed NUMBER]

For each format the texts are those of the table in crates/crdx_tests, and others that are made of them: cut, put together, with characters
put in, left out and changed. `main.rt.txt` and `main.go` in `tools/test_formats` answer for both sides. Each difference is printed with its
class, and the status is 0 only where each class is one of `CLASSES`. Where there is no `go` or no strfmt, a line says so.
"""
from __future__ import annotations

import argparse
import collections
import pathlib
import random
import re
import shutil
import sys
import tempfile
from typing import Callable

sys.dont_write_bytecode = True

from compared_lines import GOPATH, ROOT, of_crates, of_go, word_of

PROGRAMS = ROOT / "tools" / "test_formats"
TABLE = ROOT / "crates" / "crdx_tests" / "src" / "formats_tests" / "format_cases.rt"
STRFMT = pathlib.Path(GOPATH) / "src" / "k8s.io" / "kube-openapi" / "pkg" / "validation" / "strfmt"
CRATES = """text_tests:
go_text:
formats: text_tests
patterns: go_text regex regex_syntax text_tests thiserror
format_lines: formats hex patterns
"""
COMMON = " .:-/\n\t[]@%\u00e90T"
SHOWN = 5


def listed() -> dict[str, list[str]]:
    """The texts of each format, by its name without dashes."""
    found: dict[str, list[str]] = collections.defaultdict(list)
    for name, text in re.findall(r"^(?:yes|no) (\S+) ?(.*)$", TABLE.read_text(encoding="utf-8"), re.MULTILINE):
        found[name.replace("-", "")].append(text)
    return found


def changed(texts: list[str], letters: str, draw: random.Random) -> str:
    text = draw.choice(texts)
    for _ in range(draw.randint(1, 3)):
        at = draw.randint(0, len(text))
        letter = draw.choice(COMMON if draw.random() < 0.05 else letters)
        other = draw.choice(texts)
        text = draw.choice((
            text[:at] + letter + text[at:],
            text[:at] + text[at + 1:],
            text[:at] + letter + text[at + 1:],
            text[:at] + other[draw.randint(0, len(other)):],
        ))
    return text


def texts_for(texts: list[str], count: int, draw: random.Random) -> list[str]:
    letters = "".join(texts) or "a"
    return [*texts, *(changed(texts, letters, draw) for _ in range(count - len(texts)))]


# ---- the classes of differences


def has(expression: str) -> Callable[[str], bool]:
    compiled = re.compile(expression)
    return lambda text: compiled.search(text) is not None


# name, the format, whether strfmt takes it, and a test of the text
CLASSES: list[tuple[str, str, bool, Callable[[str], bool]]] = [
    ("a duration within one unit of 2^63 nanoseconds, with a fraction", "duration", False, has(r"\d{6,}\.\d")),
    ("comments in comments", "email", True, has(r"\([^()]*\(")),
    ("a group of one address", "email", True, has(r":.*;")),
    ("a word in another character set", "email", False, has(r"=\?.*\?=")),
    ("a zone of an address in brackets", "uri", True, has(r"\[.*%.*\]")),
]


def class_of(name: str, text: str, taken: bool) -> str | None:
    for described, format_name, is_taken, test in CLASSES:
        if (name, taken) == (format_name, is_taken) and test(text):
            return described
    return None


def compare(made: dict[str, list[str]], go: list[str], rt: list[str]) -> bool:
    classes: dict[str | None, list[str]] = collections.defaultdict(list)
    count = 0
    for (name, texts), by_go, by_rt in zip(made.items(), go, rt):
        if by_go == "none":
            print(f"test_formats: this strfmt has no {name}")
            continue
        count += len(texts)
        for text, taken, ours in zip(texts, by_go, by_rt):
            if taken != ours:
                classes[class_of(name, text, taken == "1")].append(f"{name} {text!r}: strfmt {taken}, crate {ours}")
    print(f"test_formats: {count} texts of {len(made)} formats")
    for described, lines in classes.items():
        print(f"  {len(lines)} differ, {described or 'and no class has them'}:")
        for line in lines if described is None else lines[:SHOWN]:
            print(f"    {line}")
    return None not in classes


def main() -> int:
    words = argparse.ArgumentParser()
    words.add_argument("--texts", type=int, default=300, help="of each format")
    words.add_argument("--seed", type=int, default=1)
    chosen = words.parse_args()
    if shutil.which("go") is None or not STRFMT.is_dir():
        print("test_formats: no go or no strfmt here, so the formats are not compared with the API server's")
        return 0
    draw = random.Random(int(chosen.seed))
    made = {name: texts_for(texts, int(chosen.texts), draw) for name, texts in listed().items()}
    lines = "".join(f"{name} {' '.join(map(word_of, texts))}\n" for name, texts in made.items())
    with tempfile.TemporaryDirectory() as name:
        folder = pathlib.Path(name)
        go = of_go(folder, PROGRAMS / "main.go", lines)
        rt = of_crates(folder, ("text_tests", "go_text", "formats", "patterns"), PROGRAMS / "main.rt.txt", CRATES, lines)
    return 0 if compare(made, go, rt) else 1


if __name__ == "__main__":
    sys.exit(main())
