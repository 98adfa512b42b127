#!/usr/bin/env python3
"""Tests that `Plan::meter` alone makes a meter, so that the enumerator, which has a plan by a shared borrow, counts on the one it is given.

A contract does not see what a body makes, so no proof says this. Each other way to a meter is written into a function of a copy of
`enumerate`, and the compiler, which is asked for no proof, has to refuse each of these lines and nothing else. A new call of `plan` that
answers a meter has another name than those, so the text of `plan` is searched too."""
from __future__ import annotations

import pathlib
import re
import shutil
import subprocess
import sys
import tempfile
from typing import Iterator, NoReturn

ROOT = pathlib.Path(__file__).resolve().parent.parent

# each line that must not compile, and a word of what is said of it
WAYS = {
    "let mut own = Meter::spent();": "spent",
    "let mut own = Meter::new();": "new",
    "let mut own = Meter { steps: 0 };": "steps",
    "let mut own = Meter::default();": "default",
    "let mut own = std::mem::take(meter);": "Default",
    "let mut own = meter.clone();": "clone",
    "let mut own = self.plan.meter();": "mutable",
}
FUNCTION = "    fn make_list("

# the lines of `plan` that name the type, but for comments, imports and parameters `&mut Meter`
NAMED = [
    ("meter.rt", "impl Meter {"),
    ("meter.rt", "impl Model for Meter {"),
    ("meter.rt", "Meter { steps: 0 }"),
    ("meter.rt", "pub struct Meter {"),
    ("meter.rt", "pub(crate) fn new() -> Meter"),
    ("plan.rt", "Meter::new()"),
    ("plan.rt", "pub fn meter(&mut self) -> Meter"),
]


def stop(message: str) -> NoReturn:
    sys.exit(f"test_meters.py: {message}")


def named() -> Iterator[tuple[str, str]]:
    """The lines of `plan` that name the type `Meter`, or `Self` in its file, with their files."""
    source = ROOT / "crates/plan/src"
    for file in source.rglob("*.rt"):
        for line in file.read_text().splitlines():
            line = line.strip()
            word = r"\b(Meter|Self)\b" if file.name == "meter.rt" else r"\bMeter\b"
            if line.startswith("//") or re.fullmatch(r"(pub )?use [^;]*;", line) and not re.search(r"\bMeter as\b", line):
                continue
            if re.search(word, line.replace("&mut Meter", "")):
                yield str(file.relative_to(source)), line


def said(folder: pathlib.Path) -> tuple[list[tuple[str, str, str]], int]:
    """What the compiler says of each line of a copy of `list.rt` with a test and the ways in it, and the number of the first of these."""
    shutil.copy(ROOT / "crates.txt", folder)
    left_out = shutil.ignore_patterns("out", "proofs", "must-fail")
    shutil.copytree(ROOT / "crates", folder / "crates", ignore=left_out)
    file = folder / "crates/enumerate/src/list.rt"
    lines = file.read_text().splitlines()
    start = lines.index("    {", lines.index(FUNCTION)) + 1
    lines[start:start] = WAYS
    file.write_text("\n".join([*lines, "#[test]", "fn nothing() {}", ""]))
    words = ["rt", "try", "--test"]
    run = subprocess.run(words, cwd=file.parent.parent, text=True, capture_output=True)
    errors = re.findall(r"^src/(\S+?):(\d+):\d+: error(.*)", run.stdout + run.stderr, re.M)
    return errors, start + 1


def main() -> None:
    found = sorted(named())
    if found != sorted(NAMED):
        stop(f"the lines of crates/plan that name Meter are {found}")
    with tempfile.TemporaryDirectory() as folder:
        errors, first = said(pathlib.Path(folder))
    for number, (line, word) in enumerate(WAYS.items(), first):
        if not any((file, int(at)) == ("list.rt", number) and word in text for file, at, text in errors):
            stop(f"enumerate may have a meter of its own: {line}")
    for file, at, text in errors:
        if file != "list.rt" or not first <= int(at) < first + len(WAYS):
            stop(f"{file}, line {at}, is refused too: {text}")


main()
