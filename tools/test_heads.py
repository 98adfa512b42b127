#!/usr/bin/env python3
"""Tests that the code at the head of each library crate is in crates/crdx_tests/src/examples.rt, white space aside."""
from __future__ import annotations

import pathlib
import re
import sys

ROOT = pathlib.Path(__file__).resolve().parent.parent
TESTS = {"crdx_cli", "crdx_tests"}


def plain(text: str) -> str:
    """The text without white space, and without the commas that a formatter adds before a closing bracket."""
    return re.sub(r",(?=[)\]}])", "", re.sub(r"\s+", "", text))


def main() -> None:
    tested = plain((ROOT / "crates/crdx_tests/src/examples.rt").read_text())
    for root in sorted(ROOT.glob("crates/*/src/lib.rt")):
        crate = root.parent.parent.name
        if crate in TESTS:
            continue
        head = "\n".join(line[4:] for line in root.read_text().splitlines() if line.startswith("//! ") or line == "//!")
        codes = re.findall(r"^```\n(.*?)^```", head, re.S | re.M)
        if not codes:
            sys.exit(f"test_heads.py: no code at the head of {crate}")
        for code in codes:
            for line in code.splitlines():
                if plain(line) not in tested:
                    sys.exit(f"test_heads.py: no test has this line of {crate}: {line}")


main()
