#!/usr/bin/env python3
"""Runs the sessions of README.md and of pages in docs/, and compares what they print with what the pages say.

Usage: tools/test_sessions.py [TEST..], as `unittest` takes them
In an indented block a line that begins with `$` is a command for bash, and lines right below it that begin with `>` go on with it. What
follows is what it prints, on both streams; `...` stands for any lines. Lines that begin with `#` are not run, but for one that begins with
`# $` and ends in `(run where NAME is installed)`, where that program is. The commands of a page run one after another, in an empty folder
with links to what is in this one. A page is skipped where a program that it uses is not installed.
"""
from __future__ import annotations

import re
import shutil
import subprocess
import tempfile
import unittest
from pathlib import Path
from typing import List, Tuple

# a command, and the lines that it prints
Command = Tuple[str, List[str]]

ROOT = Path(__file__).resolve().parent.parent
PAGES = ["README.md", "docs/RELAX.md", "docs/WALKTHROUGH.md"]
MARK = "@@ test_sessions.py @@"
OPTIONAL = re.compile(r"# (\$ .*?) +\(run where (\S+) is installed\)")


def commands_of(page: str) -> list[Command]:
    """The commands of a page."""
    commands: list[Command] = []
    for block in re.findall(r"(?:^    .*\n)+", (ROOT / page).read_text(encoding="utf-8"), re.M):
        is_run = False
        for line in (line[4:] for line in block.splitlines()):
            optional = OPTIONAL.fullmatch(line)
            if optional and shutil.which(optional[2]):
                line = optional[1]
            if line.startswith(("$ ", "#")):
                is_run = line.startswith("$ ")
                commands += [(line[2:], [])] if is_run else []
            elif is_run and line.startswith("> ") and not commands[-1][1]:
                commands[-1] = (f"{commands[-1][0]}\n{line[2:]}", [])
            elif is_run:
                commands[-1][1].append(line)
    return commands


def printed(commands: list[Command]) -> list[list[str]]:
    """What each command prints, where they run one after another."""
    script = "exec 2>&1\n" + "".join(f"{command}\necho '{MARK}'\n" for command, _ in commands)
    with tempfile.TemporaryDirectory() as folder:
        for file in ROOT.iterdir():
            (Path(folder) / file.name).symlink_to(file)
        ran = subprocess.run(["bash", "-c", script], cwd=folder, stdout=subprocess.PIPE, stdin=subprocess.DEVNULL, encoding="utf-8", check=False)
    return [part.splitlines() for part in ran.stdout.split(f"{MARK}\n")]


class Sessions(unittest.TestCase):
    maxDiff = None

    def test_pages(self) -> None:
        for page in PAGES:
            commands = commands_of(page)
            missing = [name for name in ("jq", "kubectl") if not shutil.which(name) and any(name in command for command, _ in commands)]
            if missing:
                print(f"test_sessions.py: no {' and no '.join(missing)} here, so {page} is not tested")
                continue
            with self.subTest(page):
                self.assertGreater(len(commands), 5)
                for (command, wanted), found in zip(commands, printed(commands)):
                    lines = "\n".join(".*" if line == "..." else re.escape(line) for line in wanted)
                    if not re.fullmatch(lines, "\n".join(found), re.S):
                        self.assertEqual((command, found), (command, wanted))


if __name__ == "__main__":
    unittest.main()
