"""Programs that answer lines: one over crates of this repository, compiled with no proof in a folder of its own, and one in Go."""
from __future__ import annotations

import os
import pathlib
import shutil
import subprocess
from typing import Sequence

ROOT = pathlib.Path(__file__).resolve().parent.parent

# Debian's packages of Go's sources
GOPATH = "/usr/share/gocode"


def word_of(text: str) -> str:
    """A text as a word of a line: hexadecimal digits behind an `x`."""
    return "x" + text.encode().hex()


def answers_of(command: list[str], folder: pathlib.Path, lines: str) -> list[str]:
    """What a program answers, a line for each line."""
    done = subprocess.run(command, cwd=folder, input=lines, capture_output=True, text=True, check=False)
    answers = done.stdout.split("\n")[:-1]
    if done.returncode != 0 or len(answers) != lines.count("\n"):
        raise SystemExit(f"{' '.join(command)}: status {done.returncode}, {len(answers)} lines of {lines.count(chr(10))}\n{done.stderr}")
    return answers


def of_crates(folder: pathlib.Path, names: Sequence[str], program: pathlib.Path, crates: str, lines: str) -> list[str]:
    """What a program over these crates answers: `crates` has a line for each of them, and one for the program's own, which is the last."""
    for name in names:
        shutil.copytree(ROOT / "crates" / name, folder / "crates" / name, ignore=shutil.ignore_patterns("out"))
    source = folder / "crates" / crates.strip().split("\n")[-1].split(":")[0] / "src"
    source.mkdir(parents=True)
    shutil.copy(program, source / "main.rt")
    shutil.copy(ROOT / "HANDLES", folder)
    (folder / "crates.txt").write_text(crates, encoding="utf-8")
    return answers_of(["rt", "try", "--seconds", "900"], source.parent, lines)


def of_go(folder: pathlib.Path, program: pathlib.Path, lines: str, gopath: str = GOPATH) -> list[str]:
    """What a program in Go answers, with the packages that lie on this machine."""
    built = folder / "go_lines"
    packages = {**os.environ, "GO111MODULE": "off", "GOPATH": gopath, "GOFLAGS": "", "GOCACHE": str(folder / "go_cache")}
    subprocess.run(["go", "build", "-o", str(built), str(program)], check=True, env=packages)
    return answers_of([str(built)], folder, lines)
