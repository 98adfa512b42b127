"""The program crdx: where it is, its runs, and what its help says of a command."""
from __future__ import annotations

import contextlib
import os
import re
import shutil
import subprocess
from pathlib import Path
from typing import Iterator

from crdx_schemas.documents import Refusal

from .helps import INPUTS, options_in, section

# what each command that asks about a definition is given
ALWAYS = ["--large", "--why"]


def given(words: list[str]) -> list[str]:
    """These words behind those that each command is given: documents are read as a cluster reads them, where no profile is named."""
    profile = [] if any(word.startswith("--profile=") for word in words) else ["--profile=cluster"]
    return [*ALWAYS, *profile, *words]


@contextlib.contextmanager
def in_memory(text: str) -> Iterator[str]:
    """The name by which crdx can open a file with this text, which is in memory alone."""
    descriptor = os.memfd_create("crdx", 0)
    try:
        with open(descriptor, "w", encoding="utf-8", closefd=False) as file:
            file.write(text)
        yield f"/dev/fd/{descriptor}"
    finally:
        os.close(descriptor)


class Crdx:
    """The program crdx, for the plugin in a folder."""

    def __init__(self, folder: Path) -> None:
        self.folder = folder

    @property
    def program(self) -> str:
        """The one that CRDX names, or beside the plugin, as packages have it, or on the path, or else the wrapper above the plugin's folder."""
        places = [self.folder / "crdx", shutil.which("crdx"), self.folder.parent / "crdx"]
        found = os.environ.get("CRDX") or next((str(place) for place in places if place and Path(place).is_file()), None)
        if not found:
            raise Refusal("there is no crdx beside this program or on the path", 70)
        return found

    def run(self, *words: str, stdout: int | None = None, stderr: int | None = None) -> subprocess.CompletedProcess[str]:
        """Runs crdx with the files that are open, and answers how it ended; as a shell says it, where that was by a signal. A wrapper that
        would have to build it first says so instead."""
        command, environment = [self.program, *words], {**os.environ, "CRDX_BUILD": "no"}
        try:
            ran = subprocess.run(command, stdout=stdout, stderr=stderr, close_fds=False, encoding="utf-8", check=False, env=environment)
        except OSError:
            raise Refusal("crdx cannot be run", 70) from None
        ran.returncode = ran.returncode if ran.returncode >= 0 else 128 - ran.returncode
        return ran

    def said(self, *words: str) -> str:
        """What crdx prints; where it fails it has said why."""
        ran = self.run(*words, stdout=subprocess.PIPE)
        if ran.returncode != 0:
            raise Refusal(None, ran.returncode)
        return ran.stdout

    def commands(self) -> dict[str, str]:
        """The names of the commands, each with what the help says of it."""
        return dict(re.findall(r"^  (\S+) +(.*)", section(self.said("-h"), "Commands"), re.M))


class Command:
    """A command of crdx, as its help describes it: its options, each with the name of its value or with ``, and what it takes."""

    def __init__(self, crdx: Crdx, name: str) -> None:
        self.crdx, self.name = crdx, name
        said = crdx.said(name, "-h")
        usage = re.findall("^Usage: .*", said, re.M)[0]
        self.options = options_in(said)
        self.takes_object, self.takes_path = "OBJECT" in usage, "PATH" in usage

    def inputs(self, words: list[str]) -> list[str]:
        """The values of options, written with a `=`, that are names of inputs."""
        return [value for option, _, value in (word.partition("=") for word in words) if self.options.get(option) in INPUTS]

    def status(self, *words: str) -> int:
        """Runs the command, and answers its status."""
        return self.crdx.run(self.name, *given([*words])).returncode
