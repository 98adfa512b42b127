#!/usr/bin/env python3
"""Proves and builds crates, those that do not depend on each other side by side, and says how far it is on standard error.

Usage: tools/build_crates.py CRATE.., where each is the name of a crate and those of the crates that it depends on: `schema jtree thiserror`
What `rt` says of a crate goes to out/build/CRATE.log. The jobs that tools/jobs.sh allows are shared among the crates that are ready. The first
crate that fails ends the build, with status 70, and the others are stopped.

A run of rt keeps others out of the folders of its crate and of all that this depends on. So a crate beside others is built in a copy of these
folders, out/build/CRATE.tree, whose files are links to theirs, and what it has built is moved back.
"""
from __future__ import annotations

import contextlib
import os
import re
import shutil
import signal
import subprocess
import sys
import time
from pathlib import Path

sys.dont_write_bytecode = True

from crdx_schemas.programs import say

ROOT = Path(__file__).resolve().parent.parent
LOGS = ROOT / "out" / "build"
PROGRAM = "crdx_cli"
SHOWN_LINES = 20


class Failure(Exception):
    """A crate is not built."""


class Interrupted(Exception):
    """A signal, whose number this has, ends the build."""


def link_or_copy(source: str, target: str) -> None:
    try:
        os.link(source, target)
    except OSError:  # a file system without such links
        shutil.copy2(source, target)


def copy_of(crates: list[str]) -> Path:
    """Copies the folders of crates, of which the last one is to be built: what rt keeps of the others' checks is left out."""
    tree = LOGS / f"{crates[-1]}.tree"
    for crate in crates:
        left_out = ["must-fail"] if crate == crates[-1] else ["must-fail", "incremental"]
        ignored = shutil.ignore_patterns(*left_out)
        shutil.copytree(ROOT / "crates" / crate, tree / "crates" / crate, ignore=ignored, copy_function=link_or_copy)
    lines = (ROOT / "crates.txt").read_text(encoding="utf-8").splitlines(keepends=True)
    kept = [line for line in lines if re.findall(r"^\s*(\w*)", line)[0] in crates]
    (tree / "crates.txt").write_text("".join(kept), encoding="utf-8")
    return tree


class Check:
    """A crate that is being proved and built by so many jobs, in its folder or in a copy, with the crates that it depends on."""

    def __init__(self, crate: str, below: list[str], jobs: int, is_copied: bool) -> None:
        self.crate, self.jobs, self.began = crate, jobs, time.monotonic()
        self.log = LOGS / f"{crate}.log"
        self.tree = copy_of([*below, crate]) if is_copied else ROOT
        # a program is built by running it
        words = ["run", "--jobs", str(jobs), "--", "--version"] if crate == PROGRAM else ["lib", "--jobs", str(jobs)]
        with open(self.log, "wb") as log:
            self.process = subprocess.Popen(["rt", *words], cwd=self.tree / "crates" / crate, stdin=subprocess.DEVNULL, stdout=log,
                                            stderr=subprocess.STDOUT, start_new_session=True)

    def duration(self) -> str:
        minutes, seconds = divmod(round(time.monotonic() - self.began), 60)
        return f"{minutes} min {seconds:02} s" if minutes else f"{seconds} s"

    def stop(self) -> None:
        """Stops it and all that it has started; what it has proved so far is kept."""
        with contextlib.suppress(ProcessLookupError):
            os.killpg(self.process.pid, signal.SIGTERM)
        self.process.wait()
        self.take_back()

    def take_back(self) -> None:
        """Moves what was built from a copy to the crate's folder."""
        out = self.tree / "crates" / self.crate / "out"
        if self.tree != ROOT:
            if out.exists():
                shutil.rmtree(ROOT / "crates" / self.crate / "out", ignore_errors=True)
                out.rename(ROOT / "crates" / self.crate / "out")
            shutil.rmtree(self.tree)


class Build:
    """The crates, each with those that it depends on, and how far their build is."""

    def __init__(self, below: dict[str, set[str]], jobs: int) -> None:
        self.below, self.jobs = below, jobs
        self.running: list[Check] = []
        self.built: set[str] = set()
        self.signals: list[int] = []

    def ready(self) -> list[str]:
        begun = self.built | {check.crate for check in self.running}
        return [crate for crate, below in self.below.items() if crate not in begun and below <= self.built]

    def all_below(self, crate: str) -> list[str]:
        """The crates that one depends on, also by way of others."""
        below = set(self.below[crate])
        return sorted(below.union(*map(self.all_below, below)))

    def start(self) -> None:
        """Starts the crates that are ready, as far as there are jobs, which they share."""
        ready = self.ready()
        free = self.jobs - sum(check.jobs for check in self.running)
        for waiting in range(len(ready), 0, -1):
            if free > 0:
                crate, jobs = ready.pop(0), max(1, free // waiting)
                say("crdx", [f"crate {len(self.built) + len(self.running) + 1} of {len(self.below)}: {crate}"])
                is_copied = any(check.tree == ROOT for check in self.running)
                self.running.append(Check(crate, self.all_below(crate), jobs, is_copied))
                free -= jobs

    def end(self, check: Check) -> None:
        self.running.remove(check)
        check.take_back()
        if check.process.returncode != 0:
            lines = check.log.read_text(encoding="utf-8", errors="replace").splitlines()
            say("crdx", ["\n".join([f"the last lines of what rt said of {check.crate}:", *lines[-SHOWN_LINES:]])])
            raise Failure(f"the build of {check.crate} failed after {check.duration()}; {check.log} has all that rt said")
        self.built.add(check.crate)
        say("crdx", [f"{check.crate} took {check.duration()}"])

    def step(self) -> None:
        """Starts what is ready, and takes note of what has ended."""
        if self.signals:
            raise Interrupted(self.signals[0])
        self.start()
        if not self.running:
            raise Failure("crates.txt has crates that depend on each other")
        for check in [check for check in self.running if check.process.poll() is not None]:
            self.end(check)

    def run(self) -> None:
        """Builds all crates."""
        for number in (signal.SIGINT, signal.SIGTERM, signal.SIGHUP):
            signal.signal(number, lambda number, _: self.signals.append(number))
        for tree in LOGS.glob("*.tree"):  # of a build that was killed
            shutil.rmtree(tree)
        try:
            while len(self.built) < len(self.below):
                self.step()
                time.sleep(0.1)
        finally:
            for check in self.running:
                check.stop()


def main(crates: list[str]) -> None:
    names = {crate.split()[0] for crate in crates}
    below = {crate.split()[0]: set(crate.split()[1:]) & names for crate in crates}
    jobs = int(subprocess.run([ROOT / "tools" / "jobs.sh"], stdout=subprocess.PIPE, check=True).stdout)
    LOGS.mkdir(parents=True, exist_ok=True)
    try:
        Build(below, jobs).run()
    except Failure as failure:
        say("crdx", [str(failure)])
        sys.exit(70)
    except Interrupted as interrupt:
        # by the same signal, as a shell expects of a program
        signal.signal(interrupt.args[0], signal.SIG_DFL)
        os.kill(os.getpid(), interrupt.args[0])


if __name__ == "__main__":
    main(sys.argv[1:])
