#!/usr/bin/env python3
"""Compares the man pages of crdx and kubectl-crdx, and the completions of crdx, with what their help says.

Usage: tools/test_manual.py PROGRAM FOLDER
FOLDER has crdx.1, kubectl-crdx.1 and completions/, as tools/manual.py writes them. Each command, argument and option of the help has to be in each of the
four files, which may name no other, and each line of the help has to be in the man page. The completion for bash is run, those for zsh and
fish are read; where fish is installed its completion is run too, and where zsh is, it checks the syntax of its own.
"""
from __future__ import annotations

import re
import shutil
import subprocess
import sys
import tempfile
from pathlib import Path
from typing import NoReturn

TOP = "crdx"


def fail(text: str) -> NoReturn:
    sys.exit(f"test_manual.py: {text}")


def same(what: str, found: object, wanted: object) -> None:
    if found != wanted:
        fail(f"{what}: {found}, and not {wanted}")


def run(*words: str | Path, folder: str | None = None) -> str:
    return subprocess.run(words, stdout=subprocess.PIPE, encoding="utf-8", check=True, cwd=folder).stdout


class Manual:
    """What a text names: the commands, the arguments of each in their order, and its options with the name of the value, or with ''."""

    def __init__(self) -> None:
        self.names: list[str] = []
        self.arguments: dict[str, list[str]] = {}
        self.options: dict[str, dict[str, str]] = {TOP: {}}

    def add(self, name: str) -> None:
        self.names.append(name)
        self.arguments[name] = []
        self.options[name] = {}


# The help


def section(text: str, heading: str) -> str:
    found = re.search(rf"^{heading}:\n((?: .*\n|\n)*)", text, re.M)
    return found[1] if found else ""


def options_in(text: str) -> dict[str, str]:
    found = re.findall(r"^ {2,6}(-.*?)(?: <(\w+)>)?(?:  .*)?$", section(text, "Options"), re.M)
    return {flag: value for flags, value in found for flag in flags.split(", ")}


class Help(Manual):
    """The manual that the help is; `texts` has the help of each command, and `files` the names of what takes a file."""

    def __init__(self, program: str) -> None:
        super().__init__()
        self.texts = {TOP: run(program, "--help")}
        self.options[TOP] = options_in(self.texts[TOP])
        self.files = {"FILE"}
        for name in re.findall(r"^  (\S+)", section(self.texts[TOP], "Commands"), re.M):
            # the command `help` takes no options
            self.texts[name] = run(program, *(["help", name] if name == "help" else [name, "--help"]))
            self.add(name)
            self.options[name] = options_in(self.texts[name])
            for argument, said in re.findall(r"^  [<\[](\w+)\S*\s+(.*)", section(self.texts[name], "Arguments"), re.M):
                self.arguments[name].append(argument)
                if said.startswith("A JSON file"):
                    self.files.add(argument)


# The man page


def read_man(page: str) -> Manual:
    found, name = Manual(), TOP
    for line in re.findall(r"^\.SS crdx .*|(?<=^\.TP\n).*", page, re.M):
        value = re.search(r"\\fI(\w+)\\fR", line)
        flags = re.findall(r"\\fB(\\-.*?),?\\fR", line)
        if line.startswith(".SS"):
            name = line.split()[2]
            found.add(name)
        elif flags:
            found.options[name].update({it.replace("\\", ""): value[1] if value else "" for it in flags})
        elif value:
            found.arguments[name].append(value[1])
    return found


def plain(page: str) -> str:
    """The text of a page, as one line without markup."""
    text = re.sub(r"^\.\\\".*\n|^\.[A-Z]+ ?|\\f[BIR]|\\&", "", page, flags=re.M)
    for name, sign in {r"\-": "-", r"\(aq": "'", r"\(dq": '"', r"\(ha": "^", r"\(ti": "~", r"\(rs": "\\"}.items():
        text = text.replace(name, sign)
    return " ".join(text.lower().split())


def check_man(wanted: Help, page: str) -> None:
    found = read_man(page)
    same("crdx.1: its commands", found.names, wanted.names)
    same("crdx.1: its arguments", found.arguments, wanted.arguments)
    same("crdx.1: its options", found.options, wanted.options)
    for name, said in wanted.texts.items():
        check_lines("crdx.1", name, said, plain(page))


def check_lines(file: str, name: str, said: str, text: str) -> None:
    """Whether each line of a help is in the text of a page."""
    said = re.sub(r"^Usage: .*\n|^Commands:\n(?: .*\n)*|^(Arguments|Options):\n", "", said, flags=re.M)
    for line in said.replace("./crdx", "crdx").splitlines():
        words = re.sub(r"`|<(?=[A-Z]+>$)|(?<=[A-Z])>$|[.:]$", "", " ".join(line.split())).lower()
        if words not in text:
            fail(f"{file}: it lacks a line of the help of {name}: {line.strip()}")


# The completion for bash

DRIVE = r"""
source "$1"
compopt() { printf 'compopt %s\n' "$*"; }
COMP_WORDS=("${@:2}")
COMP_CWORD=$(($# - 2))
_crdx
printf '%s\n' "${COMPREPLY[@]}"
"""
FILES = {"compopt -o default"}


def check_bash(wanted: Help, file: Path) -> None:
    def offers(*words: str) -> set[str]:
        return set(run("bash", "-c", DRIVE, "bash", file, TOP, *words).split("\n")) - {""}

    def offered(value: str) -> set[str]:
        return FILES if value in wanted.files else set(wanted.names) if value == "COMMAND" else set()

    same("crdx.bash: crdx", offers(""), {*wanted.names, *wanted.options[TOP]})
    for name in wanted.names:
        same(f"crdx.bash: crdx {name[:3]}", offers(name[:3]), {it for it in wanted.names if it.startswith(name[:3])})
        options, arguments = wanted.options[name], wanted.arguments[name]
        same(f"crdx.bash: {name} -", offers(name, "-"), set(options))
        for number, value in enumerate(arguments):
            same(f"crdx.bash: {name}: {value}", offers(name, *arguments[:number], ""), offered(value))
        same(f"crdx.bash: {name}, after its arguments", offers(name, *arguments, ""), set(options))
        for flag, value in options.items():
            if value:
                same(f"crdx.bash: {name} {flag}", offers(name, flag, ""), offered(value))
                same(f"crdx.bash: {name} {flag}=", offers(name, flag, "="), offered(value))
            before = [flag, "=", "x"] if value else [flag]
            same(f"crdx.bash: {name}, after {flag}", offers(name, *before, ""), offered(arguments[0]))


# The completion for zsh


def check_zsh(wanted: Help, file: Path) -> None:
    head, *parts = re.split(r"^ {12}(\w+)\)$", file.read_text("utf-8"), flags=re.M)
    found = Manual()
    found.options[TOP] = zsh_options(head)
    for name, text in zip(parts[::2], parts[1::2]):
        found.add(name)
        found.options[name] = zsh_options(text)
        for argument, action in re.findall(r"^ +'\d:(\w+):(.*?)'", text, re.M):
            found.arguments[name].append(argument)
            same(f"_crdx: {name}: {argument}: files", action == "_files", argument in wanted.files)
    same("_crdx: its commands", found.names, wanted.names)
    same("_crdx: the commands that it describes", re.findall(r"^    '([a-z]\w*):", head, re.M), wanted.names)
    same("_crdx: its arguments", found.arguments, wanted.arguments)
    same("_crdx: its options", found.options, wanted.options)
    if is_installed("zsh"):
        run("zsh", "-n", file)


def zsh_options(text: str) -> dict[str, str]:
    return dict(re.findall(r"^ +'\([^)]*\)(-[\w-]+)=?\[.*?\](?::(\w+):.*)?' \\$", text + " \\", re.M))


# The completion for fish


def check_fish(wanted: Help, file: Path) -> None:
    names: list[str] = []
    options: dict[str, dict[str, bool]] = {TOP: {}}
    offered: dict[tuple[str, int], str] = {}
    for test, rest in re.findall(r"^complete -c crdx -n (?:'(.*?)'|__fish_use_subcommand) (.*)", file.read_text("utf-8"), re.M):
        words = test.split()
        if not words and rest.startswith("-a "):
            names.append(rest.split()[1])
            options[names[-1]] = {}
        elif "__crdx_is_at" in words:
            offered[words[1], int(words[2])] = rest.split(" -d ")[0]
        else:
            options[words[1] if words else TOP].update(fish_options(rest))
    kinds = {**{it: "-F" for it in wanted.files}, "COMMAND": f"-a '{' '.join(wanted.names)}'"}
    arguments = {(name, at): kinds[it] for name in wanted.names for at, it in enumerate(wanted.arguments[name], 1) if it in kinds}
    same("crdx.fish: its commands", names, wanted.names)
    same("crdx.fish: its arguments", offered, arguments)
    wanted_options = {name: {flag: value != "" for flag, value in taken.items()} for name, taken in wanted.options.items()}
    same("crdx.fish: its options", options, wanted_options)
    if is_installed("fish"):
        run_fish(wanted, file)


def fish_options(rest: str) -> dict[str, bool]:
    """The forms of an option, and whether it takes a value."""
    rest = rest.split(" -d ")[0]
    forms = re.findall(r"-s (\w)|-l ([\w-]+)", rest)
    return {f"-{short}" if short else f"--{long}": re.search(r" -[rx]\b", rest) is not None for short, long in forms}


def run_fish(wanted: Help, file: Path) -> None:
    with tempfile.TemporaryDirectory() as folder:
        (Path(folder) / "file").touch()

        def offers(*words: str) -> set[str]:
            line = " ".join([TOP, *words])
            lines = run("fish", "--no-config", "-c", f"source {file}; complete -C '{line}'", folder=folder).splitlines()
            return {it.split("\t")[0] for it in lines}

        same("crdx.fish: crdx", offers(""), set(wanted.names))
        for name in wanted.names:
            same(f"crdx.fish: {name} -", offers(name, "-"), set(wanted.options[name]))
            for at, value in enumerate(wanted.arguments[name]):
                files = {"file"} if value in wanted.files else set(wanted.names) if value == "COMMAND" else set()
                same(f"crdx.fish: {name}: {value}", offers(name, *wanted.arguments[name][:at], ""), files)


def is_installed(shell: str) -> bool:
    found = shutil.which(shell) is not None
    if not found:
        print(f"test_manual.py: no {shell} here, so its completion is read and not run")
    return found


def main(program: str, folder: str) -> None:
    wanted = Help(program)
    completions = Path(folder).resolve() / "completions"
    check_man(wanted, (Path(folder) / "crdx.1").read_text("utf-8"))
    plugin = run(Path(__file__).resolve().parent / "kubectl-crdx", "--help")
    check_lines("kubectl-crdx.1", "kubectl crdx", plugin, plain((Path(folder) / "kubectl-crdx.1").read_text("utf-8")))
    check_bash(wanted, completions / "crdx.bash")
    check_zsh(wanted, completions / "_crdx")
    check_fish(wanted, completions / "crdx.fish")
    print(f"test_manual.py: man page and completions have the {len(wanted.names)} commands of the help, their arguments and their options")


if __name__ == "__main__":
    if len(sys.argv) != 3:
        sys.exit("usage: tools/test_manual.py PROGRAM FOLDER")
    main(*sys.argv[1:])
