"""Helps: their parts, and the help of a command of the plugin, which is made of its own help and of that of crdx."""
from __future__ import annotations

import re

USAGE = "\n\nUsage: "
# the names of the values of options that are inputs
INPUTS = ("FILE", "OBJECT")


def section(text: str, heading: str) -> str:
    """The lines below a heading."""
    found = re.search(rf"^{heading}:\n((?: .*\n|\n)*)", text + "\n", re.M)
    return found[1] if found else ""


def entries(text: str, heading: str) -> dict[str, str]:
    """The entries below a heading, by the name of an argument or the long form of an option."""
    found = re.findall(r"^ {2,6}\S.*\n(?: {8,}.*\n|\n)*", section(text, heading), re.M)
    return {re.findall(r"--[\w-]+|[A-Z]{2,}", entry)[0]: entry.rstrip() for entry in found}


def options_in(text: str) -> dict[str, str]:
    """The options, each with the name of its value or with ``."""
    return dict(re.findall(r"^ +(?:-\w, )?(--[\w-]+)(?: <(\w+)>)?", text, re.M))


def about(text: str) -> tuple[str, list[str]]:
    """What a help says first, and the end of it that is no example."""
    ending = re.findall(r"^`crdx --help` explains .*(?:\n.+)*", text, re.M)
    return text.partition(USAGE)[0], ending


def command_help(own: str, said: str, name: str, arguments: list[str], without: list[str]) -> str:
    """The help of a command: `own` is the help of the plugin, whose arguments of these names it takes, and `said` what crdx says of the
    command; the options are those of both, but for some."""
    taken = {**entries(own, "Options"), **entries(said, "Options")}
    del taken["--help"]
    explained = entries(own, "Arguments")
    first, ending = about(said)
    usage = " ".join([*(explained[word].split()[0] for word in arguments), "[OPTIONS]"])
    return "\n".join([
        f"{first}{USAGE}kubectl crdx {name} {usage}\n",
        "Arguments:", *(explained[word] for word in arguments),
        "\nOptions:", *(entry for option, entry in taken.items() if option not in without), "  -h, --help\n          Prints this text",
        "\n`kubectl crdx --help` has examples, and what all commands share.", *(f"\n{line}" for line in ending),
    ]) + "\n"
