"""Completions of `kubectl crdx`, as kubectl asks a plugin for them: a line for each, and last one of cobra's directives."""
from __future__ import annotations

import enum
from typing import Callable

from .helps import INPUTS


class Directive(enum.Enum):
    """Whether the shell may offer files."""

    FILES = ":0"
    NO_FILES = ":4"


# the options of a command, each with the name of its value or with ``, and whether it takes objects
Options = Callable[[str], "tuple[dict[str, str], bool]"]


def completions(words: list[str], commands: dict[str, str], options_of: Options) -> list[str]:
    """The lines for words of which the last one is being typed. The commands are given with what is said of each."""
    offered, directive = offers(words, commands, options_of)
    return [*offered, directive.value]


def offers(words: list[str], commands: dict[str, str], options_of: Options) -> tuple[list[str], Directive]:
    *before, word = words or [""]
    if not before:
        return matching({"--help": "", "--version": ""} if word.startswith("-") else commands, word), Directive.NO_FILES
    if before[0] == "help":
        return matching(commands, word), Directive.NO_FILES
    if before[0] not in commands:
        return [], Directive.NO_FILES
    options, takes_objects = options_of(before[0])
    option = word.partition("=")[0] if "=" in word else before[-1]
    if options.get(option):
        return [], Directive.FILES if options[option] in INPUTS else Directive.NO_FILES
    if word.startswith("-"):
        return matching(options, word), Directive.NO_FILES
    return [], Directive.FILES if takes_objects else Directive.NO_FILES


def matching(offered: dict[str, str], word: str) -> list[str]:
    """What begins with the word, each with what is said of it."""
    return [f"{name}\t{text}".rstrip() for name, text in offered.items() if name.startswith(word)]
