#!/usr/bin/env python3
"""Writes the man pages of crdx and of kubectl-crdx, and the completions of crdx for bash, zsh and fish, all made from their own help.

Usage: tools/manual.py PROGRAM FOLDER
Writes crdx.1, kubectl-crdx.1, completions/crdx.bash, completions/_crdx and completions/crdx.fish below FOLDER. The pages have the date
that the variable SOURCE_DATE_EPOCH gives in seconds, or else today's.
"""
from __future__ import annotations

import dataclasses
import enum
import os
import re
import subprocess
import sys
import textwrap
import time
from pathlib import Path
from typing import Dict, Iterable, Iterator, List, Tuple

MADE = "made by tools/manual.py from what `crdx --help` says"
PLUGIN = Path(__file__).resolve().parent / "kubectl-crdx"

# a paragraph, which may be empty, and the indented lines below it
Block = Tuple[str, List[str]]
# lines, by the titles of their sections
Sections = Dict[str, List[str]]

# The help


class Kind(enum.Enum):
    """What an argument or the value of an option is."""

    FILE = "file"
    COMMAND = "command"
    OTHER = "value"


@dataclasses.dataclass
class Entry:
    """A command, an argument or an option: its head, as `--pools <FILE>`, and the paragraphs on it. One of several lines is a list."""

    head: str
    paragraphs: list[str]

    @property
    def text(self) -> str:
        return " ".join(self.paragraphs)

    @property
    def flags(self) -> list[str]:
        return re.findall(r"(?<!\S)-[\w-]+", self.head)

    @property
    def value(self) -> str | None:
        """The name of an argument, or of what an option takes, if it takes anything."""
        found = re.search(r"[<\[]([\w-]+)", self.head)
        return found[1] if found else None

    @property
    def kind(self) -> Kind:
        if self.value == "COMMAND":
            return Kind.COMMAND
        return Kind.FILE if self.value == "FILE" or self.text.startswith("A JSON file") else Kind.OTHER


@dataclasses.dataclass
class Help:
    """The parts of a help: `description` comes before the usage, and `end` after the entries."""

    description: str
    usage: str
    commands: list[Entry]
    arguments: list[Entry]
    options: list[Entry]
    end: str


def read_help(text: str) -> Help:
    description, _, rest = text.partition("\n\nUsage: ")
    usage, _, rest = rest.partition("\n")
    sections: Sections = {"Commands:": [], "Arguments:": [], "Options:": []}
    lines = rest.splitlines()
    section: list[str] = []
    while lines and (lines[0] in sections or not lines[0] or lines[0].startswith(" ")):
        line = lines.pop(0)
        if line in sections:
            section = sections[line]
        else:
            section.append(line)
    commands, arguments, options = map(entries_of, sections.values())
    return Help(description, usage, commands, arguments, options, "\n".join(lines))


def entries_of(lines: list[str]) -> list[Entry]:
    """The entries of indented lines. One begins at two spaces, or at six where it is a long option; its text is further in, and the lines of
    a list still further."""
    entries: list[Entry] = []
    column = 0
    for line in lines:
        if re.match(r"  (    --|\S)", line):
            head, _, text = line.strip().partition("  ")
            entries.append(Entry(head, [text.strip()]))
            column = len(line) - len(text.strip()) if text.strip() else 0
        elif entries:
            column = column or indentation(line)
            add_line(entries[-1].paragraphs, line[column:] if indentation(line) > column else line.strip())
    for entry in entries:
        entry.paragraphs = [it for it in entry.paragraphs if it.strip()]
    return entries


def indentation(line: str) -> int:
    return len(line) - len(line.lstrip())


def add_line(paragraphs: list[str], line: str) -> None:
    """A blank line ends a paragraph, and a list begins and ends one; any other line goes on with the last one."""
    is_listed = line.startswith(" ")
    if not line or is_listed != paragraphs[-1].startswith(" ") and paragraphs[-1]:
        paragraphs.append(line)
    elif is_listed:
        paragraphs[-1] = f"{paragraphs[-1]}\n{line}".strip("\n")
    else:
        paragraphs[-1] = f"{paragraphs[-1]} {line}".strip()


class Program:
    """What a program says of itself: its version, its help, and the long and the short help of each command."""

    def __init__(self, path: str) -> None:
        self.path = path
        self.version = self.said("--version").split()[1]
        self.help = read_help(self.said("--help"))
        self.names = [it.head for it in self.help.commands]
        self.long = {name: self.help_of(name, "--help") for name in self.names}
        self.short = {name: self.help_of(name, "-h") for name in self.names}

    def said(self, *words: str) -> str:
        return subprocess.run([self.path, *words], stdout=subprocess.PIPE, encoding="utf-8", check=True).stdout

    def help_of(self, name: str, flag: str) -> Help:
        # the command `help` takes no options, these neither
        return read_help(self.said(*(["help", "help"] if name == "help" else [name, flag])))


# The man pages


def man_page(program: Program) -> str:
    sections = {
        "SYNOPSIS": usages(program),
        "DESCRIPTION": description(program.help),
        "OPTIONS": entries(program.help.options),
        "COMMANDS": [line for it in program.long.values() for line in command(it)],
        **ending(program.help.end),
        "SEE ALSO": prose([(SEE_ALSO, [])]),
    }
    return page("crdx", program, program.help, sections)


def man_page_of_plugin(program: Program) -> str:
    said = read_help(subprocess.run([PLUGIN, "--help"], stdout=subprocess.PIPE, encoding="utf-8", check=True).stdout)
    end = ending(said.end)
    sections = {
        "SYNOPSIS": [styled(said.usage)],
        "DESCRIPTION": description(said),
        "ARGUMENTS": entries(said.arguments),
        "OPTIONS": [*entries(said.options), *end.pop("CODES")],
        **end,
        "SEE ALSO": [r"\fBcrdx\fR(1)"],
    }
    return page("kubectl-crdx", program, said, sections)


def description(said: Help) -> list[str]:
    return prose(list(blocks_of(said.description))[1:])


def page(name: str, program: Program, said: Help, sections: Sections) -> str:
    """A page whose name is explained by the first line of a help."""
    about = said.description.splitlines()[0]
    date = time.strftime("%Y-%m-%d", time.gmtime(int(os.environ.get("SOURCE_DATE_EPOCH", time.time()))))
    sections = {"NAME": [escaped(f"{name} - {about[0].lower()}{about[1:].rstrip('.')}")], **sections}
    made = MADE.replace("crdx --help", f"{name} --help")
    lines = [f'.\\" The man page of {name}, {made}.', f'.TH {name.upper()} 1 {date} "crdx {program.version}" "User Commands"', ".ad l"]
    lines += [line for title, section in sections.items() for line in (f".SH {title}", *section)]
    # a heading begins a paragraph by itself
    kept = [line for before, line in zip(["", *lines], lines) if not (line == ".PP" and before.startswith(".S"))]
    return "\n".join(kept) + "\n"


SEE_ALSO = "`crdx-relax --help` tells how to make a wider schema, which crdx accepts, of one that it rejects. kubectl-crdx(1) does so itself."


def usages(program: Program) -> list[str]:
    first, *others = [styled(it.usage) for it in program.long.values()]
    return [first, *[line for it in others for line in (".br", it)]]


def command(said: Help) -> list[str]:
    title = re.sub(r"[<>]", "", said.usage)
    return [
        f".SS {escaped(title)}",
        *prose(blocks_of(said.description)),
        *entries(said.arguments),
        *entries(said.options),
        *prose(blocks_of(said.end)),
    ]


def ending(end: str) -> Sections:
    """The sections made of the end of a help. A table of codes has a heading of its own, after what is said of all."""
    status: list[str] = []
    codes: list[str] = []
    tables: list[str] = []
    examples: list[str] = []
    for text, indented in blocks_of(end):
        if text.startswith("Exit status"):
            status += prose([("", indented)])
        elif text.startswith("Example"):
            examples += prose([(text, indented)])
        elif indented:
            tables += [f".SS {escaped(text.rstrip(':'))}", *prose([("", indented)])]
        else:
            codes += prose([(text, [])])
    return {"EXIT STATUS": status, "CODES": [*codes, *tables], "EXAMPLES": examples}


def blocks_of(text: str) -> Iterator[Block]:
    """What is between blank lines: a paragraph, which may be empty, and the indented lines that follow it at once."""
    for block in re.split(r"\n\n+", text.strip("\n")):
        lines = block.splitlines()
        yield " ".join(it for it in lines if it[0] != " "), [it for it in lines if it[0] == " "]


def prose(blocks: Iterable[Block]) -> list[str]:
    lines: list[str] = []
    for text, indented in blocks:
        lines += [".PP", *filled(text)] if text else []
        if indented and re.match(r"  \S+  +\S", indented[0]):
            lines += entries(entries_of(indented))
        elif indented:
            lines += [".PP", *listed("\n".join(indented))]
    return lines


def listed(text: str, indent: int = 4) -> list[str]:
    """Lines as they are, so much further in than the margin."""
    return [f".RS {indent}", ".EX", *map(escaped, textwrap.dedent(text).splitlines()), ".EE", ".RE"]


def entries(found: list[Entry]) -> list[str]:
    lines: list[str] = []
    for it in found:
        first, *others = it.paragraphs
        lines += [".TP", styled(it.head), *filled(first)]
        for text in others:
            lines += [".IP", *(listed(text, 10) if text.startswith(" ") else filled(text))]
    return lines


def styled(text: str) -> str:
    """A head or a usage: the names of values in italics, all else in bold."""
    words = []
    for word in text.split():
        value = re.fullmatch(r"(\[?)<?([A-Z][A-Z_-]*)>?([].]*)", word)
        words.append(rf"{value[1]}\fI{escaped(value[2])}\fR{value[3]}" if value else rf"\fB{escaped(word)}\fR")
    return " ".join(words)


def filled(text: str) -> list[str]:
    return textwrap.wrap(escaped(text), 78, break_long_words=False, break_on_hyphens=False)


def escaped(text: str) -> str:
    """A text in roff, with what is between backquotes in bold. The program is on the path, and not in the current folder."""
    text = text.replace("./crdx", "crdx").replace("\\", r"\(rs")
    for sign, name in {"-": r"\-", "'": r"\(aq", '"': r"\(dq", "^": r"\(ha", "~": r"\(ti"}.items():
        text = text.replace(sign, name)
    # a line may begin with any word, but not with a dot
    text = re.sub(r"(?<!\S)\.", r"\\&.", text)
    return re.sub(r"`([^`]*)`", r"\\fB\1\\fR", text)


# The completions


def bash(program: Program) -> str:
    options = {"crdx": program.help.options, **{name: it.options for name, it in program.short.items()}}
    kinds = [
        *[f'["{name} {number}"]={it.kind.value}' for name in program.names for number, it in enumerate(program.short[name].arguments, 1)],
        *[f'["{name} {flag}"]={it.kind.value}' for name in program.names for it in program.short[name].options if it.value for flag in it.flags],
    ]
    return f"""\
# Completion of crdx in bash, {MADE}.

_crdx_commands='{" ".join(program.names)}'
declare -gA _crdx_options=(
    {join(f"[{name}]='{' '.join(flag for it in found for flag in it.flags)}'" for name, found in options.items())}
)
# what an argument of a command is, by its number, and what an option takes
declare -gA _crdx_kinds=(
    {join(kinds)}
)
{BASH}"""


def join(lines: Iterable[str]) -> str:
    return "\n    ".join(lines)


BASH = r"""
_crdx() {
    local word=${COMP_WORDS[COMP_CWORD]} command='' option='' number=1 before kind
    # "=" between an option and its value is a word of its own
    [ "$word" != = ] || word=''
    for before in "${COMP_WORDS[@]:1:COMP_CWORD-1}"; do
        if [ "$before" = = ]; then
            continue
        elif [ -n "$option" ]; then
            option=''
        elif [ -z "$command" ]; then
            [[ $before == -* ]] || command=$before
        elif [[ $before == -* ]]; then
            [ -z "${_crdx_kinds["$command $before"]-}" ] || option=$before
        else
            number=$((number + 1))
        fi
    done

    COMPREPLY=()
    kind=${_crdx_kinds["$command ${option:-$number}"]-}
    if [ -z "$command" ]; then
        mapfile -t COMPREPLY < <(compgen -W "$_crdx_commands ${_crdx_options[crdx]}" -- "$word")
    elif [ -z "$option" ] && { [[ $word == -* ]] || [ -z "$kind" ]; }; then
        mapfile -t COMPREPLY < <(compgen -W "${_crdx_options[$command]-}" -- "$word")
    elif [ "$kind" = command ]; then
        mapfile -t COMPREPLY < <(compgen -W "$_crdx_commands" -- "$word")
    elif [ "$kind" = file ]; then
        compopt -o default
    fi
}
complete -F _crdx crdx
"""


def zsh(program: Program) -> str:
    def arguments(flags: str, specs: Iterable[str], indent: int) -> str:
        return f" \\\n{' ' * indent}".join([f"_arguments{flags}", *map(quoted, specs)])

    def case(name: str) -> str:
        return f"            {name})\n                {arguments('', zsh_specs(program.short[name]), 20)}\n                ;;"

    top = [*zsh_specs(program.help), "1:command:->command", "*::argument:->argument"]
    commands = join(quoted(f"{it.head}:{it.text}") for it in program.help.commands)
    cases = "\n".join(map(case, program.names))
    return f"""\
#compdef crdx
# Completion of crdx in zsh, {MADE}.

local curcontext=$curcontext state line
typeset -A opt_args
local -a commands=(
    {commands}
)
{arguments(" -C", top, 4)}
case $state in
    command)
        _describe -t commands command commands
        ;;
    argument)
        case $words[1] in
{cases}
        esac
        ;;
esac
"""


ZSH_ACTIONS = {Kind.FILE: "_files", Kind.COMMAND: "{_describe -t commands command commands}", Kind.OTHER: " "}


def zsh_specs(said: Help) -> Iterator[str]:
    """The options and the arguments as `_arguments` takes them; an option is offered once, whichever of its forms was typed."""
    for it in said.options:
        text = re.sub(r"([\\\[\]])", r"\\\1", it.text)
        takes = f":{it.value}:{ZSH_ACTIONS[it.kind]}" if it.value else ""
        for flag in it.flags:
            yield f"({' '.join(it.flags)}){flag}{'=' if takes else ''}[{text}]{takes}"
    for number, it in enumerate(said.arguments, 1):
        yield f"{number}:{it.value}:{ZSH_ACTIONS[it.kind]}"


def quoted(text: str) -> str:
    """A text between single quotes, for bash and zsh."""
    return "'" + text.replace("'", r"'\''") + "'"


def fish(program: Program) -> str:
    names = " ".join(program.names)
    lines = [f"complete -c crdx -n __fish_use_subcommand {it}" for it in fish_options(program.help)]
    lines += [f"complete -c crdx -n __fish_use_subcommand -a {it.head} -d {fish_quoted(it.text)}" for it in program.help.commands]
    for name in program.names:
        said = program.short[name]
        lines += [f"complete -c crdx -n '__fish_seen_subcommand_from {name}' {it}" for it in fish_options(said)]
        valued = "".join(f" {flag}" for it in said.options if it.value for flag in it.flags)
        for number, it in enumerate(said.arguments, 1):
            takes = {Kind.FILE: " -F", Kind.COMMAND: f" -a '{names}'", Kind.OTHER: ""}[it.kind]
            if takes:
                lines.append(f"complete -c crdx -n '__crdx_is_at {name} {number}{valued}'{takes} -d {fish_quoted(it.text)}")
    return f"# Completion of crdx in fish, {MADE}.\n{FISH}" + "\n".join(lines) + "\n"


FISH = r"""
# Whether the argument of this number is being typed after this command; the other words are the options of the command that take a value.
function __crdx_is_at --argument-names command number
    set -l words (commandline -opc)
    test "$words[2]" = $command; or return 1
    set -l at 1
    set -l option ''
    for word in $words[3..]
        if test -n "$option"
            set option ''
        else if contains -- $word $argv[3..]
            set option $word
        else if not string match -q -- '-*' $word
            set at (math $at + 1)
        end
    end
    test -z "$option" -a $at = $number
end

complete -c crdx -f
"""


def fish_options(said: Help) -> Iterator[str]:
    for it in said.options:
        flags = " ".join(f"-l {flag[2:]}" if flag.startswith("--") else f"-s {flag[1:]}" for flag in it.flags)
        takes = {Kind.FILE: " -r -F", Kind.OTHER: " -x"}[it.kind] if it.value else ""
        yield f"{flags}{takes} -d {fish_quoted(it.text)}"


def fish_quoted(text: str) -> str:
    return "'" + re.sub(r"(['\\])", r"\\\1", text) + "'"


def main(path: str, folder: str) -> None:
    program = Program(path)
    completions = Path(folder) / "completions"
    completions.mkdir(parents=True, exist_ok=True)
    (Path(folder) / "crdx.1").write_text(man_page(program), "utf-8")
    (Path(folder) / "kubectl-crdx.1").write_text(man_page_of_plugin(program), "utf-8")
    for name, made in {"crdx.bash": bash, "_crdx": zsh, "crdx.fish": fish}.items():
        (completions / name).write_text(made(program), "utf-8")


if __name__ == "__main__":
    if len(sys.argv) != 3:
        sys.exit("usage: tools/manual.py PROGRAM FOLDER")
    main(*sys.argv[1:])
