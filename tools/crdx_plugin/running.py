"""The commands of the plugin, and what it answers beside them."""
from __future__ import annotations

import contextlib
import re

from crdx_schemas.documents import Refusal
from crdx_schemas.programs import say, write
from crdx_schemas.relaxing import Relaxed

from .arguments import Arguments, arguments
from .completing import completions
from .crdx import ALWAYS, Command, Crdx, in_memory
from .helps import command_help, options_in
from .inputs import check_inputs, definition_of, inputs_of, label, objects_of, refuse_other_kinds
from .sources import Document, documents_in
from .texts import HELP, NAME, RELAX
from .versions import chosen_version, is_version
from .widening import hidden_rules, relax, relaxed, suggested_pools, values_of


def one_a_line(objects: list[Document]) -> str:
    """The text of objects, with one on each line."""
    return "".join(re.sub("[\r\n]", " ", one.text) + "\n" for one in objects)


def print_pools(crdx: Crdx, words: list[str], schema: Relaxed | None, definition: Document) -> None:
    """Prints the pools that crdx suggests; it has the objects of `--from` in JSON, one on each line of a file."""
    with contextlib.ExitStack() as stack:
        objects = []
        for place, file in enumerate(words):
            if file.startswith("--from="):
                found = documents_in(file.partition("=")[2], "object")
                words[place] = f"--from={stack.enter_context(in_memory(one_a_line(found)))}"
                objects += found
        refuse_other_kinds(definition, objects)
        write(suggested_pools(crdx, words, schema, objects))


def run_on_objects(command: Command, words: list[str], objects: list[Document]) -> int:
    """Runs a command on each object up to one that is refused, or on all at once where it takes one on each line. Answers the greatest
    status."""
    if "--lines" in words or ("--lines" in command.options and len(objects) > 1):
        words = [word for word in words if word != "--lines"] + ["--lines"]
        objects = [Document(one_a_line(objects), None)]
    status = 0
    for number, one in enumerate(objects, 1):
        if len(objects) > 1:
            say(NAME, [label(number, one)])
        with in_memory(one.text) as file:
            status = max(status, command.status(*words, file))
        if status > 1:
            break
    return status


def run_command(command: Command, asked: Arguments) -> int:
    """Runs a command of crdx on the relaxed definition, and answers its status."""
    check_inputs([*asked.files, *command.inputs(asked.passed)])
    inputs = inputs_of(asked)
    definition = definition_of(asked, inputs)
    version = asked.words.pop(0) if asked.words and is_version(asked.words[0]) else None
    objects = objects_of(asked, definition, inputs) if command.takes_object else []
    version = version or chosen_version(definition, objects)
    text, schema = (definition.text, None) if asked.exact else relaxed(definition, version)
    if command.name == "check" and schema:
        say(NAME, hidden_rules(command.crdx, definition, version, text))
    with in_memory(text) as crd:
        words = [*asked.passed, crd, version, *asked.words]
        if command.takes_object:
            return run_on_objects(command, words, objects)
        if command.name == "pools":
            print_pools(command.crdx, words, schema, definition)
            return 0
        if "--pools" in command.options and not values_of(words, "--pools"):
            with in_memory(suggested_pools(command.crdx, [crd, version], schema, [])) as pools:
                return command.status(f"--pools={pools}", *words)
        return command.status(*words)


def help_of(crdx: Crdx, name: str) -> str:
    """The help of a command."""
    if name == "relax":
        return command_help(HELP, RELAX, name, ["NAME", "VERSION"], ["--exact", "--version"])
    command, said = Command(crdx, name), crdx.said(name, "--help")
    arguments_of = ["NAME", "VERSION", *["PATH"] * command.takes_path, *["OBJECT"] * command.takes_object]
    return command_help(HELP, said, name, arguments_of, [*ALWAYS, "--version"])


def completed(crdx: Crdx, words: list[str]) -> str:
    """The completions of words of which the last one is being typed."""
    def options_of(name: str) -> tuple[dict[str, str], bool]:
        command = None if name == "relax" else Command(crdx, name)
        options = {**options_in(HELP), "-f": "FILE", **(command.options if command else {})}
        kept = {option: value for option, value in options.items() if option not in (*ALWAYS, "--version")}
        return kept, command is not None and command.takes_object

    commands = {**crdx.commands(), "relax": RELAX.partition("\n")[0]}
    return "".join(f"{line}\n" for line in completions(words, commands, options_of))


def text_of(crdx: Crdx, words: list[str]) -> str | None:
    """What is printed where no definition is asked about: completions, the version or a help that is not that of crdx."""
    if words[:1] == ["__complete"]:
        return completed(crdx, words[1:])
    if words[:1] in (["-h"], ["--help"]):
        return HELP
    if words[:1] in (["-V"], ["--version"]):
        return f"kubectl-crdx, which runs {crdx.said('--version').strip()} as {crdx.program}\n"
    if not words or words[0].startswith("-"):
        raise Refusal("there is no COMMAND: kubectl crdx --help says more", 2)
    return help_of(crdx, words[0]) if words[0] != "help" and ("-h" in words or "--help" in words) else None


def run(crdx: Crdx, words: list[str]) -> int:
    """Runs the plugin, and answers its status."""
    text = text_of(crdx, words)
    if text is not None:
        write(text)
        return 0
    if words[0] == "help":
        return crdx.run(*words).returncode
    if words[0] == "relax":
        relax(arguments({}, words[1:]))
        return 0
    command = Command(crdx, words[0])
    return run_command(command, arguments(command.options, words[1:]))
