"""The command line of the plugin."""
from __future__ import annotations

import argparse
import dataclasses

from .crdx import ALWAYS
from .texts import NAME

USAGE = "kubectl crdx COMMAND [NAME] [VERSION] [PATH | OBJECT...] [OPTIONS]; kubectl crdx --help says more"
# the options of kubectl that are passed on to it
CLUSTER = ["--context", "--kubeconfig"]


@dataclasses.dataclass
class Arguments:
    """The words that are not taken yet, the files of -f, the options for kubectl, and those for crdx with their values."""

    words: list[str]
    files: list[str]
    exact: bool
    cluster: list[str]
    passed: list[str]


class PassOn(argparse.Action):
    """Keeps an option for crdx, with its value if it takes one."""

    def __call__(self, parser: argparse.ArgumentParser, namespace: argparse.Namespace, values: object, option_string: str | None = None) -> None:
        namespace.passed = [*namespace.passed, option_string if self.nargs == 0 else f"{option_string}={values}"]


def arguments(options: dict[str, str], words: list[str]) -> Arguments:
    """The command line of a command with these options of crdx, each with the name of its value or with ``."""
    parser = argparse.ArgumentParser(NAME, usage=USAGE, add_help=False, allow_abbrev=False)
    parser.set_defaults(passed=[])
    parser.add_argument("words", nargs="*")
    parser.add_argument("-f", "--filename", dest="files", action="append", default=[])
    for flag in ["--exact", *ALWAYS]:
        parser.add_argument(flag, action="store_true")
    for flag in CLUSTER:
        parser.add_argument(flag)
    for option, value in options.items():
        if option in (*ALWAYS, "--help"):
            continue
        if value:
            parser.add_argument(option, dest="passed", action=PassOn)
        else:
            parser.add_argument(option, dest="passed", action=PassOn, nargs=0)
    found = parser.parse_intermixed_args(words)
    cluster = [f"{flag}={value}" for flag, value in zip(CLUSTER, [found.context, found.kubeconfig]) if value]
    return Arguments(found.words, found.files, found.exact, cluster, found.passed)
