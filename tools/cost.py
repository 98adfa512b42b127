#!/usr/bin/env python3
"""What judging large schemas and objects costs, the time and the peak memory of a run for each; and what listing samples costs, as
ratios of times of this run, and against the plain program tools/plain.rs in time, instructions and lines. Fails where a figure is
above its limit, once all is measured. Needs rustc and valgrind for the plain program, and skips what it cannot measure without them."""
from __future__ import annotations

import dataclasses
import math
import re
import shutil
import subprocess
import sys
import tempfile
import time
from pathlib import Path
from typing import Callable, NoReturn

sys.dont_write_bytecode = True

import cost_documents
from crdx_schemas.documents import Json
from large_schema import compact

ROOT = Path(__file__).resolve().parent.parent
WRAPPER = str(ROOT / "crdx")
# without the wrapper, which takes longer than the program and is part of no limit
PROGRAM = str(ROOT / "crates" / "crdx_cli" / "out" / "crdx_cli")


# ---- what is measured; the commands have the names of documents that tools/cost_documents.py makes

@dataclasses.dataclass(frozen=True)
class Row:
    """A command, which answers or refuses what it is asked, and the seconds and KiB below which it has to stay."""

    name: str
    seconds: float
    kilobytes: int
    command: str


LIMITED = [
    Row("check with reasons of 80001 keywords", 1, 65536, "check 80001-keywords v1 --why"),
    # a definition of real size, and an object of 1,024 optional fields, within the larger limits
    Row("check of 16000 places", 0.25, 65536, "check 16000-places v1 --large"),
    Row("check with reasons of 16000 places", 0.25, 65536, "check 16000-places v1 --large --why"),
    Row("explain of 16000 places", 0.25, 65536, "explain 16000-places v1 --large"),
    Row("validate of an object of 16000 places", 0.25, 65536, "validate 16000-places v1 object-of-16000-places --large"),
    # as a cluster judges: patterns are compiled anew in each run
    Row("validate --profile cluster of an object of 16000 places", 0.25, 65536,
        "validate 16000-places v1 object-of-16000-places --large --profile cluster"),
    Row("validate --profile cluster beside 300 patterns", 0.05, 65536, "validate 300-patterns v1 300-texts --large --profile cluster"),
    Row("prune of an object of 16000 places", 0.25, 65536, "prune 16000-places v1 object-of-16000-places --large"),
    Row("default of an object of 16000 places", 0.25, 65536, "default 16000-places v1 object-of-16000-places --large"),
    Row("a sample of 16000 places over pools-of-16000-places", 1, 131072,
        "sample 16000-places v1 --large --pools pools-of-16000-places --limit 63 --count 1"),
    Row("a sample of 16000 places over large-pools", 1, 131072, "sample 16000-places v1 --large --pools large-pools --limit 63 --count 1"),
    Row("a sample of 1024 optional fields", 1, 32768, "sample truths v1 --large --limit 63 --count 1"),
    # `cover` narrows one plan to each path that no line has yet
    Row("cover of 2021 places over small-pools", 5, 65536, "cover 2021-places v1 --large --pools small-pools"),
    Row("cover of 2021 places over pools-of-2021-places", 5, 65536, "cover 2021-places v1 --large --pools pools-of-2021-places"),
    Row("cover of 2021 places over full-pools", 5, 65536, "cover 2021-places v1 --large --pools full-pools"),
    Row("cover of 16000 places over pools-of-16000-places", 5, 65536, "cover 16000-places v1 --large --pools pools-of-16000-places"),
    Row("cover of 10000 fields beside 1000 fixed paths", 5, 65536, "cover 11-by-1000-integers v1 --large --pools 1000-fixed-fields"),
    Row("cover --values of 15 objects of 32 int-or-string fields over 64-integers-and-strings", 5, 65536,
        "cover --values 15-by-32-int-or-strings v1 --pools 64-integers-and-strings"),
    # fixed values with more nodes than the limit, which are not judged: a set whose items do not ascend, and a list of which much is asked
    Row("samples of a fixed set of 80000 descending integers", 1, 65536, "sample set v1 --pools descending-pools --limit 1"),
    Row("samples of a fixed list of 80000 integers with 500 branches each", 1, 65536, "sample 500-branches v1 --pools integers-pools --limit 8"),
]


@dataclasses.dataclass(frozen=True)
class Unlimited:
    """A command that has no limit, and the document in it that is large."""

    name: str
    document: str
    command: str


def figures_of_schema(schema: str) -> list[Unlimited]:
    return [
        Unlimited(f"check of {schema}", schema, f"check {schema} v1"),
        Unlimited(f"check with reasons of {schema}", schema, f"check {schema} v1 --why"),
        Unlimited(f"explain of {schema}", schema, f"explain {schema} v1"),
        Unlimited(f"pools of {schema}", schema, f"pools {schema} v1"),
    ]


def figure_of_object(command: str, schema: str, document: str) -> Unlimited:
    return Unlimited(f"{command} of {document} by {schema}", document, f"{command} {schema} v1 {document}")


def figure_of_sample(name: str, schema: str, pools: str, limit: int) -> Unlimited:
    return Unlimited(f"a sample of {schema} {name}", schema, f"sample {schema} v1 --pools {pools} --limit {limit} --count 1")


UNLIMITED = [
    *[figure for schema in sorted(cost_documents.LARGE_SCHEMAS) for figure in figures_of_schema(schema)],
    figure_of_object("validate", "set", "160000-integers"),
    figure_of_object("validate", "set", "200000-integers-of-10000-values"),
    figure_of_object("validate", "list", "500000-digits"),
    figure_of_object("validate", "map-list", "10000-items-of-4-keys"),
    figure_of_object("validate", "preserving", "500000-digits"),
    figure_of_object("prune", "preserving", "500000-digits"),
    figure_of_object("default", "preserving", "500000-digits"),
    figure_of_object("validate", "map", "90000-members"),
    figure_of_object("prune", "object", "90000-members"),
    figure_of_object("default", "map", "90000-members"),
    figure_of_object("leaves", "set", "150000-descending-integers"),
    figure_of_object("leaves", "list", "500000-digits"),
    figure_of_object("leaves", "map-list", "10000-items-of-4-keys"),
    figure_of_object("leaves", "preserving", "500000-digits"),
    figure_of_object("leaves", "map", "90000-members"),
    # plans of many places with full pools, at the greatest limit of words of 64 bits and at that of words of 128, and with as many lists
    # for paths as there may be
    figure_of_sample("within 63 nodes", "511-places-1-MiB", "full-pools", 63),
    figure_of_sample("within 127 nodes", "511-places-1-MiB", "full-pools", 127),
    figure_of_sample("within 63 nodes", "84-map-lists-of-4-keys", "full-pools", 63),
    figure_of_sample("within 127 nodes", "84-map-lists-of-4-keys", "full-pools", 127),
    figure_of_sample("with 64 lists for paths", "511-places-1-MiB", "listed-pools", 127),
]


@dataclasses.dataclass(frozen=True)
class Past:
    """640 samples past the millionth one, against 640 past the first; the values of both are known by their numbers, from 0 on."""

    name: str
    command: str
    value: Callable[[int], Json]

    def words(self, number: int) -> list[str]:
        return [WRAPPER, *self.command.split(), "--limit", "63", "--count", "640", "--after", compact(self.value(number))]


PAST = [
    Past("of 1024 fields, past the millionth sample", "sample truths v1 --large", cost_documents.two_of_truths),
    Past("past the millionth sample", "sample fifteen v1", cost_documents.fifteen),
    # where a junctor asks which fields are there
    Past("with junctors, past the millionth sample", "sample one-of-two v1", cost_documents.one_of_two),
]

# the first 10,000 samples of each of these shapes are compared with the lines of the plain program
SHAPES = {
    "optional": "sample optional v1 --pools two --limit 8",
    "keys": "sample keys v1 --pools four --limit 14",
    "fifteen": "sample fifteen v1 --limit 63",
}


# ---- runs

def stop(line: str) -> NoReturn:
    sys.exit(f"cost.py: {line}")


def show(line: str) -> None:
    print(line, flush=True)


def complain(line: str) -> None:
    print(f"cost.py: {line}", file=sys.stderr, flush=True)


def has(command: str, loss: str) -> bool:
    """Whether this command is on the path; where it is not, says what is not measured."""
    found = shutil.which(command) is not None
    if not found:
        complain(f"{command} is not on the path, so not measured: {loss}")
    return found


class Runs:
    """Runs in a folder with the documents."""

    def __init__(self, folder: Path) -> None:
        self.folder = folder

    def text(self, name: str) -> str:
        return (self.folder / name).read_text(encoding="utf-8")

    def run(self, words: list[str]) -> int:
        """Runs words, and answers their status; the files `output` and `errors` have what they write."""
        with open(self.folder / "output", "wb") as output, open(self.folder / "errors", "wb") as errors:
            return subprocess.run(words, stdout=output, stderr=errors, cwd=self.folder, check=False).returncode

    def lines(self, name: str, words: list[str]) -> bytes:
        """What words write that succeed."""
        if self.run(words) != 0:
            self.fail(name)
        return (self.folder / "output").read_bytes()

    def fail(self, name: str) -> NoReturn:
        said = self.text("errors").splitlines() or ["it failed"]
        stop(f"{name}: {said[-1]}")

    def cost(self, words: list[str]) -> tuple[int, float, int]:
        """The status of words, the seconds that they take and their peak memory in KiB."""
        status = self.run(["/usr/bin/time", "-f", "%e %M", "-o", "cost", *words])
        seconds, kilobytes = self.text("cost").split()[-2:]
        return status, float(seconds), int(kilobytes)

    def peak(self, words: list[str]) -> int:
        return self.cost(words)[2]

    def instructions(self, words: list[str]) -> int:
        """How many instructions a run of words takes."""
        if self.run(["valgrind", "--tool=callgrind", "--callgrind-out-file=callgrind", *words]) != 0:
            stop(f"valgrind could not run {' '.join(words)}")
        return int(re.findall(r"^totals: (\d+)", self.text("callgrind"), re.M)[0])

    def best(self, words: list[str]) -> float:
        """The least time of a run of words, in seconds, of all that begin within two seconds. What they write is thrown away: to write a
        file anew can take longer than the run."""
        least, end = math.inf, time.monotonic() + 2
        while (began := time.monotonic()) < end:
            subprocess.run(words, stdout=subprocess.DEVNULL, stderr=subprocess.DEVNULL, cwd=self.folder, check=False)
            least = min(least, time.monotonic() - began)
        return least


class Figures:
    """What is measured in these runs, and the names of what is above its limit."""

    def __init__(self, runs: Runs) -> None:
        self.runs = runs
        self.above: list[str] = []

    def limit(self, name: str, is_kept: bool) -> None:
        if not is_kept:
            complain(f"{name}: above the limit")
            self.above.append(name)

    def compare(self, name: str, unit: str, scale: float, one: float, other: float, most: float = math.inf) -> None:
        """Shows one figure over another one, and both over `scale`; the first may be `most` times the other."""
        show(f"{name}: {one / other:.2f} ({one / scale:.1f} {unit} against {other / scale:.1f} {unit})")
        self.limit(name, one <= most * other)

    def ratio(self, name: str, one: float, other: float, most: float = math.inf) -> None:
        """Compares times in seconds."""
        self.compare(name, "ms", 0.001, one, other, most)

    def unlimited(self, it: Unlimited) -> None:
        _, seconds, kilobytes = self.runs.cost([WRAPPER, *it.command.split()])
        said = (self.runs.text("output") or self.runs.text("errors"))[:60].partition("\n")[0]
        size = (self.runs.folder / it.document).stat().st_size
        show(f"{it.name}, {size} bytes: {seconds:.2f} s, {kilobytes} KiB ({said})")

    def row(self, row: Row) -> None:
        status, seconds, kilobytes = self.runs.cost([PROGRAM, *row.command.split()])
        if status not in (0, 1):
            self.runs.fail(row.name)
        show(f"{row.name} (below {row.seconds:g} s and {row.kilobytes} KiB): {seconds:.2f} s, {kilobytes} KiB")
        self.limit(row.name, seconds < row.seconds and kilobytes < row.kilobytes)

    def objects_on_lines(self) -> None:
        """Samples are valid, so of each nothing is written. As a cluster judges, some have texts without their format."""
        command = "sample issuer/crd.json v1 --pools issuer/pools.json --limit 63 --count 10000"
        samples = self.runs.lines("samples of the issuer", [PROGRAM, *command.split()])
        count = len(samples.splitlines())
        if count != 10000:
            stop(f"samples of the issuer: {count}, and not 10,000")
        (self.runs.folder / "issuers").write_bytes(samples)
        self.row(Row(f"validate --lines of 10,000 samples, {len(samples)} bytes", 0.2, 8192, "validate issuer/crd.json v1 --lines issuers"))
        if said := self.runs.text("output"):
            stop(f"validate --lines of samples: {said.splitlines()[0]}")
        self.row(Row("the same with --profile cluster", 0.3, 8192, "validate issuer/crd.json v1 --lines issuers --profile cluster"))

    def fractions_on_lines(self) -> None:
        """500,000 fractions in two objects, since one document has room for half of them: judged, and written as they came."""
        line = compact({"x": [0.5] * 250000}) + "\n"
        (self.runs.folder / "fractions").write_text(line * 2, encoding="utf-8")
        self.row(Row("validate --lines of 500,000 fractions", 0.5, 65536, "validate numbers v1 --lines fractions --profile cluster"))
        if said := self.runs.text("output"):
            stop(f"validate --lines of fractions: {said[:60]}")
        self.row(Row("prune --lines of 500,000 fractions", 0.5, 65536, "prune preserving v1 --lines fractions --profile cluster"))
        if self.runs.text("output") != line * 2:
            stop("prune --lines of fractions: other lines than came")

    def past(self, it: Past) -> None:
        first = self.runs.lines(it.name, it.words(999999)).partition(b"\n")[0]
        if first.decode() != compact(it.value(1000000)):
            stop(f"{it.name}: another sample than wanted")
        self.ratio(f"{it.name}, against past the first (about 1)", self.runs.best(it.words(999999)), self.runs.best(it.words(0)))

    def beside_reading(self) -> None:
        """10,000 samples, against `cat` of their lines, and against reading all of them and printing them again, in one list."""
        some = [WRAPPER, *SHAPES["optional"].split()]
        many = [*some, "--count", "10000"]
        lines = self.runs.lines("10,000 samples", many)
        (self.runs.folder / "lines").write_bytes(lines)
        (self.runs.folder / "list-of-lines").write_bytes(b'{"x":[' + b",".join(lines.splitlines()) + b"]}")
        listed = self.runs.best(many)
        printed = self.runs.best([WRAPPER, "prune", "preserving", "v1", "list-of-lines"])
        show(f"{len(lines.splitlines())} samples, {len(lines)} bytes")
        self.ratio("listed, against cat of the lines", listed, self.runs.best(["cat", "lines"]))
        self.ratio("listed, against reading and printing them again (at most 2)", listed, printed, 2)
        show(f"peak memory of 10,000 samples, and of 64: {self.runs.peak(many)} KiB, {self.runs.peak([*some, '--count', '64'])} KiB")

    def widths_of_words(self) -> None:
        """The same samples with words of 64 bits and with words of 128."""
        at_63, at_64 = (self.runs.best([WRAPPER, *f"sample optional v1 --pools two --limit {limit} --count 10000".split()]) for limit in (63, 64))
        self.ratio("limit 64, against limit 63 (at most 1.5)", at_64, at_63, 1.5)
        self.ratio("limit 63, against limit 64 (at most 1.5)", at_63, at_64, 1.5)

    def named_fields(self) -> None:
        """Plans of 511 places with junctors at each object, against one without."""
        none, two, four = (self.runs.best([WRAPPER, *f"sample named-{named} v1 --limit 63 --count 1".split()]) for named in (0, 2, 4))
        self.ratio("a plan with two named fields at each object, against none (at most 2)", two, none, 2)
        self.ratio("a plan with four named fields at each object, against none (at most 5)", four, none, 5)

    def same_lines(self, shape: str, crdx: list[str], plain: list[str], end: str) -> None:
        """Asks that both write the same bytes, and the program this line on standard error."""
        lines = self.runs.lines(shape, crdx)
        if self.runs.text("errors") != f"crdx: {end}\n":
            self.runs.fail(shape)
        if self.runs.lines(shape, plain) != lines:
            stop(f"{shape}: other lines than tools/plain.rs writes")

    def against_plain(self, shape: str, command: str) -> None:
        """10,000 samples against the plain program's lines of this shape: the same bytes, and what both cost."""
        crdx, plain = [PROGRAM, *command.split(), "--count", "10000"], ["./plain", shape, "10000"]
        self.same_lines(shape, crdx, plain, "more")
        self.ratio(f"{shape}, against a plain program (at most 3)", self.runs.best(crdx), self.runs.best(plain), 3)
        peak = self.runs.peak(crdx)
        show(f"{shape}, peak memory (below 4096 KiB): {peak} KiB")
        self.limit(f"{shape}, peak memory", peak < 4096)
        if has("valgrind", f"instructions of {shape}"):
            self.compare(f"{shape}, instructions for each sample, against a plain program (at most 10)", "instructions", 10000,
                         self.runs.instructions(crdx), self.runs.instructions(plain), 10)

    def all_against_plain(self) -> None:
        """1,000,000 samples, as `--all` lists them, against the plain program's lines: the same bytes, the times, and how much more memory
        it takes than for the first 10,000."""
        crdx, plain = [PROGRAM, *"sample six v1 --pools nine --limit 7".split()], ["./plain", "million", "1000000"]
        self.same_lines("million", [*crdx, "--all"], plain, "end")
        self.ratio("million, all of them, against a plain program (at most 3)", self.runs.best([*crdx, "--all"]), self.runs.best(plain), 3)
        peak, first = self.runs.peak([*crdx, "--all"]), self.runs.peak([*crdx, "--count", "10000"])
        show(f"million, peak memory (at most 512 KiB more than for 10,000): {peak} KiB, {first} KiB")
        self.limit("million, peak memory", peak <= first + 512)


# ---- all of it

def prepare(runs: Runs) -> None:
    """Writes the documents."""
    for name, document in cost_documents.DOCUMENTS.items():
        (runs.folder / name).write_text(compact(document()), encoding="utf-8")
    (runs.folder / "issuer").symlink_to(ROOT / "examples" / "issuer")
    for schema in ("16000-places", "2021-places"):
        (runs.folder / f"pools-of-{schema}").write_bytes(runs.lines(f"pools of {schema}", [WRAPPER, "pools", schema, "v1", "--large"]))


def measure(runs: Runs) -> Figures:
    figures = Figures(runs)
    for it in UNLIMITED:
        figures.unlimited(it)
    for row in LIMITED:
        figures.row(row)
    figures.objects_on_lines()
    figures.fractions_on_lines()
    figures.beside_reading()
    for past in PAST:
        figures.past(past)
    figures.widths_of_words()
    figures.named_fields()
    if has("rustc", "what samples cost against a plain program"):
        if runs.run(["rustc", "--edition", "2021", "-O", "-o", "plain", str(ROOT / "tools" / "plain.rs")]) != 0:
            stop("tools/plain.rs does not compile")
        for shape, command in SHAPES.items():
            figures.against_plain(shape, command)
        figures.all_against_plain()
    return figures


def main() -> None:
    with tempfile.TemporaryDirectory() as folder:
        runs = Runs(Path(folder))
        prepare(runs)
        figures = measure(runs)
    if figures.above:
        stop(f"figures above their limits: {len(figures.above)}")


if __name__ == "__main__":
    main()
