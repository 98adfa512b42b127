#!/usr/bin/env python3
"""Compares the crate `patterns` with Go's regexp: which texts are patterns, and which texts they match.

Usage: tools/test_patterns.py [--pairs COUNT] [--seed NUMBER]

The patterns are those of the examples, a list in which each construct of Go's syntax stands, and others put together at random; each is
tried on texts of a list and on some that are made of its own characters. `main.rt.txt` and `main.go` in `tools/test_patterns` answer for
both sides; the first is compiled with no proof, in a folder of its own. Each difference is printed with its class, and the status is 0 only
where each class is one of `CLASSES`, which docs/DECISIONS.md explains. Where there is no `go`, a line says so.
"""
from __future__ import annotations

import argparse
import collections
import json
import pathlib
import random
import re
import shutil
import subprocess
import sys
import tempfile
from typing import Callable, Iterator, List, Tuple

sys.dont_write_bytecode = True

from compared_lines import ROOT, of_crates, of_go, word_of

PROGRAMS = ROOT / "tools" / "test_patterns"
CRATES = """text_tests:
go_text:
patterns: go_text regex regex_syntax text_tests thiserror
pattern_lines: hex patterns
"""
SHOWN = 3

# a pattern and the texts that are tried with it
Case = Tuple[str, List[str]]

TEXTS = (
    "", "a", "b", "A", "k", "K", "\u212a", "s", "S", "\u017f", "\u00df", "\u1e9e", "abc", "ABC", "a b", "a\nb", "a.b", "axb", "foo", "foo bar",
    "\u00e9foo", "0", "9", "\u0663", "12", "1\u0663", "_", "-", "ab", "aa", "aab", "z", "\u00e9", "\u03a9", "\u03b1", "\u4e2d", "\U0001f600",
    "\n", "\t", " ", "\v", "\f", "\r", "\u00a0", "\u2003", "\u200b", "[", "[a]", "]", "a]", "{", "}", "a{", "a{,3}", "{2}", "&", "~", ".", "/", "\\",
    "^", "'", '"', "\x00", "\x07", "\u0301", "\u2167", "\u00b2", "\u00aa", "\u0345", "\u0130", "\u0131", "\u00b5", "\u03bc", "\u01c6", "\ue000",
    "\u0378", "<a>", "=", "a-b", "Q", "E", "ab\n", "a" * 40, "(ab)", "0-9", "x", "xx", "xxx", "&&", "--", "#", "|", "$", "*", "+", "?",
)

LISTED = r"""
\d|^\d+$|\w|^\w+$|\s|^\s$|\S|\D|\W|\bfoo\b|\Bfoo|\pL|^\pN+$|\p{Greek}|\P{Greek}|\p{^Greek}|\p{Han}+|\PC|\pC|\p{Cc}|\p{Co}|^[\d]+$|^[\w-]+$
^[^\d]$|^[^\w]$|^[\s]$|[[:space:]]|[[:word:]]|[[:alpha:]]|^[[:^digit:]]$|[[:print:]]|[[:graph:]]|[[:cntrl:]]|[[:blank:]]|[[:punct:]]|[[:xdigit:]]
\Qa.b\E|\Qa.b|\Q\E|a\Q\E*|a+\Q\E?|\Qab\E+|\Q[a]\E|a\z|\Aa|a\Z|(?i)abc|(?i)k|(?i)s|(?i)\x{212A}|(?i)[^x]|(?i)\W|(?i)[^\W]|(?i)\pL|(?i)\PL
(?s)a.b|a.b|(?m)^a$|^a$|a$|(?U)a+|(?x)a b|(?i:a)b|(?-i:a)b|(?P<n>a)|(?P<1>a)|(?P<n>a)(?P<n>b)|(?<n>a)|(?u)a|(?-u)a|(?P<a-b>a)|(?P=n)
a**|a++|a{2}{3}|a{,3}|a{|a{b|{|}|a}|a{1001}|a{1000}|a{1,1001}|a{01}|a{0}|a{00}|a{2,1}|a{0,0}|a{1,}|a{ 1}|a{1, 2}|a{99999999999}|(a{100}){10}
[a[b]|[a[b]]|[[]|[^[]|[]a]|[^]a]|[]-a]|[a&&b]|[a-z&&[^b]]|[a--b]|[a~~b]|[!--]|[+--]|[a-]|[-a]|[a-b-c]|[0-9a-zA-Z-.]|[\-a]|[a\-z]|[\d-z]|[a-\d]
[[:foo:]]|[[:alpha:]|[[:alpha]|[[.a.]]|[[=a=]]|[[:]|[[::]]|[A-[:alpha:]]|[z-a]|[\b]|[\A]|[\z]|[\pL-z]|[\x41-\x43]|[\101-\103]|[a-\x7a]|[\a-\r]
\<a|a\>|\_|\/|\'|\"|\-|\ |\%|\@|\#|\&|\~|\:|\;|\,|\=|\!|\`|\q|\e|\h|\R|\X|\K|\C|\G|\x41|\x{41}|\x{0041}|\x4|\x{}|\x{110000}|\u0041|\u{41}
\101|\0|\1|\07|\8|\08|\12|\18|\377|\777|\a\f\t\n\r\v|\cA|\b{start}a|\b{1}|\E|a\Eb|(?=a)|(?!a)|(?<=a)|(?>a)|(?#c)a|a*+|a??|a*?|^*|$*|\b*
(?:)*|()|()*|*a|+|(|)|[|]|\\|a\n|^.$|^..$|\p{L}|\p{Lu}|\p{lu}|\p{Any}|\P{Any}|\p{^Any}|\pLu|\p|\p{^Lu}|\P{^Lu}|[\pL\d]|[^\pL]|[\p{L}-z]|(?i)[a-z]
x{0}|[a-z]{2,3}$|^[a-z]{0,63}$|(?i|(?z)a|(?i-)a|(?-)a|(?i-s)a|(?i-s:a)b|(?k)|(?P<n|(?P<>a)|^[^\s]+$|^[^/]+/[^/]+$|^https?://|^$|^([a-z]\b)+$
\p{Latin}|\p{Cyrillic}|\p{Thai}|\p{Yi}|\p{Old_Italic}|\p{Common}|\p{Inherited}|\p{Nko}|\p{Phags_Pa}|\p{SignWriting}|\p{Grek}|\p{Latn}|\p{Zyyy}
"""

TOKENS = r"""
a b k s 0 1 . * + ? {2} {1,3} {,2} {3,} { } ( ) (?: (?i) (?s) (?m) (?i: (?-i: (?P<x> (?<y> | ^ $ [ [^ ] - a-z A-Z 0-9 \d \w \s \D \W \S \b \B \A \z
\pL \PL \p{Lu} \pN \p{Greek} \P{Han} \PC \. \- \[ \] \\ \/ \x41 \x{e9} \n \t \_ \< \& && -- ~~ & ~ # [:alpha:] [[:digit:]] [^[:space:]] [[:foo:]]
é ß \Q \E \Qa.\E *? +? ?? [a-c] [^a-c] (a|b) (ab) [\w-] [.-] [-.] \101 \0 \07 ' " < > / : = ! % @ , _ {1001} (a{9}){2}
""".split()


def listed() -> Iterator[str]:
    for line in LISTED.split("\n"):
        yield from filter(None, line.split("|"))
    yield from ("(|a)", "a||b", "|", "a|b", "^(a|b)*$", "(a{500}){3}", "(?ii)a", "(?i-i)a", "(?)a", "a(?i)*", "a*\\Q\\E*", "\\x{D800}", "\\p{Cs}", "(a{40}){40}")


def of_examples() -> Iterator[str]:
    for path in sorted((ROOT / "examples").glob("*/crd.json")):
        found: list[str] = re.findall(r'"pattern": *("(?:[^"\\]|\\.)*")', path.read_text(encoding="utf-8"))
        for text in found:
            yield str(json.loads(text))


def at_random(draw: random.Random) -> Iterator[str]:
    while True:
        yield "".join(draw.choice(TOKENS) for _ in range(draw.randint(1, 8)))


def texts_for(pattern: str, draw: random.Random) -> list[str]:
    """The texts of the list, and some that are made of the characters of the pattern."""
    letters = [c for c in pattern if c not in "\\^$()[]{}*+?|"] or ["a"]
    return [*TEXTS, *("".join(draw.choice(letters) for _ in range(draw.randint(1, 6))) for _ in range(8))]


def cases(pairs: int, draw: random.Random) -> list[Case]:
    """Cases with at least so many pairs."""
    made = [(pattern, texts_for(pattern, draw)) for pattern in (*of_examples(), *listed())]
    count = sum(len(texts) for _, texts in made)
    for pattern in at_random(draw):
        if count >= pairs:
            break
        texts = texts_for(pattern, draw)
        made.append((pattern, texts))
        count += len(texts)
    return made


# ---- the programs


def line_of(case: Case) -> str:
    return " ".join(map(word_of, (case[0], *case[1]))) + "\n"


def go_version() -> tuple[int, ...]:
    said = subprocess.run(["go", "env", "GOVERSION"], capture_output=True, text=True, check=True).stdout
    return tuple(map(int, re.findall(r"\d+", said)))


# ---- the classes of differences


def repeats_flags(pattern: str) -> bool:
    """A group whose flags say nothing, or one of them twice."""
    return any(len(set(flags)) < len(flags) or group == "(?)" for group, flags in re.findall(r"(\(\?([imsU-]*)[:)])", pattern))


def has(expression: str) -> Callable[[str], bool]:
    compiled = re.compile(expression)
    return lambda pattern: compiled.search(pattern) is not None


# name, whether Go reads the pattern, whether the crate does, and a test of the pattern
CLASSES: list[tuple[str, bool, bool, Callable[[str], bool]]] = [
    ("a flag twice or none", True, False, repeats_flags),
    ("a repetition after flags or an empty quotation", True, False, has(r"(\(\?[imsU-]+\)|\\Q\\E)+[*+?{]")),
    ("surrogates", True, False, has(r"\\x\{0*[dD][89a-fA-F]|\\[pP]\{\^?Cs\}")),
    ("counts above 1000 by nesting", False, True, has(r"\{\d+(,\d*)?\}\??\).*\{\d+(,\d*)?\}")),
    ("a script in another spelling", False, True, has(r"\\[pP]\{\^?[A-Z]\w+\}")),
]


def class_of(pattern: str, go: str, rt: str, version: tuple[int, ...]) -> str | None:
    reads = (go != "none", rt != "none")
    if reads == (False, True) and version < (1, 22) and "(?<" in pattern:
        return "groups as in (?<name>..), which Go reads since 1.22"
    for name, go_reads, rt_reads, test in CLASSES:
        if reads == (go_reads, rt_reads) and test(pattern):
            return name
    return None


def described(case: Case, go: str, rt: str) -> str:
    if "none" in (go, rt) or rt == "big":
        return f"{case[0]!r}: Go {go[:8]}, crate {rt[:8]}"
    differing = [text for text, yes, ours in zip(case[1], go, rt) if yes != ours]
    return f"{case[0]!r}: other answers at {differing[:4]!r}"


def compare(made: list[Case], go: list[str], rt: list[str]) -> bool:
    version = go_version()
    classes: dict[str | None, list[str]] = collections.defaultdict(list)
    for case, by_go, by_rt in zip(made, go, rt):
        if by_go != by_rt:
            classes[class_of(case[0], by_go, by_rt, version)].append(described(case, by_go, by_rt))
    read = sum(by_go != "none" and by_rt != "none" for by_go, by_rt in zip(go, rt))
    print(f"test_patterns: {sum(len(case[1]) for case in made)} pairs, {len(made)} patterns, {read} that both read, Go {'.'.join(map(str, version))}")
    for name, lines in classes.items():
        print(f"  {len(lines)} differ, {name or 'and no class has them'}:")
        for line in lines if name is None else lines[:SHOWN]:
            print(f"    {line}")
    return None not in classes


def main() -> int:
    words = argparse.ArgumentParser()
    words.add_argument("--pairs", type=int, default=20_000)
    words.add_argument("--seed", type=int, default=1)
    chosen = words.parse_args()
    if shutil.which("go") is None:
        print("test_patterns: no go here, so the patterns are not compared with Go's")
        return 0
    made = cases(int(chosen.pairs), random.Random(int(chosen.seed)))
    lines = "".join(map(line_of, made))
    with tempfile.TemporaryDirectory() as name:
        folder = pathlib.Path(name)
        go = of_go(folder, PROGRAMS / "main.go", lines)
        rt = of_crates(folder, ("text_tests", "go_text", "patterns"), PROGRAMS / "main.rt.txt", CRATES, lines)
    return 0 if compare(made, go, rt) else 1


if __name__ == "__main__":
    sys.exit(main())
