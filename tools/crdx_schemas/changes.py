"""How a relaxed schema differs from the one that was written, in words."""
from __future__ import annotations

from typing import Iterator

from .documents import TreePath, path_order, pointer, shown
from .keywords import BOUNDS, JUNCTORS, with_branches
from .relaxing import Relaxed, without_idle_properties

NO_IDLE = 'without "properties" that say nothing'


def lost_from(old, new):
    """The indexes of a list that are not in the shorter one; None where it is not a shorter one of the same values."""
    lost, kept = [], iter(new)  # by their texts, since true is 1 in Python
    wanted = next(kept, None)
    for index, value in enumerate(old):
        if wanted is not None and shown(value) == shown(wanted):
            wanted = next(kept, None)
        else:
            lost.append(index)
    return lost if len(old) == len(lost) + len(new) else None


def change(old, new):
    """What became of a keyword that has another value now."""
    if isinstance(old, list) and isinstance(new, list):
        lost = lost_from(old, new)
        if lost is not None:
            return "without " + ", ".join(shown(old[index]) for index in lost)
    return f"{shown(old)} becomes {shown(new)}"


def change_of_junctor(word, old, new):
    """Which branches of `allOf` are gone, and whether others were left without `properties` that say nothing."""
    bare = with_branches({word: old}, without_idle_properties)[word]
    lost = lost_from(bare, new) if word == "allOf" else []
    words = ["without branch " + ", ".join(map(str, lost))] if lost else []
    if word == "not" or any(index not in lost and bare[index] != branch for index, branch in enumerate(old)):
        words.append(NO_IDLE)
    return ", ".join(words)


def changes(old, new, path=()):
    """The path, the keyword and the words for each keyword that two schemas do not share, at this place and at all below."""
    for word in [*old, *(word for word in new if word not in old)]:
        if word not in new:
            yield path, word, "dropped"
        elif word not in old:
            yield path, word, f"set to {shown(new[word])}"
        elif word == "properties":
            lost = [shown(name) for name in old[word] if name not in new[word]]
            if lost:
                yield path, word, "without " + ", ".join(lost)
            for name, below in new[word].items():
                yield from changes(old[word][name], below, (*path, word, name))
        elif word in ("items", "additionalProperties") and isinstance(old[word], dict):
            yield from changes(old[word], new[word], (*path, word))
        elif old[word] != new[word]:
            words = change_of_junctor(word, old[word], new[word]) if word in JUNCTORS else change(old[word], new[word])
            yield path, word, words


def unjudged(schema: Relaxed) -> Iterator[tuple[TreePath, str]]:
    """The path and the keyword of all that the relaxed schema lacks of what the other one asks. What only looks different is left out:
    what was set, a bound that is now an integer, and branches without `properties` that say nothing."""
    for path, word, words in changes(schema.before, schema.after):
        is_exact = words.startswith("set to ") or words == NO_IDLE or (word in BOUNDS and words != "dropped")
        if not is_exact:
            yield path, word


def said(schema):
    """The lines on the changes of a version's schema, in path order of the places and then by keyword."""
    lines = sorted(changes(schema.before, schema.after), key=lambda line: (path_order(line[0]), line[1].encode("utf-8")))
    return [f"{shown(pointer(path))} {shown(word)}: {words}" for path, word, words in lines]


def said_once(lines_of, named):
    """Each line once, in the order of the versions; where they are named, behind the names of those that have it."""
    versions = {}
    for version, lines in lines_of.items():
        for line in lines:
            versions.setdefault(line, []).append(shown(version))
    if not named:
        return list(versions)
    return [f"version{'s' if len(names) > 1 else ''} {', '.join(names)}: {line}" for line, names in versions.items()]
