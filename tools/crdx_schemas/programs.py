"""The streams of a program, and how it ends."""
from __future__ import annotations

import os
import signal
from typing import Callable, Iterable

from .documents import Refusal


def write(text: str) -> None:
    """Writes to standard output. A reader that has gone away is not reported."""
    data = memoryview(text.encode("utf-8"))
    try:
        while data:
            data = data[os.write(1, data):]
    except BrokenPipeError:
        raise Refusal(None, 4) from None
    except OSError:
        raise Refusal("write failed", 4) from None


def say(name: str, lines: Iterable[str]) -> None:
    """Writes lines with the program's name to standard error. A failure of it is passed over."""
    data = memoryview("".join(f"{name}: {line}\n" for line in lines).encode("utf-8"))
    try:
        while data:
            data = data[os.write(2, data):]
    except OSError:
        pass


def status_of(name: str, run: Callable[[], int | None]) -> int:
    """Runs a program of this name and answers its status: the one that `run` answers, or that of a refusal."""
    signal.signal(signal.SIGINT, signal.SIG_DFL)
    try:
        return run() or 0
    except Refusal as refusal:
        say(name, [refusal.line] if refusal.line else [])
        return refusal.status
    except MemoryError:
        say(name, ["out of memory"])
        return 5
