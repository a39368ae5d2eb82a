"""Lines of life: that a command still runs, and what it waits for, on standard error; one line that is written over on a terminal.

The program prints a report once that is made, and nothing on PRIMAL's path: so a line says which route is in hand, for how many seconds, and of how
many where they are bounded; it knows no steps."""
from __future__ import annotations

import os
import re
import sys
import threading
import time
from collections.abc import Callable, Sequence
from typing import Any, TextIO, cast

from mps360.text import as_lines, as_text

FIRST, MOST, SILENT = 5.0, 60.0, 8.0   # seconds: before the first line, between two at most, after a line of the program itself
WIDTH = 79          # letters of a line where the terminal doesn't tell how wide it is
PATHS = ("PRIMAL", "DUAL")
PRINTING = frozenset("TITLE CONVERT REVISE SETUP PRIMAL DUAL SOLUTION RANGE PARAOBJ PARARHS BCDOUT PUNCH INSERT".split())


def awaited(job: str, lines: Sequence[str]) -> str:
    "what a run of a job does now, as far as the lines of its listing tell"
    if not lines:
        return "waits for the program's first line"
    return f"waits for {next_verb(job, lines) or 'the end'}; the listing has {len(lines)} lines so far"


def is_on_path(job: str, lines: Sequence[str]) -> bool:
    "whether a run of a job goes along a path now, as far as the lines of its listing tell"
    return bool(lines) and next_verb(job, lines) in PATHS


def within(seconds: float, limit: float | None) -> str:
    "seconds that have gone by, and of how many"
    return f"{seconds:.0f} s" if limit is None else f"{seconds:.0f} s of {round(limit, 1):g}"


def width_of(stream: TextIO) -> int:
    "the letters that a line of this terminal holds, but one"
    try:
        columns = os.get_terminal_size(stream.fileno()).columns
    except (OSError, ValueError, AttributeError):
        return WIDTH
    return columns - 1 if columns > 1 else WIDTH


def next_verb(job: str, lines: Sequence[str]) -> str | None:
    "the statement after the one that printed last, by the order of the cards"
    cards = [card[:72] for card in job.split("\n")]
    cards = cards[:next((k for k, card in enumerate(cards) if card.split()[-1:] == ["PEND"]), 0)]
    verbs = [found[1] for card in cards if (found := re.match(r"(?:[A-Z0-9]+)? +([A-Z]+)", card)) and found[1] in PRINTING]
    printed = [word for line in lines if (word := line.split(" ")[0]) in PRINTING and not re.match(r"(PARAOBJ|PARARHS) (ENDS|\w+ PAST) ", line)]
    return verbs[len(printed)] if verbs[:len(printed)] == printed and len(printed) < len(verbs) else None


class Life:
    """says that a command lives: after `first` seconds, and after twice as long each time, up to `most`; never where first is 0. On a terminal it is one
    line, written anew each second. seconds bounds the whole, where it is bounded. Threads may call at once"""

    def __init__(self, name: str, first: float = FIRST, stream: TextIO | None = None, seconds: float | None = None, most: float = MOST) -> None:
        self.name, self.first, self.stream, self.seconds, self.most = name, first, stream or sys.stderr, seconds, most
        self.lock = threading.RLock()
        self.is_terminal = self.stream.isatty()
        self.pause, self.due, self.shown, self.heard_at = first, min(first, 1.0) if self.is_terminal else first, 0, -MOST

    def tick(self, seconds: float, waits: Callable[[], str]) -> None:
        "so many seconds have gone by"
        if self.first <= 0 or seconds < self.due or time.monotonic() - self.heard_at < SILENT:
            return
        words = as_text(f"{self.name}: {within(seconds, self.seconds)}, {waits()}")
        if self.is_terminal:
            self.write_over(words[:width_of(self.stream)])
            self.due = seconds + 1.0
        else:
            print(words, file=self.stream, flush=True)
            self.pause = min(2 * self.pause, self.most)
            self.due = seconds + self.pause

    def write_over(self, words: str) -> None:
        "the line of a terminal, in place of the one before"
        with self.lock:
            self.clear()
            self.stream.write(words)
            self.stream.flush()
            self.shown = len(words)

    def say(self, words: str) -> None:
        "a line of the command itself"
        self.clear()
        print(f"{self.name}: {as_lines(str(words))}", file=self.stream, flush=True)

    def heard(self, line: str) -> None:
        "a line that a program says on standard error"
        self.clear()
        self.heard_at = time.monotonic()
        print(as_text(line), file=self.stream, flush=True)

    def clear(self) -> None:
        "the line of life goes from the terminal"
        with self.lock:
            if self.shown:
                self.stream.write("\r" + " " * self.shown + "\r")
                self.stream.flush()
                self.shown = 0


class Above:
    "a stream to a terminal that has a line of life: what is written comes in place of that, which is written anew below it"

    def __init__(self, stream: TextIO, life: Life) -> None:
        self.stream, self.life = stream, life

    def write(self, text: str) -> int:
        "writes a text, once the line of life is away"
        with self.life.lock:
            self.life.clear()
            return self.stream.write(text)

    def __getattr__(self, name: str) -> Any:
        return getattr(self.stream, name)


def keep_above(life: Life) -> None:
    "standard output and standard error come above the line of life from now on, where that is on a terminal"
    if life.is_terminal:
        sys.stdout, sys.stderr = cast(TextIO, Above(sys.stdout, life)), cast(TextIO, Above(sys.stderr, life))
