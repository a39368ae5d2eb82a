"""Runs of the program over a job, and what came of each.

    attempt = run_alone(job, program, seconds=60.0)     a job of any kind, in the present folder: a deck that it punches goes to the file PUNCH there

A run ends by itself, or is ended: at a time, or by KeyboardInterrupt; what it has printed until then stands."""
from __future__ import annotations

import pathlib
import re
import time
from collections.abc import Callable, Sequence
from dataclasses import dataclass, field
from typing import TYPE_CHECKING

from mps360.life import awaited, is_on_path
from mps360.output import CANT_WRITE
from mps360.processes import Process, Processes

if TYPE_CHECKING:
    from mps360.at_hand import Tool
    from mps360.bases import Basis
    from mps360.solvers import Solver

NO_END, NO_ANSWER, WRONG_USE = 124, 70, 64
# what a program couldn't write that ended with this status
NOT_WRITTEN = {25: "the listing", 26: "the punched deck"}
VERDICT = re.compile(r"PRIMAL (OPTIMAL|INFEASIBLE|UNBOUNDED) STEPS (\d+)(?: OBJECTIVE (\S+))?")
ITSELF = "the job's own statements"


class NoAnswer(Exception):
    "a run ended as no run of a job ends; status is its exit status, or 70"

    def __init__(self, cause: str, status: int = NO_ANSWER, lines: Sequence[str] = ()) -> None:
        "lines are what it has printed"
        super().__init__(cause)
        self.status, self.lines = status, lines

    @classmethod
    def of(cls, status: int, lines: Sequence[str] = ()) -> NoAnswer:
        "of an exit status, which is kept where it means something"
        if status in NOT_WRITTEN:
            return cls(f"the program couldn't write {NOT_WRITTEN[status]} (it ended with {status})", CANT_WRITE, lines)
        return cls(f"the program gave no answer (it ended with {status})", status if WRONG_USE <= status < 128 else NO_ANSWER, lines)


@dataclass(frozen=True)
class Observer:
    """who is told: say why a route came to nothing; going how it goes on; heard a line that a program says on standard error; tick how long it has gone
    on, and a call that says what is waited for"""
    say: Callable[[str], None] = lambda sentence: None
    going: Callable[[str], None] = lambda sentence: None
    heard: Callable[[str], None] | None = None
    tick: Callable[[float, Callable[[], str]], None] = lambda seconds, waits: None


@dataclass
class Attempt:
    "a run of a job, and what came of it"
    words: str
    job: str
    basis: Basis | None = None
    solver: Solver | None = None
    written: str = ""                           # the basis as the solver wrote it
    begun: float = field(default_factory=time.monotonic)
    process: Process | None = None
    listing: bytes = b""
    status: int = NO_END
    seconds: float = 0.0
    why: str | None = None                      # why its listing isn't whole
    by_checker: bool = False
    checker: Tool | None = None                 # that attested it
    interrupted: bool = False

    @property
    def verdict(self) -> re.Match[str] | None:
        "the first verdict of PRIMAL in its listing: the word, the steps and the objective"
        return next((found for line in self.lines() if (found := VERDICT.match(line))), None)

    def lines(self) -> list[str]:
        "the lines of its listing that are whole"
        return self.listing.decode("latin-1").split("\n")[:-1]

    def read(self, limit: float | None) -> None:
        "takes what the run has printed; limit is how many seconds it had, where it hadn't ended by itself"
        self.take()
        if self.process is None or self.process.was_ended or self.status == NO_END:
            self.why = f"no end in {shown(limit)} seconds" if limit is not None else "it was ended"
            return
        self.why = stop_words(self.lines(), self.status)
        if self.why is None and (self.status not in (0, 1, 2) or not self.verdict):
            raise NoAnswer.of(self.status, self.lines())

    def take(self) -> None:
        "takes the whole lines that the run has printed, how it ended, and how long it took"
        process = self.process
        assert process is not None
        printed = process.printed()
        was_ended = process.was_ended or process.status is None
        self.listing = printed[:printed.rfind(b"\n") + 1] if was_ended else printed
        self.status = NO_END if was_ended or process.status is None else process.status
        self.seconds = process.seconds


def shown(seconds: float | None) -> str:
    "seconds as text, to a hundredth"
    return f"{round(seconds or 0.0, 2):g}"


def stop_words(lines: Sequence[str], status: int) -> str | None:
    "why a run stopped, where it stopped as a run of a lawful job may"
    stop = next((line for line in lines if line.startswith("STOP ")), "")
    known = {"STOP 10 VERB FAULT 15 ": "the basis is singular", "STOP 20 ": "a number doesn't fit", "STOP 16 ": "the limit of steps was met",
             "STOP 28 ": "memory ran out"}
    for begin, words in known.items():
        if stop.startswith(begin):
            return words
    return f"it stopped: {stop[:60]}" if stop.startswith(f"STOP {status} ") else None


def waits_for(attempt: Attempt) -> str:
    "what a run of the program does, as far as its listing tells; of a route its words, with what it waits for where it isn't on its path"
    assert attempt.process is not None
    attempt.listing = attempt.process.printed()
    lines = attempt.lines()
    told = awaited(attempt.job, lines)
    if attempt.words == ITSELF:
        return told
    return attempt.words if is_on_path(attempt.job, lines) else f"{attempt.words} ({told.partition(';')[0]})"


def run_alone(job: bytes, program: Tool, *, seconds: float | None = None, begun: float | None = None, observer: Observer | None = None) -> Attempt:
    """runs a job that others wrote, in the present folder, for so many seconds at most since `begun` of time.monotonic, or since now. NoAnswer where
    the program gives none; OSError where it can't be run."""
    told, attempt = observer or Observer(), Attempt(ITSELF, job.decode("latin-1"))
    with Processes() as processes:
        process = attempt.process = processes.start(program.command, job, tell=told.heard, place=pathlib.Path.cwd())
        until = None if seconds is None else (attempt.begun if begun is None else begun) + seconds
        try:
            processes.wait([process], until, lambda: told.tick(time.monotonic() - attempt.begun, lambda: waits_for(attempt)))
        except KeyboardInterrupt:
            attempt.interrupted = True
        process.end()
        attempt.take()
        if process.was_ended:
            attempt.why = None if attempt.interrupted else f"no end in {shown(seconds)} seconds"
        elif attempt.status >= WRONG_USE or attempt.status < 0 or not attempt.listing:
            raise NoAnswer.of(attempt.status)
    return attempt
