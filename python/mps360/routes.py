"""The ways to a proof of what a linear program's answer is, tried one after the other until one proves a verdict.

    outcome = Routes(job, program, Plan(..), find_checker).run()

1. a basis that is handed in: INSERT and PRIMAL
2. PRIMAL from the opening basis, for a few seconds; where there are two processors it goes on beside all that follows
3. a basis of each solver, as it is there: INSERT and PRIMAL
4. esolver's exact answer, attested by the checker of listings, or by the one without a limit on the length of numbers
5. PRIMAL from the opening basis, to its end

No solver is believed: a verdict is that of the program, or of the checker. What comes to no verdict ends as PRIMAL did."""
from __future__ import annotations

import functools
import os
import time
from collections.abc import Callable
from dataclasses import dataclass, field
from typing import TYPE_CHECKING

from mps360.commands import who_proves
from mps360.errors import Refused
from mps360.life import within
from mps360.processes import Process, Processes
from mps360.runs import NO_END, Attempt, NoAnswer, Observer, shown, waits_for
from mps360.solver_names import EXACT_SOLVER, NAMES, NoBasis, not_installed

# what only a basis or another solver needs is loaded where one is asked: most runs end before
if TYPE_CHECKING:
    from mps360.at_hand import Checkers, Tool
    from mps360.bases import Basis
    from mps360.checkers import Said
    from mps360.jobs.write import Job
    from mps360.plain import Plain
    from mps360.solvers import Request, Solver

OPENING_SECONDS, SOLVER_SECONDS, RUN_SECONDS = 5.0, 20.0, 20.0
INTERRUPTED = 130
OPENING = "PRIMAL from the opening basis"
ROUTES = ("primal", "basis", "exact")


def processors_here() -> int:
    "how many processors this process may use"
    return len(os.sched_getaffinity(0)) if hasattr(os, "sched_getaffinity") else os.cpu_count() or 1


@dataclass(frozen=True)
class Plan:
    "which routes are tried, for how many seconds each; None is without an end"
    solvers: tuple[str, ...] | None = None      # who may be asked, in this order; None: those that are installed
    only: str | None = None                     # one of ROUTES, and no other
    seconds: float | None = None                # all of it, since `begun` of time.monotonic, or since the routes begin
    begun: float | None = None
    opening_first: bool = True                  # whether PRIMAL from the opening basis begins before a solver is asked
    exact: bool = True                          # whether an exact answer goes to the checker
    opening_seconds: float | None = OPENING_SECONDS
    solver_seconds: float | None = SOLVER_SECONDS
    run_seconds: float | None = RUN_SECONDS
    last_seconds: float | None = None           # of the last run of PRIMAL from the opening basis
    processors: int = field(default_factory=processors_here)   # from two on PRIMAL goes on beside the others

    def takes(self, route: str) -> bool:
        "whether a route is tried"
        return self.only in (None, route)

    @property
    def is_one_solver(self) -> bool:
        "whether one solver alone is asked, and has all of the time"
        return self.only == "exact" or self.only == "basis" and self.solvers is not None and len(self.solvers) == 1


@dataclass(frozen=True)
class Tried:
    "a route, how long it took, and why it came to nothing; None where it is the one that led to the answer"
    words: str
    seconds: float
    why: str | None


@dataclass
class Outcome:
    "what the routes came to: the attempt whose listing it is, and all that were tried, in their order"
    attempt: Attempt
    routes: list[Tried]
    tool: Tool                                  # the program whose listing it is, or the checker that attests it
    version: str = ""                           # of the solver whose basis or answer it is

    @property
    def status(self) -> int:
        "the exit status"
        return INTERRUPTED if self.attempt.interrupted else self.attempt.status


class Decided(Exception):
    "an attempt has come to a verdict"

    def __init__(self, attempt: Attempt) -> None:
        super().__init__(attempt.words)
        self.attempt = attempt


class Routes:
    "the routes of one job, which mps360.jobs.write made of a model"
    processes: Processes   # while it runs

    def __init__(self, job: Job, program: Tool, plan: Plan, checkers: Checkers | None = None, observer: Observer | None = None) -> None:
        "the checkers of listings are found once a route needs them; None is none"
        self.job, self.program, self.plan, self.checkers, self.observer = job, program, plan, checkers, observer or Observer()
        self.given: tuple[Basis, str] | None = None
        self.tried: list[tuple[float, Tried]] = []   # each with the time when it began
        self.opening: Attempt | None = None     # PRIMAL from the opening basis, while it runs
        self.running: Attempt | None = None     # a run from a basis, while it runs
        self.kept: list[Attempt] = []           # attempts whose listings aren't whole; what stands where no other is
        self.first_basis = ""                   # the first basis that a solver gave, as a basis file of the plain model
        self.begun = time.monotonic()
        self.plain: Plain | None = None

    def begin_at(self, basis: Basis, words: str) -> None:
        "hands in a basis of the model, which comes first; words are what it is called, as a file's name"
        self.given = basis, words

    def run(self) -> Outcome:
        """tries the routes. NoAnswer where a program ends as none of a job ends; OSError where one can't be run; NoBasis where a route that
        was asked for has no solver. KeyboardInterrupt ends what runs, and what stands is the outcome."""
        self.begun = time.monotonic() if self.plan.begun is None else self.plan.begun
        with Processes() as processes:
            self.processes = processes
            try:
                self.prepare()
                return self.outcome(self.last_of_all())
            except Decided as decided:
                for other in (self.opening, self.running):
                    if other:
                        self.note(other, "another route came to a verdict first")
                self.note(decided.attempt, None)
                return self.outcome(decided.attempt)
            except KeyboardInterrupt:
                return self.stopped()

    def outcome(self, attempt: Attempt) -> Outcome:
        "what the routes came to; those that were tried stand in the order in which they began"
        routes = [tried for _, tried in sorted(self.tried, key=lambda pair: pair[0])]
        return Outcome(attempt, routes, attempt.checker or self.program, attempt.solver.version if attempt.solver and not attempt.interrupted else "")

    def stopped(self) -> Outcome:
        "what stands at an interruption"
        attempt = next((one for one in (self.running, self.opening, *self.kept) if one and one.process), None) or Attempt(OPENING, self.job.text)
        if attempt.process:
            attempt.process.end()
            attempt.take()
        attempt.interrupted = True
        return self.outcome(attempt)

    def prepare(self) -> None:
        "compiles a program that runs unproved and isn't compiled"
        status = self.compiled(self.program, "the program")
        if status:
            raise NoAnswer.of(status)

    def compiled(self, tool: Tool, title: str) -> int | None:
        "how the command ends that compiles a tool, 0 where there is nothing to compile; its own words are told. None where no time is left for it"
        if not tool.prepare:
            return 0
        process = self.processes.start(tool.prepare, tell=self.observer.heard, keeps=False)
        return process.status if self.wait(process, self.left(), lambda: f"waits for {title} to be compiled") else None

    # ---- time, and waiting

    def left(self) -> float | None:
        "the seconds that are left of all"
        return None if self.plan.seconds is None else max(0.0, self.plan.seconds - (time.monotonic() - self.begun))

    def seconds_for(self, wanted: float | None) -> float | None:
        "the seconds that something is to have, no more than are left of all"
        left = self.left()
        return left if wanted is None else wanted if left is None else min(wanted, left)

    def limit_of(self, wanted: float | None) -> float | None:
        "the limit by which something ends that is to have these seconds: they, or those of all"
        left = self.left()
        return wanted if left is None or wanted is not None and wanted <= left else self.plan.seconds

    def is_late(self) -> bool:
        "whether no time is left"
        return self.left() == 0

    def wait(self, process: Process, seconds: float | None, waits: Callable[[], str]) -> bool:
        "whether the process ends within these seconds; Decided where the run beside it comes to a verdict"
        until = None if seconds is None else time.monotonic() + seconds
        limit = None if seconds is None else process.seconds + seconds

        def words() -> str:
            beside = f"; {OPENING} goes on beside it" if self.opening and self.opening.process is not process else ""
            return f"{waits()}, {within(process.seconds, limit)}{beside}"

        while True:
            beside = [self.opening.process] if self.opening and self.opening.process and self.opening.process is not process else []
            ended = self.processes.wait([process, *beside], until, lambda: self.observer.tick(time.monotonic() - self.begun, words))
            if ended is None or ended is process:
                return ended is process
            self.end_opening(None)

    def end_opening(self, limit: float | None) -> None:
        "PRIMAL from the opening basis has ended, or is ended"
        opening, self.opening = self.opening, None
        assert opening is not None and opening.process is not None
        opening.process.end()
        opening.read(limit)
        self.judge(opening)

    def judge(self, attempt: Attempt) -> None:
        "Decided where the attempt's listing is whole and has a verdict; else it is noted"
        if attempt.why is None:
            raise Decided(attempt)
        self.observer.say(f"{attempt.words}: {attempt.why}")
        self.note(attempt, attempt.why)
        self.kept.append(attempt)

    def note(self, attempt: Attempt, why: str | None) -> None:
        "the attempt was tried, and came to nothing for this reason, or to the verdict"
        self.tried.append((attempt.begun, Tried(attempt.words, round(time.monotonic() - attempt.begun, 3), why)))

    # ---- the routes

    def last_of_all(self) -> Attempt:
        "goes through the routes; the attempt that stands where none of them decides"
        plan = self.plan
        if self.may_ask() and (plan.solvers or plan.only):
            self.check_asked()
        if self.given:
            self.try_basis(Attempt(f"INSERT of {self.given[1]} and PRIMAL", "", self.given[0]), plan.last_seconds)
        if plan.takes("primal") and plan.opening_first:
            self.begin_opening()
        for solver in self.those_asked if plan.takes("basis") else ():
            if not self.is_late():
                self.try_solver(solver)
        if plan.takes("exact") and plan.exact and not self.is_late():
            self.try_exact()
        if plan.takes("primal"):
            self.try_opening()
        return self.best_of()

    def check_asked(self) -> None:
        "NoBasis where a solver that is named, or that a route can't do without, isn't installed"
        there = {solver.name for solver in self.those_asked}
        wanted = [*(self.plan.solvers or ()), *((EXACT_SOLVER,) if self.plan.only == "exact" else ())]
        missing = next((name for name in wanted if name not in there), None)
        if missing:
            raise NoBasis(not_installed(missing))
        if not there:
            raise NoBasis(f"none of {', '.join(NAMES)} is installed")

    def may_ask(self) -> bool:
        "whether any solver may be asked"
        return self.plan.only != "primal" and self.plan.solvers != ()

    @functools.cached_property
    def those_asked(self) -> list[Solver]:
        "the solvers that may be asked, and are installed"
        if not self.may_ask():
            return []
        from mps360 import solvers
        return solvers.installed(NAMES if self.plan.solvers is None else self.plan.solvers)

    def start(self, attempt: Attempt) -> Attempt:
        "begins to run the attempt's job"
        attempt.process = self.processes.start(self.program.command, attempt.job.encode("latin-1"), tell=self.observer.heard)
        return attempt

    def begin_opening(self) -> None:
        "PRIMAL from the opening basis, for its first seconds; or, where nobody may be asked, for all"
        self.opening = self.start(Attempt(OPENING, self.job.text))
        seconds = self.seconds_for(self.plan.opening_seconds if self.may_ask() else None)
        if self.wait_opening(seconds) or self.is_late() or not self.those_asked:
            return
        self.observer.going(f"PRIMAL had no end in {shown(seconds)} s")
        if self.plan.processors < 2:
            self.end_opening(seconds)

    def wait_opening(self, seconds: float | None) -> bool:
        "whether PRIMAL from the opening basis has ended within these seconds, without a verdict"
        opening = self.opening
        assert opening is not None and opening.process is not None
        if not self.wait(opening.process, seconds, functools.partial(waits_for, opening)):
            return False
        self.end_opening(None)
        return True

    def try_opening(self) -> None:
        "PRIMAL from the opening basis, to its end"
        seconds, limit = self.seconds_for(self.plan.last_seconds), self.limit_of(self.plan.last_seconds)
        if self.opening is None:
            if any(one.words == OPENING and one.status != NO_END for one in self.kept):
                return
            self.opening = self.start(Attempt(OPENING, self.job.text))
        if not self.wait_opening(seconds):
            self.end_opening(limit)

    def try_solver(self, solver: Solver) -> None:
        "asks a solver for a basis, and begins there"
        attempt = self.running = Attempt(f"INSERT of {solver.title}'s basis and PRIMAL", "", solver=solver)
        self.observer.going(f"asking {solver.title} for a basis")
        try:
            attempt.basis, attempt.written = self.asked(lambda: solver.ask(self.plain_form(), self.processes), solver).basis()
        except (NoBasis, Refused, OSError) as cause:
            self.fails(attempt, f"no basis of {solver.title}: {first_line(cause)}")
            return
        self.first_basis = self.first_basis or self.plain_form().deck(attempt.basis)
        self.try_basis(attempt, None if self.plan.is_one_solver else self.plan.run_seconds)

    def fails(self, attempt: Attempt, cause: str) -> None:
        "the attempt comes to nothing, without a run that stands"
        self.running = None
        self.observer.say(cause)
        self.note(attempt, cause)

    def plain_form(self) -> Plain:
        "the plain form of the file's model, made once"
        if self.plain is None:
            from mps360.plain import Plain
            self.plain = Plain(self.job.file)
        return self.plain

    def asked(self, ask: Callable[[], Request], solver: Solver) -> Request:
        "a solver's request once the solver has ended; NoBasis where it doesn't"
        wanted = None if self.plan.is_one_solver else self.plan.solver_seconds
        seconds, limit = self.seconds_for(wanted), self.limit_of(wanted)
        request = ask()
        ended = self.wait(request.process, seconds, lambda: f"waits for a basis of {solver.title}")
        request.process.end()
        if not ended:
            raise NoBasis(f"no end in {shown(limit)} seconds")
        return request

    def try_basis(self, attempt: Attempt, seconds: float | None) -> None:
        "INSERT of the attempt's basis, and PRIMAL"
        from mps360 import bases
        assert attempt.basis is not None
        for sentence in attempt.basis.said:
            self.observer.say(sentence)
        attempt.job = bases.with_insert(self.job, attempt.basis)
        self.running = self.start(attempt)
        process, limit = attempt.process, self.limit_of(seconds)
        assert process is not None
        self.wait(process, self.seconds_for(seconds), lambda: waits_for(attempt))
        process.end()
        self.running = None
        try:
            attempt.read(limit)
        except NoAnswer as cause:
            self.fails(attempt, f"{attempt.words}: {cause}")
            return
        self.judge(attempt)

    def try_exact(self) -> None:
        "esolver's exact answer, attested by the checker"
        from mps360 import solutions
        from mps360.listings import write
        solver = next((one for one in self.those_asked if one.name == EXACT_SOLVER), None)
        if solver is None:
            return
        what = f"{solver.title}'s exact answer"
        attempt = self.running = Attempt(f"{what}, attested by the checker", self.job.text, solver=solver, by_checker=True, status=0)
        try:
            if self.checkers is None or not (self.checkers.short or self.checkers.long):
                raise NoBasis(f"no checker of listings is at hand ({who_proves('scripts/build.sh builds it')})")
            self.observer.going(f"asking {solver.title} for an exact answer")
            request = self.asked(functools.partial(solver.ask_exactly, self.plain_form(), self.processes, self.first_basis), solver)
            attempt.written = request.written()
            attempt.listing = self.listing_of(attempt.written).encode("latin-1")
            attempt.basis = request.exact_basis()
            attempt.words = f"{what}, attested by {self.attested(attempt)}"
            attempt.seconds = time.monotonic() - attempt.begun
        except (NoBasis, Refused, OSError, solutions.NoSolution, write.Refused) as cause:
            self.fails(attempt, f"no exact answer of {solver.title}: {first_line(cause)}")
            return
        self.running = None
        raise Decided(attempt)

    def listing_of(self, text: str) -> str:
        "the listing of a solution that esolver wrote of the plain model"
        from mps360 import solutions
        from mps360.long_answers import listing_of
        plain = self.plain_form()
        return listing_of(self.job, plain.answer_back(solutions.read_bytes(text.encode("latin-1"), plain.model)))

    def attested(self, attempt: Attempt) -> str:
        "asks the checkers of listings; what the one is called that attests. NoBasis where none does"
        from mps360 import checkers
        assert self.checkers is not None
        found = checkers.in_turn(self.checkers, attempt.listing, lambda checker: self.said_by(checker, attempt))
        assert found is not None
        attempt.checker, said = found
        if not said.is_answer or said.status != checkers.ATTESTED:
            raise NoBasis(f"{checkers.title(attempt.checker)} of listings says {said.text.strip()[:60] or 'nothing'} and ends with {said.status}")
        return checkers.title(attempt.checker)

    def said_by(self, checker: Tool, attempt: Attempt) -> Said:
        "what a checker says of the attempt's listing, once it is compiled; NoBasis where it can't be, or where no time is left for it"
        from mps360.checkers import Said, title
        if checker.prepare:
            what = f"{title(checker)} of listings"
            self.observer.going(f"compiling {what}, which then runs UNPROVED")
            status = self.compiled(checker, what)
            if status != 0:
                raise NoBasis(f"{what} wasn't compiled" + (" in the time that was left" if status is None else ""))
        process = self.processes.start(checker.command, attempt.job.encode("latin-1"), files={"LISTING": attempt.listing}, tell=self.observer.heard)
        if not self.wait(process, self.left(), lambda: "waits for the checker of listings"):
            raise NoBasis("the checker of listings had no end in the time that was left")
        return Said(NO_END if process.status is None else process.status, process.printed().decode("latin-1"))

    def best_of(self) -> Attempt:
        """what stands where no route decides: an attempt with a verdict whose listing isn't whole, or PRIMAL from the opening basis, or the first one.
        NoBasis where no route came to a run, and there was time"""
        kept = sorted(self.kept, key=lambda one: (one.verdict is None, one.words != OPENING))
        if kept:
            return kept[0]
        if self.tried and not self.is_late():
            raise NoBasis("; ".join(tried.why for _, tried in self.tried if tried.why))
        return Attempt(OPENING, self.job.text, why=f"no end in {shown(self.plan.seconds)} seconds")


def first_line(cause: Exception) -> str:
    "the first line of what an exception says"
    return str(cause).partition("\n")[0]
