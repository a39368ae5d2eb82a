"""The public calls: models read or built, solved, proved, attested. No call changes the state of a module, the present folder or a signal, and each run has
a folder and a process group of its own, so that any number of threads may call at once."""
from __future__ import annotations

import os
import pathlib
import time
from collections.abc import Callable, Mapping, Sequence
from dataclasses import dataclass, field
from fractions import Fraction
from typing import BinaryIO, Literal, NamedTuple

from mps360 import at_hand, bases, checkers, long_answers, mps, runs, solutions
from mps360.answer import Answer, Ray, answer_of
from mps360.at_hand import Checkers, Tool
from mps360.bases import Basis
from mps360.checkers import ATTESTED, Said
from mps360.errors import CantRun, Error, NoProgram, Refused
from mps360.jobs.write import Job, exact_job
from mps360.listings import write
from mps360.model import Model, Number, exact
from mps360.processes import Processes
from mps360.reading import INFINITY, Reading
from mps360.routes import Plan, Routes
from mps360.solver_names import NoBasis

Source = str | os.PathLike[str] | BinaryIO
Form = Literal["either", "free", "fixed"]
Numbers = Literal["exact", "round", "refuse"]
READS = {"exact": "exact", "round": "round", "refuse": "job"}
NO_END = 124
WHY = {40: "its numbers don't prove it", 41: "it can't be attested", 42: checkers.OUT_OF_127_BITS, 43: "its listing is too long",
       NO_END: "the checker had no end in time"}


class Life(NamedTuple):
    "that a run still lives: after how many seconds, and what it waits for"
    seconds: float
    waits_for: str


@dataclass(frozen=True)
class Solution:
    "another solver's exact answer, by the names of the model; what a table leaves out is 0"
    answer: Literal["optimal", "infeasible", "unbounded"]
    columns: Mapping[str, Fraction] = field(default_factory=dict)
    prices: Mapping[str, Fraction] = field(default_factory=dict)
    reduced: Mapping[str, Fraction] | None = None
    ray: Ray | None = None
    direction: Mapping[str, Fraction] | None = None


@dataclass(frozen=True)
class Attestation:
    """what the checker of listings says of an answer: attested, or why not, with the line of the listing. proved: the checker is the proved one; code is its
    exit status, and checker its name: mps360check, mps360long, which reads numbers of any length, or empty where another one was named"""
    attested: bool
    proved: bool
    code: int
    why: str | None
    line: int | None
    job: str
    listing: str
    checker: str = ""


# ---- reading

def content_of(source: Source) -> tuple[bytes, str | None]:
    "the bytes of a file or a stream, and the file's name"
    if isinstance(source, (str, os.PathLike)):
        return pathlib.Path(source).read_bytes(), os.fspath(source)
    return source.read(), getattr(source, "name", None)


def refused(cause: Refused, file: str | None) -> Refused:
    "the same, with its file, and the word as it stands there"
    cause.file = file
    if cause.text is not None and cause.span is not None:
        cause.word = cause.text[slice(*cause.span)]
    return cause


def read_mps(path: Source, *, form: Form = "either", numbers: Numbers = "exact", doubles: bool = False, relax: bool = False,
             negative_up: Literal["keep", "free"] | None = None, marker_upper: Literal["1", "none"] | None = None,
             blank_set: Literal["same", "own"] | None = None, constant: Literal["minus", "plus"] = "minus", infinity: Number = INFINITY,
             sense: Literal["MIN", "MAX"] | None = None, objective: str | None = None, rhs: str | None = None, ranges: str | None = None,
             bounds: str | None = None) -> Model:
    """the model of an MPS or CPLEX LP file, gzipped or not, by the file's names, in exact fractions. numbers: exact takes every decimal number, round rounds
    to the nearest that 12 columns hold, refuse refuses one that they don't; doubles takes a number of 16 or 17 digits as the shortest decimal that is the same
    double. relax takes columns of whole numbers as columns of any numbers. The other words are those of the command mps2job.py. What was changed, left out or
    chosen stands in the model's notes. Refused names file, line, column and word; OSError where the file can't be read."""
    reading = Reading(form=form, numbers=READS[numbers], relax=relax, marker_upper=marker_upper, negative_up=negative_up, blank_set=blank_set,
                          constant=constant, infinity=exact(infinity), sense=sense, objective=objective, rhs_set=rhs, range_set=ranges, bound_set=bounds,
                          doubles=doubles)
    content, file = content_of(path)
    try:
        return mps.read_bytes(content, reading, file or "")
    except Refused as cause:
        raise refused(cause, file) from None


def read_basis(path: Source, model: Model, *, writer: str | None = None) -> Basis:
    """the basis of a file that clp, esolver, lp_solve, glpsol or another solver wrote for this model; writer is one of bases.WRITERS, None where the file tells
    it. Refused names file, line and word."""
    content, file = content_of(path)
    try:
        return bases.read_text(bases.text_of(content), model, writer)
    except Refused as cause:
        raise refused(cause, file) from None


def read_solution(path: Source, model: Model) -> Solution:
    "the exact answer of a file: what esolver -O writes, or the JSON that docs/ATTESTING.md describes. Refused says why it isn't taken"
    content, file = content_of(path)
    try:
        answer = solutions.read_bytes(content, model)
    except (Refused, solutions.NoSolution) as cause:
        raise refused(cause if isinstance(cause, Refused) else Refused(str(cause)), file) from None
    ray = Ray(answer.ray, answer.column_ray or {}, answer.crossed) if answer.kind == "infeasible" else None
    kind: Literal["optimal", "infeasible", "unbounded"] = "optimal" if answer.kind == "optimal" else "infeasible" if ray else "unbounded"
    return Solution(kind, answer.columns, answer.prices, answer.reduced, ray, answer.direction or None)


# ---- solving

def proved(file: str | None) -> Tool:
    "the program that is named, or the proved one; NoProgram where there is none"
    if file is not None:
        return at_hand.solver_program(file)
    tool = at_hand.solver_program()
    if tool.kind != "proved":
        raise NoProgram(f"no proved program is there; {at_hand.PROVES}. Another one is named by program=FILE")
    return tool


def checkers_for(file: str | None) -> Checkers:
    "the checker that is named, or the proved ones. NoProgram where the one that is named can't be run"
    return at_hand.checkers_at_hand(file, lambda name: tool if (tool := at_hand.listing_checker(name)) and tool.kind == "proved" else None)


def job_for(model: Model, ranging: bool) -> Job:
    "the job of a model; Refused where a job can't hold it"
    if model.rows.get(model.objective) != "N":
        raise Refused(f"the objective {model.objective!r} isn't an N row of the model")
    return exact_job(model, ranging, model.name)


def check_basis(basis: Basis, model: Model) -> None:
    "Refused where a basis is of other names, or of another number of basic variables"
    for what, names, statuses in (("row", model.rows.keys(), basis.rows), ("column", model.columns.keys(), basis.columns)):
        if odd := names ^ statuses.keys():
            name = min(odd)
            raise Refused(f"the basis has no {what} {name[:60]!r}" if name in names else f"the model has no {what} {name[:60]!r}")
    basic = sum(status == bases.BASIC for status in (*basis.rows.values(), *basis.columns.values()))
    if basic != len(model.rows):
        raise Refused(f"{basic} rows and columns are basic, and these are to be {len(model.rows)}, as many as there are rows")


def ended(model: Model, plan: Plan, basis: Basis | None, ranging: bool, tools: tuple[Tool, Checkers], on_life: Callable[[Life], None] | None) -> Answer:
    "goes through the routes"
    job, (program, there) = job_for(model, ranging), tools
    observer = runs.Observer(tick=lambda seconds, waits: on_life(Life(seconds, waits())) if on_life else None)
    routes = Routes(job, program, plan, there, observer)
    if basis is not None:
        check_basis(basis, model)
        routes.begin_at(basis, "the basis")
    try:
        outcome = routes.run()
    except runs.NoAnswer as cause:
        raise CantRun(f"{program.command[0]}: {cause}") from None
    except NoBasis as cause:
        raise NoProgram(str(cause)) from None
    except OSError as cause:
        raise CantRun(f"can't run {cause.filename or program.command[0]}: {cause.strerror}") from None
    if outcome.attempt.interrupted:
        raise KeyboardInterrupt
    return answer_of(job, outcome, ranging)


def solve(model: Model, *, ranging: bool = False, basis: Basis | None = None, with_: Sequence[str] | None = None, seconds: float | None = None,
          program: str | None = None, checker: str | None = None, on_life: Callable[[Life], None] | None = None) -> Answer:
    """the answer of a model, and by which route it was proved. ranging: how far each cost and limit may move. with_ names the solvers that may be asked
    for a basis, of highs, clp, esolver, glpsol and lp_solve (None: those that are there; empty: nobody); none of them is believed. seconds bounds all of it,
    and then the status is "no end". program and checker are other ones than the proved ones, whose answers aren't called proved. on_life is called again and
    again while a program runs. NoProgram where there is none; Refused where a job can't hold the model; CantRun where a program can't be run or gives no answer;
    NoListing where what it prints isn't this job's listing."""
    plan = Plan(solvers=None if with_ is None else tuple(with_), seconds=seconds)
    return ended(model, plan, basis, ranging, (proved(program), checkers_for(checker)), on_life)


def prove(model: Model, basis: Basis, *, ranging: bool = False, seconds: float | None = None, program: str | None = None) -> Answer:
    "INSERT of this basis and PRIMAL, and no other route: status stopped, with its STOP line, where these come to no verdict. Refused where the basis isn't of this model"
    return ended(model, Plan(solvers=(), only="basis", seconds=seconds), basis, ranging, (proved(program), Checkers()), None)


# ---- attesting

def solution_of(answer: Answer | Solution) -> write.Answer:
    "an answer as its listing is written"
    if isinstance(answer, Answer):
        if answer.status not in ("optimal", "infeasible", "unbounded"):
            raise Refused(f"an answer whose status is {answer.status!r} has nothing to be attested")
        point = {name: column.activity for name, column in answer.columns.items()} or dict(answer.point or {})
        reduced = {name: column.reduced_cost for name, column in answer.columns.items()} or None
        ray = answer.ray or Ray()
        return write.Answer(answer.status, point, {name: row.dual for name, row in answer.rows.items()}, reduced, dict(ray.rows), dict(ray.columns) if answer.ray else None,
                            ray.crossed, dict(answer.direction or {}))
    ray = answer.ray or Ray()
    return write.Answer(answer.answer, dict(answer.columns), dict(answer.prices), None if answer.reduced is None else dict(answer.reduced), dict(ray.rows),
                        dict(ray.columns) or None, ray.crossed, dict(answer.direction or {}))


def attest(model: Model, answer: Answer | Solution, *, seconds: float | None = None, checker: str | None = None) -> Attestation:
    """what the proved checker of listings says of an exact answer, or the checker that is named: nothing is solved, and nothing of the answer is changed.
    NoProgram where there is no checker; Refused where the answer isn't of this model's names, or a number of it has more digits than any checker reads."""
    there = checkers_for(checker)
    if not (there.short or there.long):
        raise NoProgram(f"no proved checker of listings is there; {at_hand.PROVES}. Another one is named by checker=FILE")
    job, found = job_for(model, False), solution_of(answer)
    try:
        listing = long_answers.listing_of(job, found)
    except (KeyError, write.Refused) as cause:
        raise Refused(f"the model has no {cause}" if isinstance(cause, KeyError) else str(cause)) from None
    return attestation(there, job, listing, seconds)


def asked(tool: Tool, job: Job, listing: str, until: float | None) -> Said:
    "what a checker says, until a time of time.monotonic"
    with Processes() as processes:
        try:
            process = processes.start(tool.command, job.text.encode("ascii"), files={"LISTING": listing.encode("latin-1")})
        except OSError as cause:
            raise CantRun(f"can't run {tool.command[0]}: {cause.strerror}") from None
        over = processes.wait([process], until)
        process.end()
        said = Said(process.status if over and process.status is not None else NO_END, process.printed().decode("latin-1"))
    if said.status != NO_END and not said.is_answer:
        raise CantRun(f"{tool.command[0]} ended with {said.status} and gave no answer: {said.text[:60]!r}")
    return said


def attestation(there: Checkers, job: Job, listing: str, seconds: float | None) -> Attestation:
    "what the checkers say"
    until, text = None if seconds is None else time.monotonic() + seconds, listing.encode("latin-1")
    found = checkers.in_turn(there, text, lambda tool: asked(tool, job, listing, until))
    assert found is not None
    tool, said = found
    is_attested = said.status == ATTESTED
    return Attestation(is_attested, tool.kind == "proved" and is_attested, said.status, why_not(tool, said, text), said.line, job.text, listing,
                       "" if tool.kind == "other" else tool.name)


def why_not(tool: Tool, said: Said, listing: bytes) -> str | None:
    "why a listing isn't attested; None where it is"
    if said.status == ATTESTED:
        return None
    return checkers.limit_met(tool, said, listing) or WHY.get(said.status, f"the checker ended with {said.status}: {said.text[:60].strip()}")


__all__ = ["Answer", "Attestation", "Basis", "Error", "Life", "Model", "Solution", "attest", "prove", "read_basis", "read_mps", "read_solution", "solve"]
