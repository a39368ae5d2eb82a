"""What a run came to, by the names of the model, in exact fractions.

    answer = answer_of(job, outcome)      of a job of a model and what the routes came to; NoListing where what was printed isn't the listing of this
                                          job"""
from __future__ import annotations

from collections.abc import Iterable, Mapping
from dataclasses import dataclass, field
from fractions import Fraction
from typing import Any, Literal

from mps360.bases import BASIC, FREE, LOWER, UPPER, Basis
from mps360.errors import Error
from mps360.jobs.write import Job
from mps360.listings import tables
from mps360.listings.made import OtherJob, check_made
from mps360.listings.read import Line, Listing, NoListing, Ranges, Report, Verdict, each_line, name_back, names_of, parse
from mps360.provenance import ProvedBy, Provenance
from mps360.routes import Outcome, Tried

Status = Literal["optimal", "infeasible", "unbounded", "stopped", "no end"]
# where a basis has what stands at each place that a listing tells
STANDS = {"BS": BASIC, "LL": LOWER, "UL": UPPER, "EQ": LOWER, "FR": FREE}
NO_END = 124


@dataclass(frozen=True)
class Interval:
    "from low to high; None is no end"
    low: Fraction | None
    high: Fraction | None


@dataclass(frozen=True)
class Row:
    """a row of the plan. The slack is its right-hand side less its activity; the dual is by how much the objective rises for each unit by which the limit
    rises at which the row stands. With ranging: limit_range, in which the dual holds while that limit moves; of a basic row factor_range, of multiples of
    the row that may be added to the objective while the plan stays"""
    activity: Fraction
    slack: Fraction
    dual: Fraction
    lower: Fraction | None
    upper: Fraction | None
    at: str
    limit_range: Interval | None = None
    factor_range: Interval | None = None


@dataclass(frozen=True)
class Column:
    "a column of the plan; with ranging cost_range, in which the plan stays best, and limit_range, in which the reduced cost holds"
    activity: Fraction
    cost: Fraction
    reduced_cost: Fraction
    lower: Fraction | None
    upper: Fraction | None
    at: str
    cost_range: Interval | None = None
    limit_range: Interval | None = None


@dataclass(frozen=True)
class Ray:
    """why there is no plan: limits times these factors add up to a sum that nothing keeps. A factor above 0 is of an upper limit, one below 0 of a lower
    one. Or the row or column whose own limits cross, as ("row", NAME) or ("column", NAME)"""
    rows: Mapping[str, Fraction] = field(default_factory=dict)
    columns: Mapping[str, Fraction] = field(default_factory=dict)
    crossed: tuple[str, str] | None = None


@dataclass(frozen=True)
class Answer:
    """the answer, by the file's own names and in its order. status is stopped where the run stopped (stop has the STOP line), no end where the time ran
    out; code is the exit status that the command solve ends with. rows and columns are those of the plan, where there is one; of an unbounded model columns'
    activities are in point, and direction has by how much each moves. proved says whether the proved program printed the listing, or the proved checker
    attested it; proved_by which. notes has a sentence for each thing that was changed, left out or chosen"""
    status: Status
    code: int
    objective: Fraction | None
    rows: Mapping[str, Row]
    columns: Mapping[str, Column]
    ray: Ray | None
    point: Mapping[str, Fraction] | None
    direction: Mapping[str, Fraction] | None
    stop: str | None
    proved: bool
    proved_by: ProvedBy
    route: str
    routes: tuple[Tried, ...]
    notes: tuple[str, ...]
    job: str
    listing: str
    document: Mapping[str, Any] = field(repr=False)

    def basis(self) -> Basis:
        "the basis of the plan, for another run; Error where there is none, as of an answer that the checker attested"
        if not self.columns or "attested by the checker" in self.route:
            raise Error("this answer has no basis")
        return Basis({name: STANDS[row.at] for name, row in self.rows.items()}, {name: STANDS[column.at] for name, column in self.columns.items()})

    def as_json(self) -> dict[str, Any]:
        "the fields of docs/listing.schema.json"
        return dict(self.document)


def number(text: str | None) -> Fraction | None:
    "a number of a listing, None where it has none"
    return None if text is None else Fraction(text)


def interval(line: Line, low: str, high: str) -> Interval | None:
    "an interval of RANGE, None where the line has none"
    return Interval(number(line[low]), number(line[high])) if low in line and line[low] != "-" else None


def numbers(lines: Iterable[Line], key: str) -> dict[str, Fraction]:
    "a column of a table by names"
    return {line["name"]: Fraction(line[key]) for line in lines}


def last(reports: Iterable[Report], kind: str) -> Any:
    "the last report of a kind, None where there is none"
    return next((report for report in reversed(list(reports)) if report["report"] == kind), None)


def rows_of(lines: Iterable[Line], near: Mapping[int, Line]) -> dict[str, Row]:
    "the rows of SOLUTION, with what RANGE says of each"
    found = {}
    for line in lines:
        more = near.get(line["number"], {})
        found[line["name"]] = Row(Fraction(line["activity"]), Fraction(line["slack"]), Fraction(line["dual"]), number(line["lower"]), number(line["upper"]),
                                  line["at"], interval(more, "limit_low", "limit_high"), interval(more, "factor_low", "factor_high"))
    return found


def columns_of(lines: Iterable[Line], near: Mapping[int, Line]) -> dict[str, Column]:
    "the columns of SOLUTION, with what RANGE says of each"
    found = {}
    for line in lines:
        more = near.get(line["number"], {})
        found[line["name"]] = Column(Fraction(line["activity"]), Fraction(line["cost"]), Fraction(line["reduced"]), number(line["lower"]), number(line["upper"]),
                                     line["at"], interval(more, "cost_low", "cost_high"), interval(more, "limit_low", "limit_high"))
    return found


def ray_of(report: Verdict, job: Job) -> Ray:
    "the proof that there is no plan"
    rows = len(job.rows)
    if "crossed" in report:
        k = report["crossed"] - 1
        return Ray(crossed=("row", list(job.rows)[k]) if k < rows else ("column", list(job.columns)[k - rows]))
    lines = report.get("ray", [])
    return Ray(numbers((line for line in lines if line["number"] <= rows), "multiplier"), numbers((line for line in lines if line["number"] > rows), "multiplier"))


def read(job: Job, text: str, inserted: bool, ranging: bool) -> tuple[Listing, list[str]]:
    "the listing of a job by the names of the file, and what is to be noted; NoListing where it isn't this job's"
    listing, table, notes = parse(text), job.name_map(), list[str]()
    try:
        check_made(job, listing["reports"], inserted, ranging)
    except OtherJob as cause:
        raise NoListing(str(cause)) from None
    if not name_back(listing, names_of(table)):
        notes.append("the objective of the listing isn't that of the file: no constant is added")
    return listing, notes


def status_of(verdict: Verdict | None, code: int) -> Status:
    "what the run came to"
    if verdict is None:
        return "no end" if code == NO_END else "stopped"
    return "optimal" if verdict["verdict"] == "optimal" else "infeasible" if verdict["verdict"] == "infeasible" else "unbounded"


def answer_of(job: Job, outcome: Outcome, ranging: bool = False) -> Answer:
    "what the routes came to, as an answer"
    attempt = outcome.attempt
    text = attempt.listing.decode("latin-1")
    listing, notes = read(job, text, attempt.basis is not None and not attempt.by_checker, ranging and not attempt.by_checker)
    provenance = Provenance.of(outcome, None)
    verdict, solution, ranges = (last(listing["reports"], kind) for kind in ("verdict", "solution", "ranges"))
    near = {line["number"]: line for _, line in each_line(ranges or Ranges(report="ranges"))}
    end, is_optimal = listing["end"], bool(verdict) and verdict["verdict"] == "optimal"
    moving = [line for line in (verdict or {}).get("direction", []) if line["number"] > len(job.rows)]
    objective = verdict.get("objective_with_constant", verdict.get("objective")) if verdict else None
    said = (*job.said_without(job.of_table, job.of_listing), *(attempt.basis.said if attempt.basis else ()), *notes)
    run = {"model": job.file.name, "program": provenance.kind, "seconds": round(attempt.seconds, 3), "interrupted": False, "notes": list(said), **provenance.as_json()}
    document = tables.document(listing, run)
    tables.add_decimals(document)
    return Answer(
        status=status_of(verdict, outcome.status), code=outcome.status, objective=number(objective),
        rows=rows_of(solution.get("rows", []), near) if solution and is_optimal else {},
        columns=columns_of(solution.get("columns", []), near) if solution and is_optimal else {},
        ray=ray_of(verdict, job) if verdict and verdict["verdict"] == "infeasible" else None,
        point=numbers(moving, "activity") if moving else None, direction=numbers(moving, "direction") if moving else None,
        stop=end["text"].split("\n", maxsplit=1)[0] if end and end["text"].startswith("STOP") else None,
        proved=provenance.proved_by != "none", proved_by=provenance.proved_by, route=provenance.route, routes=provenance.routes,
        notes=said, job=attempt.job, listing=text, document=document)
