"""Makes of another solver's answer, or of a basis, of a model with long numbers one of the model of short numbers that long_numbers has made.

    listing_of(job, answer)        the listing of an answer of the file, also where its job has no long number
    in_short(answer, split)        a listings.write.Answer by the names of split.model, of one by the names of split.file
    basis_in_short(basis, split)   the same of a bases.Basis

Nothing is solved, and no number is made up: a price or a multiplier of a limit that has become a row goes to this row, and the column that is fixed
at 1 gets what the others leave over."""
from __future__ import annotations

from dataclasses import replace
from fractions import Fraction
from typing import TYPE_CHECKING, Any, Callable

from mps360.bases import BASIC, FREE, LOWER, UPPER, Basis
from mps360.jobs.write import Job
from mps360.listings import write
from mps360.listings.write import Answer
from mps360.model import Sums

if TYPE_CHECKING:
    from mps360.long_numbers import Entries, Split

ZERO, UNIT = Fraction(0), Fraction(1)
# of which names the tables of an answer are
TABLES = {"columns": "columns", "prices": "rows", "reduced": "columns", "ray": "rows", "column_ray": "columns", "direction": "columns"}
ENDS = {LOWER: "lower", UPPER: "upper"}


def moved_limits(split: Split) -> dict[tuple[str, str], dict[str, str]]:
    "of each row (\"row\", name) and column (\"column\", name) whose limits have become rows: these rows by their ends"
    found: dict[tuple[str, str], dict[str, str]] = {}
    for row, moved in split.moved.items():
        found.setdefault((moved.of, moved.name), {})[moved.end] = row
    return found


def left_over(sums: Sums, column: str, wanted: Fraction, prices: Entries) -> Fraction:
    "what is left of a number of a column once its entries, each times the row's price, are taken away"
    return wanted - sum((value * prices.get(row, ZERO) for row, value in sums.of(column).items()), ZERO)


def in_short(answer: Answer, split: Split) -> Answer:
    "the answer of the model of short numbers that says the same as this one of the file's"
    columns = answer.columns | ({split.one: UNIT} if split.one else {})
    if answer.kind == "infeasible":
        return crossed_in_short(answer, split) if answer.crossed else ray_in_short(answer, split)
    if answer.kind == "unbounded":
        return replace(answer, columns=columns)
    sign = -1 if split.file.sense == "MAX" else 1

    def end_of(price: Fraction) -> str:
        return "lower" if sign * price > 0 else "upper"

    sums = Sums(split.file)
    costs = {name: sums.of(name).get(split.file.objective, ZERO) for of, name in moved_limits(split) if of == "column"}
    prices, reduced = dealt_out(split, answer.prices, answer.reduced, costs, end_of)
    return replace(answer, columns=columns, prices=prices, reduced=reduced)


def ray_in_short(answer: Answer, split: Split) -> Answer:
    ray, column_ray = dealt_out(split, answer.ray, answer.column_ray, {}, lambda factor: "upper" if factor > 0 else "lower")
    return replace(answer, ray=ray, column_ray=column_ray)


def dealt_out(split: Split, of_rows: Entries, of_columns: Entries | None, wanted: Entries,
              end_of: Callable[[Fraction], str]) -> tuple[Entries, Entries | None]:
    """the prices (or multipliers) of rows and of columns, where those that belong to limits which are rows go to these; the end is the one on
    which a price of this sign bears. Those of columns may be None: not known, as with what is worked out of the rows'"""
    rows, columns, sums = dict(of_rows), None if of_columns is None else dict(of_columns), Sums(split.file)
    for (of, name), ends in moved_limits(split).items():
        if of == "row":
            price = of_rows.get(name, ZERO)
        else:
            price = left_over(sums, name, wanted.get(name, ZERO), of_rows) if of_columns is None else of_columns.get(name, ZERO)
        end = "both" if "both" in ends else end_of(price)
        if not price or end not in ends:
            continue
        rows[ends[end]] = price
        if of == "row":
            del rows[name]
        elif columns is not None:
            columns[name] = ZERO
    if columns is not None and split.one:
        columns[split.one] = left_over(Sums(split.model), split.one, ZERO, rows)
    return rows, columns


def crossed_in_short(answer: Answer, split: Split) -> Answer:
    "a variable whose limits cross; where one of them is a row it is a ray"
    assert answer.crossed
    of, name = answer.crossed
    ends = moved_limits(split).get((of, name))
    if not ends:
        return answer
    factors = {"upper": UNIT, "lower": -UNIT, "both": ZERO}
    return replace(answer, crossed=None, ray={row: factors[end] for end, row in ends.items()}, column_ray=None)


def basis_in_short(basis: Basis, split: Split) -> Basis:
    "where a row or a column stands at a limit that is a row, this row stands there, and it is basic itself"
    rows, columns = dict(basis.rows) | dict.fromkeys(split.added, BASIC), dict(basis.columns)
    if split.one:
        columns[split.one] = LOWER
    for (of, name), ends in moved_limits(split).items():
        statuses = rows if of == "row" else columns
        status = statuses[name]
        end = "both" if "both" in ends else ENDS.get(status, "")
        if status not in (BASIC, FREE) and end in ends:
            rows[ends[end]], statuses[name] = (LOWER if end == "both" else status), BASIC
    return Basis(rows, columns, basis.writer, list(basis.said))


def listing_of(job: Job, answer: Answer) -> str:
    "the listing of a job, were this the answer of its file, by the names of that; listings.write.Refused where a number doesn't fit"
    short = in_short(answer, job.split) if job.split else answer

    def named(table: Entries | None, names: dict[str, str]) -> Any:
        return None if table is None else {names[name]: value for name, value in table.items()}

    crossed = short.crossed and (short.crossed[0], (job.rows if short.crossed[0] == "row" else job.columns)[short.crossed[1]])
    tables = {key: named(getattr(short, key), getattr(job, kind)) for key, kind in TABLES.items()}
    return str(write.listing_of(job, replace(short, crossed=crossed, **tables)))
