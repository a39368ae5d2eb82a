"""Why an exact answer of another program proves nothing: the first of the checker's tests that it fails, in the file's own names.

The tests are those of linear programming: a feasible point with prices that leave each reduced cost as it is said to be, and that are 0 wherever an
activity isn't at the limit which the price speaks of; a ray whose factors cancel in each column and whose limits add up to less than 0; a feasible
point with a direction that keeps all limits and along which the objective gets better. The checker has the last word; this says in words what it met."""
from __future__ import annotations

from collections.abc import Iterator, Mapping
from fractions import Fraction

from mps360.listings.write import Answer
from mps360.model import Model, Sums
from mps360.text import short_text

ZERO = Fraction(0)
Limits = tuple[Fraction | None, Fraction | None]


class Sheet:
    "a model beside an answer of it"

    def __init__(self, model: Model, answer: Answer) -> None:
        self.model, self.answer, sums = model, answer, Sums(model)
        self.entries: dict[str, Mapping[str, Fraction]] = {column: sums.of(column) for column in model.columns}

    def limits(self) -> Iterator[tuple[str, str, Limits]]:
        "kind, name and limits of each row, then of each column"
        for row in self.model.rows:
            yield "row", row, self.model.row_limits(row)
        for column in self.model.columns:
            yield "column", column, self.model.column_limits(column)

    def with_rows(self, columns: Mapping[str, Fraction]) -> dict[tuple[str, str], Fraction]:
        "a number of each row, the sum of the columns' numbers each times its entry, and that of each column"
        rows = dict.fromkeys(self.model.rows, ZERO)
        for column, value in columns.items():
            for row, entry in self.entries[column].items() if value else ():
                rows[row] += entry * value
        return {**{("row", row): value for row, value in rows.items()}, **{("column", name): columns.get(name, ZERO) for name in self.model.columns}}

    def left_over(self, column: str, wanted: Fraction, factors: Mapping[str, Fraction]) -> Fraction:
        "what is left of a number of a column once each of its entries, times its row's factor, is taken away"
        return wanted - sum((factors.get(row, ZERO) * entry for row, entry in self.entries[column].items()), ZERO)


def first_fault(model: Model, answer: Answer) -> str | None:
    "the first test that the answer fails, with the row or column and the two numbers that differ; None where it fails none of these"
    tests = {"optimal": optimal, "infeasible": infeasible, "unbounded": unbounded}
    return next(tests[answer.kind](Sheet(model, answer)), None)


def infeasible_points(sheet: Sheet) -> Iterator[str]:
    "activities outside their limits"
    point = sheet.with_rows(sheet.answer.columns)
    for kind, name, (lower, upper) in sheet.limits():
        value = point[kind, name]
        if lower is not None and value < lower:
            yield f"the {kind} {name} has the activity {short_text(value)}, below its lower limit {short_text(lower)}"
        if upper is not None and value > upper:
            yield f"the {kind} {name} has the activity {short_text(value)}, above its upper limit {short_text(upper)}"


def optimal(sheet: Sheet) -> Iterator[str]:
    "a point and prices that don't prove each other best"
    model, answer = sheet.model, sheet.answer
    yield from infeasible_points(sheet)
    reduced = {}
    for column, entries in sheet.entries.items():
        reduced[column] = sheet.left_over(column, entries.get(model.objective, ZERO), answer.prices)
        told = answer.reduced.get(column, ZERO) if answer.reduced is not None else reduced[column]
        if told != reduced[column]:
            yield f"the column {column} has the reduced cost {short_text(told)}, and by the prices it is {short_text(reduced[column])}"
    point = sheet.with_rows(answer.columns)
    for kind, name, (lower, upper) in sheet.limits():
        price, value = answer.prices.get(name, ZERO) if kind == "row" else reduced[name], point[kind, name]
        which, limit = ("lower", lower) if (price > 0) == (model.sense == "MIN") else ("upper", upper)
        what = "shadow price" if kind == "row" else "reduced cost"
        if price and limit is None:
            yield f"the {kind} {name} has the {what} {short_text(price)}, which is for its {which} limit, and it has none"
        elif price and limit is not None and value != limit:
            yield f"the {kind} {name} has the {what} {short_text(price)}, which is for its {which} limit {short_text(limit)}, and its activity is {short_text(value)}"


def infeasible(sheet: Sheet) -> Iterator[str]:
    "limits that aren't crossed, or a ray that proves no conflict"
    model, answer = sheet.model, sheet.answer
    if answer.crossed:
        kind, name = answer.crossed
        lower, upper = model.row_limits(name) if kind == "row" else model.column_limits(name)
        shown = ["none" if limit is None else short_text(limit) for limit in (lower, upper)]
        if lower is None or upper is None or lower <= upper:
            yield f"the {kind} {name} has the lower limit {shown[0]}, which isn't above its upper limit {shown[1]}"
        return
    factors = {("row", row): answer.ray.get(row, ZERO) for row in model.rows}
    for column in model.columns:
        left = sheet.left_over(column, ZERO, answer.ray)
        factors["column", column] = left if answer.column_ray is None else answer.column_ray.get(column, ZERO)
        if factors["column", column] != left:
            yield f"the column {column} has the factor {short_text(factors['column', column])}, and by the factors of the rows it is {short_text(left)}"
    total = ZERO
    for kind, name, (lower, upper) in sheet.limits():
        factor = factors[kind, name]
        which, limit = ("upper", upper) if factor > 0 else ("lower", lower)
        if factor and limit is None:
            yield f"the {kind} {name} has the factor {short_text(factor)}, which is for its {which} limit, and it has none"
        total += factor * (limit or ZERO)
    if total >= 0:
        yield f"the limits, each times its factor, add up to {short_text(total)}, which isn't less than 0"


def unbounded(sheet: Sheet) -> Iterator[str]:
    "a point that isn't feasible, or a direction that isn't one of improvement"
    model, answer = sheet.model, sheet.answer
    yield from infeasible_points(sheet)
    direction = sheet.with_rows(answer.direction)
    for kind, name, (lower, upper) in sheet.limits():
        change = direction[kind, name]
        which, limit = ("upper", upper) if change > 0 else ("lower", lower)
        if change and limit is not None:
            yield f"the {kind} {name} changes by {short_text(change)} along the direction, and has the {which} limit {short_text(limit)}"
    change = direction["row", str(model.objective)]
    if (change <= 0) if model.sense == "MAX" else (change >= 0):
        yield f"the objective {model.objective} changes by {short_text(change)} along the direction, which isn't {'more' if model.sense == 'MAX' else 'less'} than 0"
