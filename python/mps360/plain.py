"""A linear program in names and words that all solvers read alike: COST is to be least, rows are R1 and on, columns C1 and on, and there is no other N
row. A basis or a solution of it comes back by the names of the model of which it was made."""
from __future__ import annotations

import functools
import json
import re
from collections.abc import Iterable, Mapping, Sequence
from dataclasses import replace
from fractions import Fraction

from mps360 import numbers
from mps360.bases import BASIC, UPPER, Basis
from mps360.listings.write import Answer
from mps360.errors import Refused
from mps360.model import Limits, Model, Sums

ZERO = Fraction(0)
Table = Mapping[str, Fraction]


def decimal(value: Fraction) -> str:
    "a number as a word with an exponent; the nearest double where it has no decimal digits of use"
    parts = numbers.decimal_parts(value)
    if parts is None:
        return repr(as_float(value))
    digits, power = parts
    return f"{digits}E{power}" if power else str(digits)


def as_float(value: Fraction) -> float:
    "the nearest double; Refused where it is past all doubles"
    try:
        return float(value)
    except OverflowError:
        raise Refused(f"the number {str(value)[:30]} is past double precision") from None


def end_of(value: Fraction | None) -> float | None:
    "a limit as a double"
    return None if value is None else as_float(value)


def bound_lines(column: str, limits: Limits) -> list[str]:
    "the cards of a column's limits"
    lower, upper = limits.lower, limits.upper
    if lower is not None and lower == upper:
        return [f" FX BND {column} {decimal(lower)}"]
    if lower is None and upper is None:
        return [f" FR BND {column}"]
    lines = [f" MI BND {column}"] if lower is None else [f" LO BND {column} {decimal(lower)}"] if lower or upper is not None else []
    return lines + ([] if upper is None else [f" UP BND {column} {decimal(upper)}"])


class Plain:
    "the plain form of a model: source is the model, model the plain one; rows and columns are the source's names in the order of R1.. and C1.."

    def __init__(self, source: Model) -> None:
        self.source = source
        self.rows = [row for row, kind in source.rows.items() if kind != "N"]
        self.columns = list(source.columns)
        self.sign = -1 if source.sense == "MAX" else 1
        self.model = self.made()

    def made(self) -> Model:
        "the plain model"
        source, sums, short = self.source, Sums(self.source), {row: f"R{k}" for k, row in enumerate(self.rows, 1)}
        model = Model("PLAIN", "MIN", "COST", rhs_set="RHS", range_set="RNG", bound_set="BND")
        model.rows = {"COST": "N", **{name: source.rows[row] for row, name in short.items()}}
        for k, column in enumerate(self.columns, 1):
            entries = sums.of(column)
            model.columns[f"C{k}"] = {"COST": self.sign * entries.get(source.objective or "", ZERO), **{short[row]: value for row, value in entries.items() if row in short}}
        for name, ours, theirs in (("RHS", model.rhs, source.rhs.get(source.rhs_set or "")), ("RNG", model.ranges, source.ranges.get(source.range_set or ""))):
            ours[name] = {short[row]: value for row, value in (theirs or {}).items() if row in short}
        model.bounds["BND"] = {f"C{k}": Limits(*source.column_limits(column)) for k, column in enumerate(self.columns, 1)}
        return model

    @functools.cached_property
    def text(self) -> str:
        "the model as an MPS file in words; Refused where a number is past double precision"
        model = self.model
        lines = ["NAME PLAIN FREE", "ROWS", *(f" {kind} {row}" for row, kind in model.rows.items()), "COLUMNS"]
        lines += [f" {column} {row} {decimal(value)}" for column, entries in model.columns.items() for row, value in entries.items()]
        lines += ["RHS", *(f" RHS {row} {decimal(value)}" for row, value in model.rhs["RHS"].items())]
        if model.ranges["RNG"]:
            lines += ["RANGES", *(f" RNG {row} {decimal(value)}" for row, value in model.ranges["RNG"].items())]
        bounds = [line for column, limits in model.bounds["BND"].items() for line in bound_lines(column, limits)]
        return "\n".join([*lines, *(["BOUNDS", *bounds] if bounds else []), "ENDATA"]) + "\n"

    def as_json(self, seconds: float | None = None) -> bytes:
        "the model as mps360.highs reads it; Refused where a number is past double precision"
        model = self.model
        place = {row: k for k, row in enumerate(row for row in model.rows if row != "COST")}
        rows, columns = ([(end_of(low), end_of(high)) for low, high in pairs]
                         for pairs in (map(model.row_limits, place), map(model.column_limits, model.columns)))
        entries = [(place[row], j, as_float(value)) for j, column in enumerate(model.columns.values()) for row, value in column.items() if row in place]
        whole = {"cost": [as_float(column["COST"]) for column in model.columns.values()], "rows": turned(rows, 2), "columns": turned(columns, 2),
                 "entries": turned(entries, 3), "seconds": seconds}
        return json.dumps(whole).encode("ascii")

    # ---- back

    def back(self, basis: Basis) -> Basis:
        "a basis of the plain model, by the names of the source"
        at = dict(zip(self.rows, (status for row, status in basis.rows.items() if row != "COST"), strict=True))
        said = [re.sub(r"\bC(\d+)\b", lambda found: self.columns[int(found[1]) - 1], sentence) for sentence in basis.said]
        return Basis({row: at.get(row, BASIC) for row in self.source.rows}, dict(zip(self.columns, basis.columns.values(), strict=True)), basis.writer, said)

    def answer_back(self, answer: Answer) -> Answer:
        "an optimal answer of the plain model, by the names of the source and for its sense"
        rows = {f"R{k}": row for k, row in enumerate(self.rows, 1)}
        columns = {f"C{k}": column for k, column in enumerate(self.columns, 1)}

        def named(table: Table, names: Mapping[str, str], sign: int) -> dict[str, Fraction]:
            return {names[name]: sign * value for name, value in table.items() if name in names}

        reduced = None if answer.reduced is None else named(answer.reduced, columns, self.sign)
        return replace(answer, columns=named(answer.columns, columns, 1), prices=named(answer.prices, rows, self.sign), reduced=reduced)

    def deck(self, basis: Basis) -> str:
        "a basis of the source as a basis file of the plain model, as esolver reads one"
        rows = [(f"R{k}", basis.rows[row], has_two(self.source.row_limits(row))) for k, row in enumerate(self.rows, 1)]
        return basis_cards("PLAIN", rows, [(f"C{k}", basis.columns[column]) for k, column in enumerate(self.columns, 1)])


def turned(lines: Sequence[Sequence[object]], count: int) -> list[list[object]]:
    "lines of so many numbers as that many lists"
    return [[line[k] for line in lines] for k in range(count)]


def has_two(limits: tuple[Fraction | None, Fraction | None]) -> bool:
    "whether a variable has two limits that differ"
    lower, upper = limits
    return lower is not None and upper is not None and lower != upper


def basis_cards(name: str, rows: Iterable[tuple[str, str, bool]], columns: Sequence[tuple[str, str]]) -> str:
    """a basis file of words: the k-th basic column beside the k-th row that isn't basic, then the columns at their upper limit. A row is its name,
    where it stands, and whether it has two limits that differ: only such a row can stand under XU, for QSopt_ex takes no other there, and clp goes
    by the limit that the row has."""
    out = [(row, at, two) for row, at, two in rows if at != BASIC]
    within = [column for column, at in columns if at == BASIC]
    cards = [f" {'XU' if at == UPPER and two else 'XL'} {column} {row}" for column, (row, at, two) in zip(within, out, strict=True)]
    cards += [f" UL {column}" for column, at in columns if at == UPPER]
    return "\n".join([f"NAME    {name}", *cards, "ENDATA"]) + "\n"
