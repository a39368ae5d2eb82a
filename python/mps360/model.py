"""A linear program, as a file has it.

A Model holds all of the file, by the file's names, with Fractions for numbers and None for "no limit":
    name, rows {name: N, L, G or E}, columns {name: {row: entry}}, rhs and ranges {set: {row: number}}, bounds {set: {column: Limits}}
    parts {name of a combination, which is a row: {row: multiplier}}
    sense (MIN or MAX), objective, rhs_set, range_set, bound_set: what is taken; a set is None where the file has none
    row_limits(row), column_limits(column): the lower and the upper limit under the sets taken; constant: the objective's
    numbers_of(column): its entries, and the sums that it has on combinations (rows of type DN, DL, DG or DE)
    relaxed: the columns whose values should be whole; rounded: [(line, word, number)]; said: a sentence for each thing that is changed,
    left out or chosen; warned: those of them that may be meant otherwise; doubles: [(line, word, the shorter word that is taken)];
    long: {number that 12 columns don't hold: the Place where it stands first};
    units: {name of a row or a column: the unit that a remark gives it}"""
import heapq
from collections.abc import Mapping
from dataclasses import dataclass, field
from fractions import Fraction
from typing import TypeVar, Union

# what a job holds at most
MOST = {"rows": 1000, "columns": 5000, "entries": 50000, "cards": 200_000}


@dataclass
class Limits:
    "the limits of a column in a set of bounds, and the lines that say them (0 where none does)"
    lower: Fraction | None = Fraction(0)
    upper: Fraction | None = None
    lower_line: int = 0
    upper_line: int = 0


Value = TypeVar("Value")
Number = Union[int, Fraction]
KINDS = ("N", "L", "G", "E")


def exact(value: Number) -> Fraction:
    "a number as a fraction; TypeError for a float, which isn't the decimal number that it shows"
    if isinstance(value, bool) or not isinstance(value, (int, Fraction)):
        raise TypeError(f"{value!r} isn't an exact number; Fraction(str({value!r})) is, of the decimal that it shows" if isinstance(value, float)
                        else f"{value!r} is neither an int nor a Fraction")
    return Fraction(value)


def of_set(sets: dict[str, dict[str, Value]], name: str | None) -> dict[str, Value]:
    "the items of a set; none where no set is taken"
    return sets.get(name, {}) if name is not None else {}


@dataclass(frozen=True)
class Place:
    "where a word stands in a file: its line, counted from 1, the text of that, and the columns of the word there, counted from 0"
    word: str
    line: int
    text: str
    span: tuple[int, int]


@dataclass
class Model:
    "a linear program by the names of its file"
    name: str = ""
    sense: str = "MIN"
    objective: str = ""
    rows: dict[str, str] = field(default_factory=dict)
    parts: dict[str, dict[str, Fraction]] = field(default_factory=dict)
    columns: dict[str, dict[str, Fraction]] = field(default_factory=dict)
    rhs: dict[str, dict[str, Fraction]] = field(default_factory=dict)
    ranges: dict[str, dict[str, Fraction]] = field(default_factory=dict)
    bounds: dict[str, dict[str, Limits]] = field(default_factory=dict)
    rhs_set: str | None = None
    range_set: str | None = None
    bound_set: str | None = None
    relaxed: list[str] = field(default_factory=list)
    rounded: list[tuple[int, str, Fraction]] = field(default_factory=list)
    said: list[str] = field(default_factory=list)
    doubles: list[tuple[int, str, str]] = field(default_factory=list)
    warned: list[str] = field(default_factory=list)
    constant_sign: int = -1
    long: dict[Fraction, Place] = field(default_factory=dict)
    units: dict[str, str] = field(default_factory=dict)

    def __post_init__(self) -> None:
        if self.objective:
            self.rows.setdefault(self.objective, "N")

    # ---- built by a program

    @property
    def notes(self) -> list[str]:
        "a sentence for each thing that was changed, left out or chosen"
        return self.said

    def add_row(self, name: str, kind: str, rhs: Number = 0, span: Number | None = None) -> None:
        """a new row of the kind N (no limit), L (at most rhs), G (at least) or E (equal); a span makes a range of it: of an L row from rhs - span, of a G row to
        rhs + span. On an N row rhs is its constant, which is added to its activity. ValueError where there is such a row, TypeError for a float; then the model
        stays as it was"""
        if name in self.rows and not (name == self.objective and kind == "N"):
            raise ValueError(f"there is a row {name!r} already")
        if kind not in KINDS:
            raise ValueError(f"{kind!r} is none of {', '.join(KINDS)}")
        if span is not None and kind == "N":
            raise ValueError("an N row has no range")
        limit, width = exact(rhs), None if span is None else exact(span)
        self.rows[name] = kind
        if limit:
            self.rhs_set = self.rhs_set or "RHS"
            self.rhs.setdefault(self.rhs_set, {})[name] = limit * (self.constant_sign if kind == "N" else 1)
        if width is not None:
            self.range_set = self.range_set or "RANGES"
            self.ranges.setdefault(self.range_set, {})[name] = width

    def add_combination(self, name: str, kind: str, parts: Mapping[str, Number], rhs: Number = 0) -> None:
        "a new row that is a sum of rows before it, each times a multiplier; ValueError where one of them isn't there"
        if missing := next((part for part in parts if part not in self.rows), None):
            raise ValueError(f"there is no row {missing!r}")
        multipliers = {part: exact(times) for part, times in parts.items()}
        self.add_row(name, kind, rhs)
        self.parts[name] = multipliers

    def add_column(self, name: str, entries: Mapping[str, Number], lower: Number | None = 0, upper: Number | None = None) -> None:
        "a new column, with its numbers on rows that are there and are no combinations, and its limits, None for none; ValueError where it can't be"
        if name in self.columns:
            raise ValueError(f"there is a column {name!r} already")
        if wrong := next((row for row in entries if row not in self.rows or row in self.parts), None):
            raise ValueError(f"{wrong!r} is a combination, which has no entries of its own" if wrong in self.parts else f"there is no row {wrong!r}")
        limits = Limits(None if lower is None else exact(lower), None if upper is None else exact(upper))
        self.columns[name] = {row: exact(value) for row, value in entries.items()}
        if (limits.lower, limits.upper) != (Fraction(0), None):
            self.bound_set = self.bound_set or "BOUNDS"
            self.bounds.setdefault(self.bound_set, {})[name] = limits

    # ---- what it says

    def row_limits(self, row: str) -> tuple[Fraction | None, Fraction | None]:
        "the lower and the upper limit of a row, None where it has none"
        kind, limit = self.rows[row], of_set(self.rhs, self.rhs_set).get(row, Fraction(0))
        span = of_set(self.ranges, self.range_set).get(row)
        if kind == "N":
            return None, None
        if kind == "E":
            return limit + min(span or 0, 0), limit + max(span or 0, 0)
        if kind == "L":
            return (None if span is None else limit - abs(span)), limit
        return limit, (None if span is None else limit + abs(span))

    def numbers_of(self, column: str) -> dict[str, Fraction]:
        "the numbers of a column: its entries, and on each combination the sum of its parts, each its multiplier times the number on the part's row"
        return Sums(self).of(column)

    def column_limits(self, column: str) -> tuple[Fraction | None, Fraction | None]:
        "the lower and the upper limit of a column, None where it has none"
        limits = of_set(self.bounds, self.bound_set).get(column, Limits())
        return limits.lower, limits.upper

    def constant_of(self, rhs_set: str | None, row: str) -> Fraction:
        "the constant that a set of RHS gives to an N row"
        return self.constant_sign * of_set(self.rhs, rhs_set).get(row, Fraction(0))

    @property
    def constant(self) -> Fraction:
        "what is added to the objective's activity"
        return self.constant_of(self.rhs_set, self.objective)


class Sums:
    "the numbers of a model's columns, with the sums that they have on combinations"

    def __init__(self, model: Model) -> None:
        self.model = model
        self.users: dict[str, list[int]] = {}
        self.place = {row: k for k, row in enumerate(model.parts)}
        self.rows = list(model.parts)
        for row, parts in model.parts.items():
            for part in parts:
                self.users.setdefault(part, []).append(self.place[row])

    def of(self, column: str) -> dict[str, Fraction]:
        "the entries of a column, and its sums on the combinations that these reach: parts come before them, so sums are taken in that order"
        numbers = dict(self.model.columns[column])
        due = [place for row in numbers for place in self.users.get(row, ())]
        heapq.heapify(due)
        while due:
            row = self.rows[heapq.heappop(due)]
            if row in numbers:
                continue
            parts = self.model.parts[row]
            numbers[row] = sum((times * numbers[part] for part, times in parts.items() if part in numbers), Fraction(0))
            for place in self.users.get(row, ()):
                heapq.heappush(due, place)
        return numbers
