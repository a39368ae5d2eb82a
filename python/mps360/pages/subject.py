"A linear program as a page speaks of it: by the modeller's names, with the limits of the file, and what the units of its rows and columns are."
from __future__ import annotations

import functools
from collections.abc import Iterable, Mapping
from dataclasses import dataclass, field
from fractions import Fraction
from typing import Any

from mps360.jobs.selection import LinearProgram
from mps360.listings import restore
from mps360.listings.read import Line
from mps360.pages.markup import Html, joined, tag

Limits = tuple[Fraction | None, Fraction | None]


@dataclass(frozen=True)
class Naming:
    "from names of a job to the modeller's, of rows and of columns; units by either name; and of a job with long numbers what was moved in it"
    rows: Mapping[str, str] = field(default_factory=dict)
    columns: Mapping[str, str] = field(default_factory=dict)
    units: Mapping[str, str] = field(default_factory=dict)
    moved: restore.Table | None = None

    @classmethod
    def of(cls, table: Mapping[str, Any], units: Mapping[str, str]) -> Naming:
        "of a table of names, and the units of the job's own remarks"
        rows, columns = (dict(table.get(key, {})) for key in ("rows", "columns"))
        long = {name: unit for short, unit in units.items() for names in (rows, columns) if (name := names.get(short))}
        own = table.get("units", {})
        return cls(rows, columns, {**units, **long, **(own if isinstance(own, dict) else {})}, restore.Table(table["long"]) if "long" in table else None)

    def unit(self, name: str) -> str:
        "the unit of a row or column, empty where the file says none"
        return self.units.get(name, "")

    def name_cell(self, line: Line) -> str:
        "the name of a line of a table, with its unit"
        unit = self.unit(line["name"])
        return joined([line["name"], " ", tag("span", unit, class_="unit")]) if unit else str(line["name"])


@dataclass(frozen=True)
class Subject:
    "a linear program by the modeller's names; variables are numbered from 0, rows before columns"
    program: LinearProgram
    naming: Naming

    def name(self, place: int) -> str:
        "the modeller's name of a variable"
        name = self.program.names[place]
        return (self.naming.rows if place < self.program.m else self.naming.columns).get(name, name)

    def limits(self, place: int) -> Limits:
        "the lower and the upper limit of a variable, as the file has them"
        moved = self.naming.moved.limits(place + 1) if self.naming.moved else None
        return moved or (self.program.lower[place], self.program.upper[place])

    @property
    def objective(self) -> str:
        "the objective's name"
        return self.name(self.program.objective)

    @functools.cached_property
    def columns(self) -> dict[int, dict[int, Fraction]]:
        """from the numbers of columns among the columns to their entries by the numbers of rows. Sums of combinations are entries, so these are the
        file's, also where a job has long numbers dealt out; columns that were added for that are left out"""
        added = self.naming.moved.added if self.naming.moved else frozenset()
        return {k: entries for k, entries in enumerate(self.program.columns) if self.program.names[self.program.m + k] not in added}

    def in_columns(self, places: Iterable[int]) -> dict[int, dict[int, Fraction]]:
        "each of these variables as a sum of columns: the factors by the columns' numbers among the columns"
        wanted: dict[int, dict[int, Fraction]] = {place: {} for place in places}
        for place, terms in wanted.items():
            if place >= self.program.m:
                terms[place - self.program.m] = Fraction(1)
        for column, entries in self.columns.items():
            for row, value in entries.items():
                if value and row in wanted:
                    wanted[row][column] = value
        return wanted

    def column_name(self, column: int) -> str:
        "the modeller's name of a column by its number among the columns"
        return self.name(self.program.m + column)


def unit_span(unit: str) -> Html:
    "a unit behind a number"
    return joined([" ", tag("span", unit, class_="unit")]) if unit else Html("")
