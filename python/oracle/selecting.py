"The linear program that a selection makes of a problem, with its faults, worked out apart from the programs."
from __future__ import annotations

from collections.abc import Callable
from fractions import Fraction
from typing import Any

from oracle.deck_rules import TOUCHED, Problem
from oracle.rules import Refused, add, multiply, subtract


# ---- the linear program of a selection: variables count from 0, rows before columns

class LinearProgram:
    "the linear program of a selection: limits of all variables, right-hand sides, and of each column its numbers by the numbers of rows"

    def __init__(self, problem: Problem, objective: str | None, rhs: str | None, options: tuple[str | None, str | None, str]) -> None:
        bound, ranges, self.sense = options
        free = [name for name, row in problem.rows.items() if row.kind == "N"]
        chosen = next(iter(free), None) if objective is None else objective
        for number, is_there in ((10, chosen in problem.rows), (11, chosen in free), (12, rhs is None or rhs in problem.rhs),
                                 (13, ranges is None or ranges in problem.ranges), (14, bound is None or bound in problem.bounds)):
            if not is_there:
                raise SelectionFault(number)
        assert chosen is not None
        self.row_names, self.column_names = list(problem.rows), list(problem.columns)
        self.names, self.m, self.n = self.row_names + self.column_names, len(problem.rows), len(problem.columns)
        place, column = ({name: k for k, name in enumerate(names)} for names in (self.row_names, self.column_names))
        self.objective = place[chosen]
        self.change: tuple[int, Fraction] | None = None
        values = problem.rhs[rhs] if rhs is not None else next(iter(problem.rhs.values()), {})
        self.rhs = [values.get(name, Fraction(0)) for name in self.row_names]
        self.is_refused = False
        self.columns = [[(place[name], value) for name, value in entries.items()] + self.sums(problem, place, entries)
                        for entries in problem.columns.values()]
        self.lower: list[Fraction | None] = [*[None] * self.m, *[Fraction(0)] * self.n]
        self.upper: list[Fraction | None] = [None] * (self.m + self.n)
        for k, (name, row) in enumerate(problem.rows.items()):
            self.limit_row(k, row.kind, (problem.ranges[ranges] if ranges is not None else {}).get(name))
        for kind, name, value in problem.bounds[bound] if bound is not None else ():
            k = self.m + column[name]
            if "L" in TOUCHED[kind]:
                self.lower[k] = value
            if "U" in TOUCHED[kind]:
                self.upper[k] = value

    def limit_row(self, k: int, kind: str, over: Fraction | None) -> None:
        "the limits of a row of this type, with a range or none"
        b = self.rhs[k]
        if kind in ("G", "E"):
            self.lower[k] = b
        if kind in ("L", "E"):
            self.upper[k] = b
        if over is None:
            return
        if kind == "L" or kind == "E" and over < 0:
            self.lower[k] = self.made(subtract, b, abs(over))
        else:
            self.upper[k] = self.made(add, b, abs(over))

    def sums(self, problem: Problem, place: dict[str, int], entries: dict[str, Fraction]) -> list[tuple[int, Fraction]]:
        "what a column of these entries has on the combinations: a number on each of which a part stands on a row where the column has one"
        has, sums = dict(entries), []
        for name, row in problem.rows.items():
            met = [(times, has[part]) for part, times in (row.parts or {}).items() if part in has]
            if met:
                has[name] = Fraction(0)
                for times, number in met:
                    has[name] = self.made(add, has[name], self.made(multiply, times, number))
                sums.append((place[name], has[name]))
        return sums

    def made(self, operation: Callable[[Fraction, Fraction], Fraction], x: Fraction, y: Fraction) -> Fraction:
        "an operation of the selection; where one is refused, the linear program is refused"
        try:
            return operation(x, y)
        except Refused:
            self.is_refused = True
            return Fraction(0)

    def with_(self, **changes: Any) -> LinearProgram:
        "the same with other attributes"
        other = object.__new__(LinearProgram)
        other.__dict__.update(self.__dict__, **changes)
        return other


class SelectionFault(Exception):
    "a selection that has a fault, with the number of the verb fault"
