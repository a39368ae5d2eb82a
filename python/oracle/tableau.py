"Linear programs in exact fractions, and bases with their tables: the simplex method of the listings that are worked out apart."
from __future__ import annotations

import copy
from collections.abc import Callable, Sequence
from fractions import Fraction
from typing import TYPE_CHECKING, Any

from oracle.rules import Refused, add, multiply, subtract

if TYPE_CHECKING:
    from oracle.decks import Problem

Operation = Callable[[Fraction, Fraction], Fraction]
# how a path ends: CROSSED and the variable; RAY and its factors; OPTIMAL and the values; UNBOUNDED, the values and the direction; LIMIT and the steps
End = tuple[Any, ...]


class VerbFault(Exception):
    "a statement that can't be done, with the number of its fault, what follows on its line, and the lines after that"
    def __init__(self, number: int, more: str = "", lines: Sequence[str] = ()) -> None:
        super().__init__(number)
        self.more, self.lines = more, lines


class Overflow(Exception):
    "an operation of a selection which doesn't fit 127 bits: its formula, the operation and its operands, and the numbers I, J and TERM"
    def __init__(self, formula: int, operation: str, left: Fraction, right: Fraction, i: int, j: int, term: int) -> None:
        super().__init__(f"F{formula} {operation} {left} {right} P 0 Q 0 I {i} J {j} TERM {term} THETA 0")


def is_refused(operation: Operation, left: Fraction, right: Fraction) -> bool:
    try:
        operation(left, right)
    except Refused:
        return True
    return False


# ---- a linear program: variables are numbered from 0, rows before columns

class LinearProgram:
    "the linear program that a selection makes of a problem"

    def __init__(self, problem: Problem, objective: str | None, rhs: str | None, options: dict[str, str | None]) -> None:
        self.names = [*problem.rows, *problem.columns]
        self.m, self.n = len(problem.rows), len(problem.columns)
        place = {name: k for k, name in enumerate(problem.rows)}
        free = [name for name, kind in problem.rows.items() if kind == "N"]
        chosen = next(iter(free), None) if objective is None else objective
        sets = problem.sets["RHS"]
        for fault, is_there in ((10, chosen in problem.rows), (11, chosen in free), (12, rhs is None or rhs in sets),
                                (13, options["range"] is None or options["range"] in problem.sets["RANGES"]),
                                (14, options["bound"] is None or options["bound"] in problem.sets["BOUNDS"])):
            if not is_there:
                raise VerbFault(fault)
        assert chosen is not None
        self.objective, self.sense = place[chosen], options["sense"]
        self.change: tuple[int, Fraction] | None = None
        values = sets[rhs] if rhs is not None else next(iter(sets.values()), {})
        self.rhs = [values.get(name, Fraction(0)) for name in problem.rows]
        ranges = problem.sets["RANGES"][options["range"]] if options["range"] is not None else {}
        self.columns = [{place[row]: value for row, value in problem.summed(column).items()} for column in problem.columns]
        self.lower: list[Fraction | None] = [*[None] * self.m, *[Fraction(0)] * self.n]
        self.upper: list[Fraction | None] = [None] * (self.m + self.n)
        self.test_ranges(problem, ranges)
        self.test_combinations(problem)
        self.limit_rows(problem, ranges)
        self.limit_columns(problem, problem.sets["BOUNDS"][options["bound"]] if options["bound"] is not None else [])

    def limit_rows(self, problem: Problem, ranges: dict[str, Fraction]) -> None:
        "the limits of the rows, by their types, right-hand sides and ranges"
        for k, (name, kind) in enumerate(problem.rows.items()):
            b = self.rhs[k]
            if kind in "GE":
                self.lower[k] = b
            if kind in "LE":
                self.upper[k] = b
            if name in ranges:
                r = ranges[name]
                if kind == "L" or kind == "E" and r < 0:
                    self.lower[k] = b - abs(r)
                else:
                    self.upper[k] = b + abs(r)

    def limit_columns(self, problem: Problem, bounds: list[tuple[str, str, Fraction | None]]) -> None:
        "the limits of the columns, by the bounds: each has a type, a column and a number"
        number_of = {name: self.m + k for k, name in enumerate(problem.columns)}
        for kind, name, value in bounds:
            k = number_of[name]
            if kind in ("LO", "FX", "FR", "MI"):
                self.lower[k] = value if kind in ("LO", "FX") else None
            if kind in ("UP", "FX", "FR", "PL"):
                self.upper[k] = value if kind in ("UP", "FX") else None

    def test_ranges(self, problem: Problem, ranges: dict[str, Fraction]) -> None:
        "Overflow where a limit, made of a right-hand side and a range, doesn't fit"
        for k, (name, kind) in enumerate(problem.rows.items()):
            if name in ranges:
                falls = kind == "L" or kind == "E" and ranges[name] < 0
                operands = self.rhs[k], abs(ranges[name])
                if is_refused(subtract if falls else add, *operands):
                    raise Overflow(13, "SUB" if falls else "ADD", *operands, k + 1, 0, 0)

    def test_combinations(self, problem: Problem) -> None:
        "Overflow where the sum of a combination in a column has a product that doesn't fit, or doesn't fit after a part that counts"
        for j, column in enumerate(problem.columns, self.m + 1):
            numbers = problem.summed(column)
            for i, name in enumerate(problem.rows, 1):
                met = [(times, numbers[row]) for row, times in problem.parts.get(name, {}).items() if row in numbers]
                before = Fraction(0)
                for term, factors in enumerate(met):
                    if is_refused(multiply, *factors):
                        raise Overflow(19, "MUL", *factors, i, j, term)
                    product = factors[0] * factors[1]
                    if is_refused(add, before, product):
                        raise Overflow(19, "ADD", before, product, i, j, term)
                    before += product

    def crossed(self) -> int | None:
        "the least-numbered variable whose lower limit is above its upper one"
        return next((k for k, (low, high) in enumerate(zip(self.lower, self.upper)) if low is not None and high is not None and low > high), None)

    def better(self) -> int:
        "1 where the objective is to rise, -1 where it is to fall"
        return 1 if self.sense == "MAX" else -1

    def worth(self) -> dict[int, Fraction]:
        "the rows that are made best, each with its factor: the objective, and a change row where there is one"
        rows = {self.objective: Fraction(1)}
        if self.change:
            row, theta = self.change
            rows[row] = rows.get(row, Fraction(0)) + theta
        return rows

    def with_change(self, row: int, theta: Fraction) -> LinearProgram:
        "the same with theta times a row's activity added to the objective"
        changed = copy.copy(self)
        changed.change = row, theta
        return changed

    def with_limits(self, shift: Sequence[Fraction], theta: Fraction) -> LinearProgram:
        "the same with theta times its shift added to each limit"
        changed = copy.copy(self)
        changed.lower, changed.upper = ([end if end is None else end + theta * by for end, by in zip(ends, shift)] for ends in (self.lower, self.upper))
        return changed


# ---- a basis, with its table: each basic as a sum of nonbasics

class Table:
    "a basis: where each variable stands, and each basic one as a sum of nonbasic ones"

    def __init__(self, lp: LinearProgram) -> None:
        size = lp.m + lp.n
        self.lp, self.size = lp, size
        self.rate = {i: [Fraction(0)] * size for i in range(lp.m)}
        for j, entries in enumerate(lp.columns):
            for i, value in entries.items():
                self.rate[i][lp.m + j] = value
        self.at = ["BS"] * lp.m + ["LL" if lp.lower[k] is not None else "UL" if lp.upper[k] is not None else "FR"
                                   for k in range(lp.m, size)]

    def take(self, lp: LinearProgram) -> None:
        "the same basis, for other limits, right-hand sides or another objective"
        self.lp = lp

    def value(self) -> list[Fraction]:
        lp, value = self.lp, [Fraction(0)] * self.size
        for k in range(self.size):
            if k not in self.rate:
                value[k] = {"LL": lp.lower[k], "UL": lp.upper[k], "FR": Fraction(0)}[self.at[k]] or Fraction(0)
        for i, line in self.rate.items():
            value[i] = sum((line[k] * value[k] for k in range(self.size) if k not in self.rate and line[k]), Fraction(0))
        return value

    def rates_of(self, rows: dict[int, Fraction]) -> list[Fraction]:
        "the rates of a sum of basic rows, each with its factor, at each nonbasic variable"
        return [Fraction(0) if k in self.rate else sum((factor * self.rate[row][k] for row, factor in rows.items()), Fraction(0))
                for k in range(self.size)]

    def prices(self) -> list[Fraction]:
        return self.rates_of({self.lp.objective: Fraction(1)})

    def is_outside(self, k: int, value: list[Fraction]) -> str | None:
        lp = self.lp
        lower, upper = lp.lower[k], lp.upper[k]
        if lower is not None and value[k] < lower:
            return "below"
        if upper is not None and value[k] > upper:
            return "above"
        return None

    def first_outside(self, value: list[Fraction]) -> int | None:
        "the least-numbered basic outside its limits"
        return next((k for k in range(self.size) if k in self.rate and self.is_outside(k, value)), None)

    def ray(self, p: int, below: bool) -> list[Fraction]:
        "the factors by which the limits of p and of the nonbasics conflict"
        ray = [Fraction(0) if k in self.rate else rate if below else -rate for k, rate in enumerate(self.rate[p])]
        ray[p] = Fraction(-1 if below else 1)
        return ray

    def may_move(self, k: int, up: bool) -> bool:
        lp = self.lp
        if k in self.rate or lp.lower[k] is not None and lp.lower[k] == lp.upper[k]:
            return False
        return self.at[k] in (("LL", "FR") if up else ("UL", "FR"))

    def entering(self, wish: Callable[[int], Fraction]) -> int | None:
        "the least-numbered nonbasic that may move so that what has these rates rises"
        for k in range(self.size):
            if k not in self.rate and wish(k) and self.may_move(k, wish(k) > 0):
                return k
        return None

    def direction(self, q: int) -> list[Fraction]:
        direction = [Fraction(0)] * self.size
        direction[q] = Fraction(1)
        for i, line in self.rate.items():
            direction[i] = line[q]
        return direction

    def leaving(self, q: int, up: bool, value: list[Fraction]) -> tuple[int, str] | None:
        "the least-numbered of those that stop q first, and the limit to which it goes"
        best, lp = None, self.lp
        for k, speed in enumerate(self.direction(q)):
            speed = speed if up else -speed
            limit = lp.upper[k] if speed > 0 else lp.lower[k] if speed < 0 else None
            if limit is not None and (k == q or k in self.rate):
                room = (limit - value[k]) / speed
                if best is None or room < best[0]:
                    best = room, k, "UL" if speed > 0 else "LL"
        return best and best[1:]

    def exchange(self, p: int, q: int, to: str) -> None:
        "p leaves the basis to this limit, and q comes into it; where they are the same it goes to its other limit"
        self.at[p] = to
        if p == q:
            return
        self.at[q] = "BS"
        line = self.rate.pop(p)
        pivot = line[q]
        new = [-x / pivot for x in line]
        new[q], new[p] = Fraction(0), 1 / pivot
        for other in self.rate.values():
            factor, other[q] = other[q], Fraction(0)
            if factor:
                for k in range(self.size):
                    if new[k]:
                        other[k] += factor * new[k]
        self.rate[q] = new

    def path(self, most: Fraction | None) -> tuple[End, int]:
        "the end of the path and the number of steps"
        lp, steps, crossed = self.lp, 0, self.lp.crossed()
        if crossed is not None:
            return ("CROSSED", crossed), steps
        while True:
            value = self.value()
            p = self.first_outside(value)
            if p is not None:
                below = self.is_outside(p, value) == "below"
                line = self.rate[p]
                q = self.entering(lambda k: line[k] if below else -line[k])
                if q is None:
                    return ("RAY", self.ray(p, below)), steps
                to = "LL" if below else "UL"
            else:
                line, better = self.rates_of(lp.worth()), lp.better()
                q = self.entering(lambda k: better * line[k])
                if q is None:
                    return ("OPTIMAL", value), steps
                up = better * line[q] > 0
                found = self.leaving(q, up, value)
                if found is None:
                    direction = self.direction(q)
                    return ("UNBOUNDED", value, direction if up else [-x for x in direction]), steps
                p, to = found
            if steps == most:
                return ("LIMIT", most), steps
            self.exchange(p, q, to)
            steps += 1

    def code(self, k: int, value: list[Fraction]) -> str:
        lp = self.lp
        if k in self.rate:
            return "**" if self.is_outside(k, value) else "BS"
        return "EQ" if lp.lower[k] is not None and lp.lower[k] == lp.upper[k] else self.at[k]
