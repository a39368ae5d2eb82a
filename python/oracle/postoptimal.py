"""RANGE, PARAOBJ and PARARHS for oracle/listing.py, worked out apart from the program in exact fractions.

A basis is optimal at a number exactly where finitely many conditions a + number * b >= 0 hold: each basic variable within its limits, each
price right for where its variable stands. So each interval is where all of them hold."""
from __future__ import annotations

from collections.abc import Iterable, Iterator, Mapping, Sequence
from fractions import Fraction
from typing import Any

from oracle.tableau import End, LinearProgram, Table

Condition = tuple[Fraction, Fraction]   # a and b of a + number * b >= 0
Ends = tuple[Fraction | None, Fraction | None]
Cells = list[str | Fraction]            # of a line of a table
# what follows at a break: the end of the run with its vectors, or the variable that leaves, the one that enters, and the limit to which the first goes
Step = tuple[Any, ...]


def shown(value: Fraction | None) -> str:
    return "NONE" if value is None else str(value)


# ---- conditions, each a pair (a, b)

def interval(conditions: Iterable[Condition]) -> Ends:
    "where all of them hold: the ends, None for no end; they hold somewhere"
    conditions = list(conditions)
    lows = [-a / b for a, b in conditions if b > 0]
    highs = [-a / b for a, b in conditions if b < 0]
    return max(lows, default=None), min(highs, default=None)


def within(table: Table, value: list[Fraction], slope: Mapping[int, Fraction] | Sequence[Fraction]) -> Iterator[Condition]:
    "each basic variable lies within its limits, where these rise with the number as slope says of the distances"
    for i in table.rate:
        lower, upper = table.lp.lower[i], table.lp.upper[i]
        if lower is not None:
            yield value[i] - lower, slope[i]
        if upper is not None:
            yield upper - value[i], -slope[i]


def right(table: Table, price: list[Fraction], slope: list[Fraction]) -> Iterator[Condition]:
    "each nonbasic variable that isn't fixed has a price that is right where it stands"
    lp = table.lp
    for k in range(table.size):
        if k not in table.rate and (lp.lower[k] is None or lp.lower[k] != lp.upper[k]):
            if table.at[k] in ("LL", "FR"):
                yield -lp.better() * price[k], -lp.better() * slope[k]
            if table.at[k] in ("UL", "FR"):
                yield lp.better() * price[k], lp.better() * slope[k]


# ---- RANGE

def limit_interval(table: Table, value: list[Fraction], k: int) -> list[Fraction | None]:
    "the least and the greatest value of the limit at which k stands; both of its limits where they are equal"
    here, lower, upper = value[k], table.lp.lower[k], table.lp.upper[k]
    conditions = list(within(table, value, {i: line[k] for i, line in table.rate.items()}))
    if lower is None or lower != upper:
        if table.at[k] == "LL" and upper is not None:
            conditions.append((upper - here, Fraction(-1)))
        if table.at[k] == "UL" and lower is not None:
            conditions.append((here - lower, Fraction(1)))
    return moved(interval(conditions), here)


def moved(ends: Ends, by: Fraction) -> list[Fraction | None]:
    return [end if end is None else end + by for end in ends]


def factor_interval(table: Table, k: int) -> Ends:
    "the factors by which the activity of k may be taken into the objective; for a column that is a change of its cost"
    slope = table.rate[k] if k in table.rate else [Fraction(j == k) for j in range(table.size)]
    return interval(right(table, table.prices(), slope))


def ranges(table: Table) -> Iterator[tuple[str, list[tuple[int, Cells]]]]:
    "the four sections, each with its title and its lines"
    lp, value = table.lp, table.value()
    rows, columns = range(lp.m), range(lp.m, table.size)
    cost = {k: lp.columns[k - lp.m].get(lp.objective, Fraction(0)) for k in columns}

    def line(k: int, *parts: str | Fraction | None) -> tuple[int, Cells]:
        return k, [table.code(k, value), value[k], *(part if isinstance(part, str) else shown(part) for part in parts)]

    yield "SECTION 1 - ROWS AT LIMIT LEVEL", [line(k, *limit_interval(table, value, k)) for k in rows if k not in table.rate]
    yield "SECTION 2 - COLUMNS AT LIMIT LEVEL", [
        line(k, *("--" if table.code(k, value) == "FR" else limit_interval(table, value, k)), cost[k], *moved(factor_interval(table, k), cost[k]))
        for k in columns if k not in table.rate]
    yield "SECTION 3 - ROWS AT INTERMEDIATE LEVEL", [line(k, *factor_interval(table, k)) for k in rows if k in table.rate and k != lp.objective]
    yield "SECTION 4 - COLUMNS AT INTERMEDIATE LEVEL", [line(k, cost[k], *moved(factor_interval(table, k), cost[k])) for k in columns if k in table.rate]


# ---- parametric runs

class OfObjective:
    "theta times a row's activity is added to the objective"
    def __init__(self, lp: LinearProgram, row: int) -> None:
        self.lp, self.row = lp, row

    def program(self, theta: Fraction) -> LinearProgram:
        return self.lp.with_change(self.row, theta)

    def conditions(self, table: Table) -> Iterator[Condition]:
        return right(table, table.prices(), table.rates_of({self.row: Fraction(1)}))

    def lines(self, table: Table) -> list[Cells]:
        value, price, price_rate = table.value(), table.prices(), table.rates_of({self.row: Fraction(1)})
        return [[table.code(k, value), value[k], Fraction(0), price[k], price_rate[k]] for k in range(table.size)]

    def face_step(self, table: Table, theta: Fraction) -> Step | None:
        """what follows at the break: None, the end of the run, or the exchange. The least-numbered nonbasic enters whose combined price is 0 and
        that improves the change row's activity."""
        price, change, better = table.rates_of(self.program(theta).worth()), table.rates_of({self.row: Fraction(1)}), self.lp.better()
        q = table.entering(lambda k: Fraction(0) if price[k] else better * change[k])
        if q is None:
            return None
        up, value = better * change[q] > 0, table.value()
        found = table.leaving(q, up, value)
        if found is None:
            return "UNBOUNDED PAST", value, [speed if up else -speed for speed in table.direction(q)]
        return found[0], q, found[1]


class OfLimits:
    "theta times its value in the change set is added to each limit of a row"
    def __init__(self, lp: LinearProgram, shift: Sequence[Fraction]) -> None:
        self.lp, self.shift = lp, shift

    def program(self, theta: Fraction) -> LinearProgram:
        return self.lp.with_limits(self.shift, theta)

    def affine(self, table: Table) -> tuple[list[Fraction], list[Fraction]]:
        "the activities at 0, and how they rise with theta"
        value = table.value()
        slope = [self.shift[k] if k not in table.rate else Fraction(0) for k in range(table.size)]
        for i, line in table.rate.items():
            slope[i] = sum((line[k] * self.shift[k] for k in range(table.size) if k not in table.rate), Fraction(0))
        return value, slope

    def conditions(self, table: Table) -> Iterator[Condition]:
        value, slope = self.affine(table)
        return within(table, value, [rate - by for rate, by in zip(slope, self.shift)])

    def lines(self, table: Table) -> list[Cells]:
        (value, slope), price = self.affine(table), table.prices()
        return [["BS" if k in table.rate else table.code(k, value), value[k], slope[k], price[k], Fraction(0)] for k in range(table.size)]

    def leaves(self, table: Table, theta: Fraction, i: int) -> str | None:
        "the side on which the basic variable leaves its limits as theta grows, at one of which it stands"
        (value, slope), lp = self.affine(table), self.lp
        here, away = value[i] + theta * slope[i], slope[i] - self.shift[i]
        lower, upper = lp.lower[i], lp.upper[i]
        if lower is not None and here == lower + theta * self.shift[i] and away < 0:
            return "LL"
        if upper is not None and here == upper + theta * self.shift[i] and away > 0:
            return "UL"
        return None

    def face_step(self, table: Table, theta: Fraction) -> Step | None:
        "the least-numbered basic variable leaves that would break a limit; of those that may bring it back the one of the least ratio enters"
        p = next((i for i in range(table.size) if i in table.rate and self.leaves(table, theta, i)), None)
        if p is None:
            return None
        to, line, price = self.leaves(table, theta, p), table.rate[p], table.prices()
        back = 1 if to == "LL" else -1
        ratios = [(abs(price[k] / line[k]), k) for k in range(table.size)
                  if k not in table.rate and line[k] and table.may_move(k, back * line[k] > 0)]
        if not ratios:
            ray = [Fraction(0) if k in table.rate else back * line[k] for k in range(table.size)]
            ray[p] = Fraction(-back)
            return "INFEASIBLE PAST", ray
        return p, min(ratios)[1], to


class ParametricRun:
    "a parametric run over a table, in so many steps at most"
    def __init__(self, table: Table, changes: OfLimits | OfObjective, most: Fraction | None) -> None:
        self.table, self.changes, self.most, self.steps = table, changes, most, 0

    def opening(self, theta: Fraction) -> tuple[End, int]:
        self.table.take(self.changes.program(theta))
        end, self.steps = self.table.path(self.most)
        return end, self.steps

    def intervals(self, first: Fraction, most: Fraction) -> tuple[list[tuple[Fraction, Fraction, list[Cells]]], Step]:
        "the intervals, each with its ends and its table, and how the run ends"
        self.table.take(self.changes.lp)
        parts, theta = [], first
        while True:
            _, high = interval(self.changes.conditions(self.table))
            last = most if high is None or high > most else high
            parts.append((theta, last, self.changes.lines(self.table)))
            if last == most:
                return parts, ("ENDS AT",)
            theta = last
            while step := self.changes.face_step(self.table, theta):
                if isinstance(step[0], str):
                    return parts, step
                if self.steps == self.most:
                    return parts, ("LIMIT", self.most)
                self.table.exchange(*step)
                self.steps += 1
