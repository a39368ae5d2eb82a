"""What oracle/listing.py says of a small linear program, checked by the meaning of the words and by another way than the simplex path:
a verdict by a look at every basis, an interval of RANGE by solving the changed program anew at its ends and past them, a parametric run by
the verdicts at its breaks, between them and past its end, a deck that is written out by what it converts to, a basis that DUAL, PUNCH or
INSERT is about by the rows' equations solved anew, the activity of a combination by those of its parts. random_jobs.py --itself runs it.

Where a linear program has a feasible point, it has one at which each nonbasic variable stands at a limit, or at 0 where it has none; and
where it has a best one, one of these is best. It has none where some direction that keeps all limits improves the objective."""
from __future__ import annotations

import copy
import functools
import itertools
import math
from collections.abc import Callable, Collection, Iterator, Mapping, Sequence
from fractions import Fraction
from oracle.bases import stands_for
from oracle.decks import Problem, fields, is_skipped
from oracle.listing import Run
from oracle.tableau import End, LinearProgram, Table, VerbFault

Limit = Fraction | None
Sums = dict[int, dict[int, Fraction]]   # of each basic variable the rates of the nonbasic ones
MOST = 3000
LITTLE, MUCH = Fraction(1, 10**9), Fraction(10**9)


def dictionary(lp: LinearProgram, basics: Collection[int]) -> Sums | None:
    "each basic as a sum of nonbasics, solved from the rows' equations; None where the basics are singular"
    size = lp.m + lp.n
    rows = [[Fraction(-1 if k == i else 0) for k in range(lp.m)] + [entries.get(i, Fraction(0)) for entries in lp.columns] for i in range(lp.m)]
    for place, k in enumerate(basics):
        found = next((at for at in range(place, lp.m) if rows[at][k]), None)
        if found is None:
            return None
        rows[place], rows[found] = rows[found], rows[place]
        pivot = rows[place][k]
        rows[place] = [value / pivot for value in rows[place]]
        for at in range(lp.m):
            if at != place and rows[at][k]:
                factor = rows[at][k]
                rows[at] = [value - factor * other for value, other in zip(rows[at], rows[place])]
    return {k: {j: -rows[place][j] for j in range(size) if j not in basics and rows[place][j]} for place, k in enumerate(basics)}


def nonsingular(lp: LinearProgram, basics: Collection[int]) -> Sums:
    "the same of a basis, which isn't singular"
    sums = dictionary(lp, basics)
    assert sums is not None
    return sums


def ends(lower: Limit, upper: Limit) -> list[Fraction]:
    "where a nonbasic variable may stand"
    return sorted({end for end in (lower, upper) if end is not None}) or [Fraction(0)]


def values(sums: Sums, nonbasic: dict[int, Fraction]) -> dict[int, Fraction]:
    "the activities of all variables, by those of the nonbasic ones"
    return {**nonbasic, **{k: sum((rate * nonbasic[j] for j, rate in line.items()), Fraction(0)) for k, line in sums.items()}}


def is_within(point: Mapping[int, Fraction], lower: Sequence[Limit], upper: Sequence[Limit]) -> bool:
    "whether all activities keep these limits"
    return all((low is None or low <= value) and (high is None or value <= high) for k, value in point.items() for low, high in [(lower[k], upper[k])])


def basic_points(lp: LinearProgram, lower: Sequence[Limit], upper: Sequence[Limit]) -> Iterator[dict[int, Fraction]]:
    "the feasible points at which each nonbasic variable stands at a limit, or at 0"
    size = lp.m + lp.n
    for basics in itertools.combinations(range(size), lp.m):
        sums = dictionary(lp, basics)
        if sums is not None:
            others = [k for k in range(size) if k not in basics]
            for chosen in itertools.product(*(ends(lower[k], upper[k]) for k in others)):
                point = values(sums, dict(zip(others, chosen)))
                if is_within(point, lower, upper):
                    yield point


def is_small(lp: LinearProgram) -> bool:
    "whether all of its bases can be looked at"
    return math.comb(lp.m + lp.n, lp.m) << lp.n <= MOST


def loss(lp: LinearProgram, point: Mapping[int, Fraction] | Sequence[Fraction]) -> Fraction:
    "what is to be made least"
    return -lp.better() * sum((factor * point[row] for row, factor in lp.worth().items()), Fraction(0))


def verdict(lp: LinearProgram) -> str | Fraction:
    "INFEASIBLE, UNBOUNDED, or the activity of what is made best at a best point"
    least = min((loss(lp, point) for point in basic_points(lp, lp.lower, lp.upper)), default=None)
    if least is None:
        return "INFEASIBLE"
    # the directions that keep all limits, cut to moves of at most 1
    lower = [Fraction(-1 if end is None else 0) for end in lp.lower]
    upper = [Fraction(1 if end is None else 0) for end in lp.upper]
    if any(loss(lp, direction) < 0 for direction in basic_points(lp, lower, upper)):
        return "UNBOUNDED"
    return -lp.better() * least


def wrong_prices(lp: LinearProgram, at: Sequence[str], sums: Sums) -> list[int]:
    "the nonbasics with a price that an optimal basis hasn't"
    wrong = []
    for k, code in enumerate(at):
        if code != "BS" and (lp.lower[k] is None or lp.lower[k] != lp.upper[k]):
            price = -lp.better() * sum((factor * sums[row].get(k, 0) for row, factor in lp.worth().items()), Fraction(0))
            if price < 0 and code in ("LL", "FR") or price > 0 and code in ("UL", "FR"):
                wrong.append(k)
    return wrong


def is_optimal(lp: LinearProgram, at: Sequence[str]) -> bool:
    "whether the basis, told by where each variable stands, is optimal, solved anew from the rows' equations"
    basics = [k for k, code in enumerate(at) if code == "BS"]
    sums = nonsingular(lp, basics)
    stands = {k: {"LL": lp.lower[k], "UL": lp.upper[k], "FR": Fraction(0)}[code] or Fraction(0) for k, code in enumerate(at) if code != "BS"}
    if not is_within(values(sums, stands), lp.lower, lp.upper):
        return False
    return not wrong_prices(lp, at, sums)


def with_limit(lp: LinearProgram, k: int, side: str, value: Fraction) -> LinearProgram:
    "the same with another limit on this side, or on both where they are equal"
    changed = copy.copy(lp)
    changed.lower, changed.upper = list(lp.lower), list(lp.upper)
    is_fixed = lp.lower[k] is not None and lp.lower[k] == lp.upper[k]
    if side == "LL" or is_fixed:
        changed.lower[k] = value
    if side == "UL" or is_fixed:
        changed.upper[k] = value
    return changed


def with_cost(lp: LinearProgram, k: int, value: Fraction) -> LinearProgram:
    "the same with another cost of a column"
    changed = copy.copy(lp)
    changed.columns = [dict(entries) for entries in lp.columns]
    changed.columns[k - lp.m][lp.objective] = value
    return changed


def wrong_interval(changed: Callable[[Fraction], LinearProgram], at: Sequence[str], here: Fraction, low: Limit, high: Limit) -> bool:
    "whether the interval isn't just where the basis is optimal; that is an interval, and the present value is in it"
    inside = [here, *(here - MUCH if low is None else low,), *(here + MUCH if high is None else high,)]
    outside = [end + by for end, by in ((low, -LITTLE), (high, LITTLE)) if end is not None]
    return not all(is_optimal(changed(t), at) for t in inside) or any(is_optimal(changed(t), at) for t in outside)


def end_of(word: str) -> Limit:
    "the end of an interval as a listing has it"
    return None if word == "NONE" else Fraction(word)


class Watched(Run):
    "a run that looks at what it says, where its linear program is small enough"
    def __init__(self, text: str) -> None:
        super().__init__(text)
        self.looked = 0
        self.differences: list[str] = []

    def check(self, what: str, holds: bool) -> None:
        "notes a difference where this doesn't hold"
        if not holds:
            self.differences.append(f"{what}, after:\n" + "\n".join(self.lines[-12:]))

    def check_verdict(self, lp: LinearProgram, said: str | Fraction) -> None:
        found = verdict(lp)
        self.check(f"the verdict is {found}, not {said}", found == said)

    def verdict(self, verb: str, end: End, steps: int) -> str:
        mark, lp = super().verdict(verb, end, steps), self.table.lp
        if is_small(lp):
            self.looked += 1
            self.check_verdict(lp, -lp.better() * loss(lp, end[1]) if mark == "OPTIMAL" else mark)
        return mark

    def ranges(self) -> None:
        first, lp, at = len(self.lines), self.lp, self.table.at
        super().ranges()
        self.looked += 1
        section = 0
        for line in self.lines[first + 1:]:
            section += line.startswith("SECTION")
            words = line[15:].split()
            if line.startswith("SECTION"):
                continue
            k, here = int(line[:5]) - 1, Fraction(words[1])
            intervals: list[tuple[Callable[[Fraction], LinearProgram], Fraction, str, str]] = []
            if section in (1, 2) and words[2] != "-":
                intervals.append((functools.partial(with_limit, lp, k, at[k]), here, words[2], words[3]))
            if section in (2, 4):
                cost = Fraction(words[-3])
                self.check(f"the cost of {k + 1}", cost == lp.columns[k - lp.m].get(lp.objective, 0))
                intervals.append((functools.partial(with_cost, lp, k), cost, words[-2], words[-1]))
            if section == 3:
                intervals.append((functools.partial(lp.with_change, k), Fraction(0), words[2], words[3]))
            for changed, present, low, high in intervals:
                self.check(f"the interval of {k + 1} in section {section}", not wrong_interval(changed, at, present, end_of(low), end_of(high)))

    def parametric(self, verb: str) -> End:
        first, start = len(self.lines), self.cells["XPARAM"]
        end = super().parametric(verb)
        lp, told = self.lp, self.lines[first:]
        if end[0] == "OPTIMAL" and is_small(lp):
            self.looked += 1
            if verb == "PARAOBJ":
                program = functools.partial(lp.with_change, lp.names.index(self.cells["XCHROW"]))
            else:
                items = self.problem_set_up().sets["RHS"][self.cells["XCHCOL"]]
                shift = [items.get(name, Fraction(0)) for name in lp.names[:lp.m]] + [Fraction(0)] * lp.n
                program = functools.partial(lp.with_limits, shift)
            self.check_intervals(told, program, start)
        return end

    def solution(self) -> None:
        "the activity of a combination is the sum of its parts' multipliers, each times the activity of the part's row"
        first, problem = len(self.lines), self.problem_set_up()
        super().solution()
        activity = {name: Fraction(line[15:].split()[1]) for name, line in zip(problem.rows, self.lines[first + 3:])}
        for name, parts in problem.parts.items():
            self.looked += 1
            self.check(f"the activity of {name}", activity[name] == sum(times * activity[row] for row, times in parts.items()))

    def punch(self) -> None:
        "the deck that is written converts to its problem, but for columns without entries"
        first = len(self.punched)
        super().punch()
        problem, again = self.filed("XPBNAME"), Problem(self.punched[first:])
        columns = {name: entries for name, entries in again.columns.items() if problem.columns.get(name)}
        wanted = {name: entries for name, entries in problem.columns.items() if entries}
        same = (again.name, again.rows, again.parts, columns, again.sets) == (problem.name, problem.rows, problem.parts, wanted, problem.sets)
        same = same and all(list(again.parts[name]) == list(parts) for name, parts in problem.parts.items())
        self.check("the deck that is written out", same and list(columns) == list(wanted))

    def problem_set_up(self) -> Problem:
        "the problem of the last SETUP"
        assert self.setup is not None
        return self.setup[0]

    def wrong_prices(self) -> list[int]:
        "the nonbasics with wrong prices at the present basis, solved anew"
        return wrong_prices(self.lp, self.table.at, nonsingular(self.lp, [k for k, code in enumerate(self.table.at) if code == "BS"]))

    def dual(self) -> End:
        self.select()
        self.table.take(self.lp)
        wrong = self.wrong_prices()
        self.looked += 1
        try:
            end = super().dual()
        except VerbFault as fault:
            self.check("the first wrong price", fault.more == f" VARIABLE {min(wrong, default=-1) + 1}")
            raise
        self.check("DUAL goes on from wrong prices, or to one", not wrong and not self.wrong_prices() and end[0] != "UNBOUNDED")
        self.check("where DUAL ends", end[0] != "OPTIMAL" or is_optimal(self.lp, self.table.at))
        return end

    def basis_out(self) -> None:
        "a punched deck, read again, stands for the basis"
        first = len(self.punched)
        super().basis_out()
        opening = Table(self.lp).at
        again = stands_for(self.punched[first:], self.lp, opening, is_skipped, fields)
        self.looked += 1
        self.check("the basis deck that is punched", again == self.table.at)

    def insert(self) -> None:
        self.looked += 1
        try:
            super().insert()
        except VerbFault as fault:
            self.check("the dependency", not fault.lines or self.is_dependency(fault.lines))
            raise
        lp, table = self.lp, self.table
        sums = dictionary(lp, [k for k, code in enumerate(table.at) if code == "BS"])
        same = sums is not None and all(line[k] == sums[i].get(k, 0) for i, line in table.rate.items() for k in range(table.size) if k not in sums)
        self.check("the rates of an inserted basis", same and sums is not None and table.rate.keys() == sums.keys())

    def is_dependency(self, lines: Sequence[str]) -> bool:
        "whether a vector keeps the equations, and its last column is what the columns before it make up"
        lp, vector = self.lp, {int(line[:5]) - 1: Fraction(line[15:]) for line in lines}
        columns = [k for k in vector if k >= lp.m]
        keeps = all(vector.get(i, 0) == sum(entries.get(i, 0) * vector.get(lp.m + j, 0) for j, entries in enumerate(lp.columns)) for i in range(lp.m))
        return keeps and bool(columns) and vector[max(columns)] == 1

    def check_intervals(self, told: Sequence[str], program: Callable[[Fraction], LinearProgram], start: Fraction) -> None:
        "looks at a parametric run: its intervals join, each of its points is best, and past its end it is as it says"
        at = start
        for place, line in enumerate(told):
            words = line.split()
            if words[0] == "INTERVAL":
                low, high = Fraction(words[3]), Fraction(words[5])
                self.check("an interval begins where the last one ended", low == at)
                at = high
                table = [[*map(Fraction, entry[18:].split())] for entry in told[place + 1:place + 1 + len(self.lp.names)]]
                for theta in (low, (low + high) / 2, high):
                    lp = program(theta)
                    point = {k: value + theta * rate for k, (value, rate, _, _) in enumerate(table)}
                    self.check(f"the point at {theta}", is_within(point, lp.lower, lp.upper))
                    self.check_verdict(lp, -lp.better() * loss(lp, point))
            elif "PAST" in words:
                self.check("the run ends where its last interval does", Fraction(words[-1] if words[-2] == "PAST" else words[3]) == at)
                for theta in (at + LITTLE, at + 1, at + MUCH):
                    self.check_verdict(program(theta), words[1])
            elif words[1:3] == ["ENDS", "AT"]:
                self.check("the run ends at XPARMAX", Fraction(words[3]) == at == self.cells["XPARMAX"])
