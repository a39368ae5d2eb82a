"What a listing claims, as it is read and as the checks test it: by a checker of 128 bits, or by one of any length."
from __future__ import annotations

import operator
import re
from collections.abc import Callable, Iterable, Sequence
from dataclasses import dataclass
from fractions import Fraction
from math import gcd
from typing import Any

from oracle.rules import GREATEST, Refused, add, multiply
from oracle.selecting import LinearProgram

MOST_LISTING, MOST_STATEMENTS = 64_000_000, 100_000
ATTESTED, WRONG, OPEN, UNCHECKED, LONG = 0, 40, 41, 42, 43
DEFAULTS = {"XPARAM": Fraction(0)}
DEMAND_OF = {"INFEASIBLE": "XDONFS", "UNBOUNDED": "XDOUNB"}
# a count has no more
MOST_COUNT_DIGITS = 20
# a fraction as it is written, but for lowest terms
FRACTION = re.compile(r"-?(0|[1-9]\d*)(?:/([1-9]\d*))?", re.ASCII)
OPERATIONS = ("ADD", "SUB", "MUL", "DIV")
# stops whose cause needs a path, a basis or a device: # is a count, / a fraction, ! an operation
OPEN_STOPS = ("STOP 16 ITERATION LIMIT # CARD #", "STOP 24 READ FAULT", "STOP 26 PUNCH FAULT", "STOP 28 MEMORY", "STOP 10 VERB FAULT 15 CARD #",
              "STOP 10 VERB FAULT 16 CARD # VARIABLE #", "STOP 20 OVERFLOW F# ! / / P # Q # I # J # TERM # THETA / CARD #")


@dataclass(frozen=True)
class Checker:
    """what a checker does otherwise than another: how great the terms of a number may be that it reads, and by which operations it tests; from how many
    digits above or below the line on a number isn't read for its value; whether CHECKED alone may stand with a verdict. None is without an end."""
    greatest: int | None
    most_digits: int | None
    add: Callable[[Fraction, Fraction], Fraction]
    multiply: Callable[[Fraction, Fraction], Fraction]
    asks_checked: bool

    def subtract(self, x: Fraction, y: Fraction) -> Fraction:
        return self.add(x, -y)

    def takes(self, says_checked: bool) -> bool:
        "whether a verdict may be printed with the word CHECKED, or with the other one"
        return says_checked or not self.asks_checked


OF_128_BITS = Checker(GREATEST, None, add, multiply, True)
OF_ANY_LENGTH = Checker(None, 100_000, operator.add, operator.mul, False)
# more digits than a fraction of 128 bits has
LONGER_THAN_128_BITS = 40


class Found(Exception):
    "the end of the walk: a status, and a line or the number of reports"
    def __init__(self, status: int, number: int) -> None:
        super().__init__(status, number)
        self.status, self.number = status, number


class Misses(Exception):
    "what is due isn't of its form, or fails a test"


def ask(holds: object) -> None:
    "Misses where this doesn't hold"
    if not holds:
        raise Misses


# ---- reading: lines of the listing, and words of a line

class Listing:
    "the lines of a listing, and the next one"
    def __init__(self, text: str) -> None:
        self.lines, self.at = text.split("\n"), 0
        self.last = self.lines.pop()
        self.has_part = bool(self.last)

    def line(self) -> int:
        "the number of the next line"
        return self.at + 1

    def peek(self) -> str | None:
        "the next line; None at the end, and of a line without its line feed"
        return self.lines[self.at] if self.at < len(self.lines) else None

    def take(self) -> str:
        line = self.peek()
        if line is None:
            raise Misses
        self.at += 1
        return line

    def is_over(self) -> bool:
        return self.at == len(self.lines) and not self.has_part


class Reader:
    "reads the numbers of a report, and knows whether one was too long to be read"
    def __init__(self, checker: Checker) -> None:
        self.checker, self.has_long = checker, False

    def fraction(self, word: str) -> Fraction:
        "a fraction as it is written in lowest terms. One that is too long may stand wherever another may, and is taken for 1"
        found = FRACTION.fullmatch(word)
        ask(found)
        assert found is not None
        top, bottom = found[1], found[2] or "1"
        digits, checker = max(len(top), len(bottom)), self.checker
        if checker.most_digits is not None and top != "0" and digits > checker.most_digits:
            self.has_long = True
            return Fraction(1)
        ask(checker.greatest is None or digits < LONGER_THAN_128_BITS)
        below = int(bottom)
        value = Fraction(int(top), below)
        ask(value.denominator == below and word[:2] != "-0" and found[2] != "1")
        ask(checker.greatest is None or max(value.numerator, below) <= checker.greatest)
        return -value if word[0] == "-" else value

    def refuse_long(self) -> None:
        "Refused where a number was too long"
        if self.has_long:
            raise Refused


def fraction(word: str) -> Fraction:
    "a fraction of 128 bits, as a run prints it, whatever the checker"
    return Reader(OF_128_BITS).fraction(word)


def count(word: str, most: int = 2 ** 32 - 1) -> int:
    ask(len(word) <= MOST_COUNT_DIGITS and re.fullmatch(r"0|[1-9]\d*", word, re.ASCII) and int(word) <= most)
    return int(word)


def is_open_stop(line: str) -> bool:
    "whether a line is the first one of a stop text that can't be attested"
    return any(has_form(line.split(" "), form.split(" ")) for form in OPEN_STOPS)


def has_form(words: list[str], form: list[str]) -> bool:
    "whether words are of a form: # stands for a count, / for a fraction, ! for an operation"
    try:
        ask(len(words) == len(form))
        for word, piece in zip(words, form):
            if piece.endswith("#"):
                ask(word.startswith(piece[:-1]))
                count(word[len(piece) - 1:])
            elif piece == "/":
                fraction(word)
            else:
                ask(word in OPERATIONS if piece == "!" else word == piece)
    except Misses:
        return False
    return True


def is_checked(words: list[str]) -> bool:
    "whether the words at the end of a verdict say CHECKED; the other form names an operation and its operands"
    if words == ["CHECKED"]:
        return True
    ask(len(words) == 4 and words[0] == "UNCHECKED" and words[1] in OPERATIONS)
    for word in words[2:]:
        fraction(word)
    return False


def shown(value: Fraction | None) -> str:
    return "NONE" if value is None else str(value)


class Sheet:
    "a linear program whose table lines are read"
    def __init__(self, lp: LinearProgram, reader: Reader) -> None:
        self.lp, self.size, self.reader = lp, lp.m + lp.n, reader

    def head(self, k: int) -> str:
        return f"{k + 1:5} {self.lp.names[k]:<8} "

    def values(self, line: str, k: int) -> list[str]:
        "the words behind the head of a variable's line"
        ask(line.startswith(self.head(k)))
        return line[len(self.head(k)):].split(" ")

    def table(self, listing: Listing, *kinds: int | None) -> list[list[Any]]:
        "a line for each variable: an AT code for a kind of None, and a number for one of 0; the columns of numbers"
        lines = []
        for k in range(self.size):
            words = self.values(listing.take(), k)
            ask(len(words) == len(kinds))
            lines.append([read_code(word) if kind is None else self.reader.fraction(word) for kind, word in zip(kinds, words)])
        return [list(column) for column in zip(*lines)] if lines else [[] for _ in kinds]

    def ray(self, listing: Listing) -> list[Fraction]:
        "the lines of a ray, ascending, each with a number other than 0; no other table line may follow"
        ray = [Fraction(0)] * self.size
        for k in range(self.size):
            line = listing.peek()
            if line is None or not line.startswith(self.head(k)):
                continue
            words = self.values(listing.take(), k)
            ask(len(words) == 1)
            ray[k] = self.reader.fraction(words[0])
            ask(ray[k])
        ask(not re.match(r" *\d+ ", listing.peek() or ""))
        return ray


def read_code(word: str) -> str:
    ask(word in ("BS", "**", "EQ", "LL", "UL", "FR"))
    return word


# ---- the sums of the checks

def total(by: Checker, start: Fraction, products: Iterable[tuple[Fraction, Fraction]]) -> Fraction:
    if by.greatest is None:
        return total_of_any_length(start, products)
    for x, y in products:
        start = by.add(start, by.multiply(x, y))
    return start


def total_of_any_length(start: Fraction, products: Iterable[tuple[Fraction, Fraction]]) -> Fraction:
    "the same where no operation is refused: over one common denominator, and reduced at the end alone"
    above, below = start.numerator, start.denominator
    for x, y in products:
        top, bottom = x.numerator * y.numerator, x.denominator * y.denominator
        if bottom != below:
            common = gcd(bottom, below)
            above, top, below = above * (bottom // common), top * (below // common), below * (bottom // common)
        above += top
    return Fraction(above, below)


def check_equations(by: Checker, lp: LinearProgram, point: Sequence[Fraction]) -> None:
    rows: list[list[tuple[Fraction, Fraction]]] = [[] for _ in range(lp.m)]
    for j, entries in enumerate(lp.columns):
        for i, value in entries:
            rows[i].append((value, point[lp.m + j]))
    for i, products in enumerate(rows):
        ask(total(by, Fraction(0), products) == point[i])


def check_limits(lp: LinearProgram, point: Sequence[Fraction]) -> None:
    for value, lower, upper in zip(point, lp.lower, lp.upper):
        ask((lower is None or value >= lower) and (upper is None or value <= upper))


def cost(by: Checker, lp: LinearProgram, entries: list[tuple[int, Fraction]]) -> Fraction:
    "the cost of a column"
    own = dict(entries)
    if not lp.change:
        return own.get(lp.objective, Fraction(0))
    row, theta = lp.change
    return by.add(own.get(lp.objective, Fraction(0)), by.multiply(theta, own.get(row, Fraction(0))))


def check_prices(by: Checker, lp: LinearProgram, prices: Sequence[Fraction]) -> None:
    for j, entries in enumerate(lp.columns):
        worth = cost(by, lp, entries)
        ask(by.subtract(worth, total(by, Fraction(0), ((prices[i], value) for i, value in entries))) == prices[lp.m + j])


def for_min(lp: LinearProgram, price: Fraction) -> Fraction:
    return price if lp.sense == "MIN" else -price


def check_optimal(by: Checker, lp: LinearProgram, point: Sequence[Fraction], prices: Sequence[Fraction]) -> None:
    check_equations(by, lp, point)
    check_limits(lp, point)
    check_prices(by, lp, prices)
    for k, price in enumerate(prices):
        ask(not price or point[k] == (lp.lower if for_min(lp, price) > 0 else lp.upper)[k])


def check_crossed(lp: LinearProgram, k: int) -> None:
    lower, upper = lp.lower[k], lp.upper[k]
    ask(lower is not None and upper is not None and lower > upper)


def ray_sum(by: Checker, lp: LinearProgram, ray: Sequence[Fraction]) -> Fraction:
    "the sum of the multipliers, each times its limit, after the tests of the columns and of the limits"
    for j, entries in enumerate(lp.columns):
        ask(total(by, ray[lp.m + j], ((ray[i], value) for i, value in entries)) == 0)
    whole = Fraction(0)
    for k, factor in enumerate(ray):
        if factor:
            limit = (lp.upper if factor > 0 else lp.lower)[k]
            if limit is None:
                raise Misses
            whole = by.add(whole, by.multiply(factor, limit))
    return whole


def check_direction(by: Checker, lp: LinearProgram, point: Sequence[Fraction], direction: Sequence[Fraction]) -> None:
    "a feasible point, and a direction that keeps all limits"
    check_equations(by, lp, point)
    check_limits(lp, point)
    check_equations(by, lp, direction)
    for k, moves in enumerate(direction):
        ask(not moves or (lp.lower if moves < 0 else lp.upper)[k] is None)


def worth_of(by: Checker, lp: LinearProgram, direction: Sequence[Fraction]) -> Fraction:
    "what the objective gains along a direction, counted for MIN"
    worth = direction[lp.objective]
    if lp.change:
        worth = by.add(worth, by.multiply(lp.change[1], direction[lp.change[0]]))
    return for_min(lp, worth)


# ---- parametric runs

class Changing:
    "the linear programs of a parametric run: the objective with theta times a row, or the limits with theta times the rows' shifts"
    def __init__(self, by: Checker, lp: LinearProgram, row: int | None = None, shift: Sequence[Fraction] | None = None) -> None:
        self.by, self.lp, self.row, self.shift = by, lp, row, shift

    def at(self, theta: Fraction) -> LinearProgram:
        "the linear program at a parameter"
        if self.row is not None:
            return self.lp.with_(change=(self.row, theta))
        lower, upper = list(self.lp.lower), list(self.lp.upper)
        for i, moves in enumerate(self.shift or ()):
            for limits in (lower, upper):
                limit = limits[i]
                if limit is not None:
                    limits[i] = self.by.add(limit, self.by.multiply(theta, moves))
        return self.lp.with_(lower=lower, upper=upper)

    def along(self, theta: Fraction, values: list[Fraction], rates: list[Fraction]) -> list[Fraction]:
        "the values at a parameter, each with theta times its rate"
        return [self.by.add(value, self.by.multiply(theta, rate)) for value, rate in zip(values, rates)]


def check_interval(changing: Changing, is_first: bool, first: Fraction, last: Fraction, most: Fraction, columns: list[list[Any]]) -> None:
    "tests an interval of a parametric run: at both ends its plan is best, and its prices are right at both"
    ask(first < last or is_first and first == last)
    ask(last <= most)
    ends = []
    for theta in (first, last):
        lp = changing.at(theta)
        point, prices = changing.along(theta, columns[1], columns[2]), changing.along(theta, columns[3], columns[4])
        check_optimal(changing.by, lp, point, prices)
        ends.append((lp, point, prices))
    for _, _, prices in ends:
        for k, price in enumerate(prices):
            if price:
                ask(all(point[k] == (lp.lower if for_min(lp, price) > 0 else lp.upper)[k] for lp, point, _ in ends))


# ---- verdicts

@dataclass
class Claim:
    "a verdict as it is read, or a SOLUTION OPTIMAL: its kind, whether its word is CHECKED, and its numbers"
    kind: str
    is_checked: bool
    objective: Fraction | None = None
    crossed: int | None = None
    ray: Sequence[Fraction] = ()
    point: Sequence[Fraction] = ()
    direction: Sequence[Fraction] = ()
    prices: Sequence[Fraction] | None = None

    def test(self, by: Checker, lp: LinearProgram) -> None:
        "the test of its proof; an optimal one is tested at SOLUTION"
        if self.kind == "OPTIMAL":
            return
        if self.crossed is not None:
            check_crossed(lp, self.crossed)
        elif self.kind == "INFEASIBLE":
            ask(ray_sum(by, lp, self.ray) < 0)
        else:
            check_direction(by, lp, self.point, self.direction)
            ask(worth_of(by, lp, self.direction) < 0)
            ask(self.objective == self.point[lp.objective])
        ask(by.takes(self.is_checked))
