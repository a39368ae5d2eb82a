"""The steps and the objective of the path of the transportation problem of N sources and N destinations, or of the problem of N queens, as
dev/bench/bench_path.sh makes them, by Python's exact fractions: the bounded simplex method with the least-index rule over a table,
written apart from the program.
Usage: dev/oracle transport [queens] N. The transportation problem takes a second for 20 and half a minute for 60."""
from __future__ import annotations

import sys
from collections.abc import Callable, Iterator
from fractions import Fraction

Number = int | Fraction
Limits = list[int | None]
# the entries of each column by the numbers of rows, of which 0 is the cost, and the lower and upper limits of the other rows
Made = tuple[list[dict[int, int]], Limits, Limits]


def transportation(n: int) -> Made:
    "each source has 10 to send, and each destination wants 10"
    columns = [{0: (7 * i + 11 * j) % 19 + 1, i: 1, n + j: 1} for i in range(1, n + 1) for j in range(1, n + 1)]
    return columns, [None] * n + [10] * n, [*[10] * n, *[None] * n]


def queens(n: int) -> Made:
    "each row and each file of a board has one queen, and each diagonal of two squares or more at most one"
    lines = 2 * n - 3
    columns = []
    for i in range(n):
        for j in range(n):
            column = {0: (3 * i + 5 * j) % 7, 1 + 2 * i: 1, 2 + 2 * j: 1}
            for half, d in enumerate((i + j, i - j + n - 1)):
                if 1 <= d <= lines:
                    column[2 * n + 2 * d - 1 + half] = 1
            columns.append(column)
    return columns, [*[1] * 2 * n, *[None] * 2 * lines], [1] * (2 * n + 2 * lines)


def plain(x: Number) -> Number:
    "a whole number as int, which is faster"
    return x.numerator if isinstance(x, Fraction) and x.denominator == 1 else x


class Simplex:
    "a basis of a problem; each line of its table gives a basic as a sum of nonbasics, and variables are numbered from 0, rows before columns"

    def __init__(self, made: Made) -> None:
        entries, row_lower, row_upper = made
        self.rows = len(row_lower) + 1
        self.size = self.rows + len(entries)
        self.table: list[list[Number]] = [[0] * self.size for _ in range(self.rows)]
        for j, column in enumerate(entries, self.rows):
            for i, number in column.items():
                self.table[i][j] = number
        self.lower: Limits = [None, *row_lower, *[0] * len(entries)]
        self.upper: Limits = [None, *row_upper, *[None] * len(entries)]
        self.value: list[Number] = [0] * self.size
        self.line_of = {k: k for k in range(self.rows)}
        self.at_lower = [True] * self.size

    def entering(self, rate: Callable[[int], Number]) -> int | None:
        "the least-numbered nonbasic that lowers what has these rates"
        for k in range(self.size):
            if k in self.line_of or rate(k) == 0 or (self.lower[k] is not None and self.lower[k] == self.upper[k]):
                continue
            if (rate(k) < 0) == self.at_lower[k]:
                return k
        return None

    def move(self, q: int, change: Number) -> None:
        "moves a nonbasic, and the basics with it"
        for basic, line in self.line_of.items():
            if self.table[line][q]:
                self.value[basic] = plain(self.value[basic] + change * self.table[line][q])
        self.value[q] = plain(self.value[q] + change)

    def exchange(self, p: int, q: int) -> None:
        "p leaves the basis, and q comes into it"
        line = self.line_of.pop(p)
        self.line_of[q] = line
        pivot = Fraction(self.table[line][q])
        new: list[Number] = [plain(-x / pivot) if x else 0 for x in self.table[line]]
        new[q], new[p] = 0, plain(1 / pivot)
        places = [k for k in range(self.size) if new[k]]
        for other, numbers in enumerate(self.table):
            rate, numbers[q] = numbers[q], 0
            if other != line and rate:
                for k in places:
                    numbers[k] = plain(numbers[k] + rate * new[k])
        self.table[line] = new

    def broken(self) -> tuple[int, int, bool] | None:
        "the least-numbered basic outside its limits, the limit, and whether it lies below"
        for k in sorted(self.line_of):
            lower, upper = self.lower[k], self.upper[k]
            if lower is not None and self.value[k] < lower:
                return k, lower, True
            if upper is not None and self.value[k] > upper:
                return k, upper, False
        return None

    def blocking(self, q: int, sign: int) -> tuple[Number, int, bool] | None:
        "how far q goes until something stops it first, the least-numbered of what does, and whether that comes to its lower limit"
        best = None
        for k in sorted([*self.line_of, q]):
            speed = sign * (1 if k == q else self.table[self.line_of[k]][q])
            limit = self.upper[k] if speed > 0 else self.lower[k] if speed < 0 else None
            if limit is not None:
                room = plain(Fraction(limit - self.value[k]) / speed)
                if best is None or room < best[0]:
                    best = room, k, speed < 0
        return best

    def back(self, p: int, limit: int, below: bool) -> tuple[int, Number]:
        "the nonbasic that brings a basic back to its limit, and how far it moves"
        line = self.table[self.line_of[p]]
        q = self.entering(lambda k: -line[k] if below else line[k])
        if q is None:
            sys.exit("INFEASIBLE")
        return q, plain(Fraction(limit - self.value[p]) / line[q])

    def steps(self) -> Iterator[None]:
        "the steps of the path, one after the other"
        while True:
            if found := self.broken():
                p, limit, to_lower = found
                q, change = self.back(p, limit, to_lower)
            else:
                cost = self.table[self.line_of[0]]
                entering = self.entering(cost.__getitem__)
                if entering is None:
                    return
                q, sign = entering, 1 if cost[entering] < 0 else -1
                stop = self.blocking(q, sign)
                if stop is None:
                    sys.exit("UNBOUNDED")
                room, p, to_lower = stop
                change = sign * room
            self.move(q, change)
            self.at_lower[p] = to_lower
            if p != q:
                self.exchange(p, q)
            yield


def main(words: list[str]) -> int:
    "the command; its status"
    if words in (["-h"], ["--help"]):
        print(__doc__)
        return 0
    simplex = Simplex(queens(int(words[1])) if words[0] == "queens" else transportation(int(words[0])))
    count = sum(1 for _ in simplex.steps())
    objective = Fraction(simplex.value[0])
    print(f"OPTIMAL STEPS {count} OBJECTIVE {objective.numerator}/{objective.denominator}")
    return 0


if __name__ == "__main__":
    sys.exit(main(sys.argv[1:]))
