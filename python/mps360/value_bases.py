"""A basis of values and marginals, for solvers that give a point and prices and no basis.

    basis = of_values(model, rows, columns)     from (value, marginal) of each row that isn't N and of each column

Values are in the model's units, a marginal is what the objective gains for a unit of the limit at which the variable stands; its sign is of no use
here. Both may be rounded: a basis is no part of a problem, and one that is wrong makes more steps of the simplex method, never a wrong answer."""
from __future__ import annotations

import heapq
from collections.abc import Mapping
from fractions import Fraction

from mps360.bases import BASIC, FREE, LOWER, UPPER, Basis, opening
from mps360.model import Model, Sums

PRIME = (1 << 61) - 1   # entries are reduced modulo this one: a sum that is 0 there is taken for one that is 0
NEAR = 1e-7             # closer to a limit, relative to its size, a value stands at it; a smaller marginal is 0
Pair = tuple[float, float]
Limits = tuple[Fraction | None, Fraction | None]


def distance(limits: Limits, value: float) -> float:
    "how far a value is from the nearer limit, relative to the limit's size; infinite where there is none"
    return min((abs(value - float(end)) / max(1.0, abs(float(end))) for end in limits if end is not None), default=float("inf"))


def standing(limits: Limits, value: float) -> str:
    "where a variable stands that isn't basic: at the limit that is nearer"
    lower, upper = limits
    if lower is None and upper is None:
        return FREE
    if lower is None or upper is not None and abs(value - float(upper)) < abs(value - float(lower)):
        return UPPER
    return LOWER


class Independent:
    """Columns of a matrix modulo PRIME, each taken where it isn't a sum of multiples of those that were taken before. Sparse: each taken column is
    reduced by those before it, and keeps a pivot row of its own, which is the row that fewest columns meet."""

    def __init__(self, meets: Mapping[int, int]) -> None:
        "meets says how many columns meet a row"
        self.meets = meets
        self.rank: dict[int, int] = {}              # pivot row -> the place of its column
        self.taken: list[tuple[int, dict[int, int]]] = []   # the pivot row, and the other entries where the pivot is 1

    def take(self, entries: dict[int, int]) -> bool:
        "takes the column with these entries (row -> number that isn't 0 modulo PRIME), or says that it is dependent"
        waiting = [self.rank[row] for row in entries if row in self.rank]
        heapq.heapify(waiting)
        while waiting:
            row, other = self.taken[heapq.heappop(waiting)]
            factor = entries.pop(row, 0)
            for place, value in other.items() if factor else ():
                if place not in entries and place in self.rank:
                    heapq.heappush(waiting, self.rank[place])
                left = (entries.get(place, 0) - factor * value) % PRIME
                if left:
                    entries[place] = left
                else:
                    entries.pop(place, None)
        if not entries:
            return False
        pivot = min(entries, key=lambda row: (self.meets.get(row, 0), row))
        inverse = pow(entries.pop(pivot), -1, PRIME)
        self.rank[pivot] = len(self.taken)
        self.taken.append((pivot, {row: value * inverse % PRIME for row, value in entries.items()}))
        return True


def modular(value: Fraction) -> int:
    "a number modulo PRIME"
    return value.numerator % PRIME * pow(value.denominator, -1, PRIME) % PRIME if value.denominator > 1 else value.numerator % PRIME


def entries_of(numbers: Mapping[str, Fraction], place: Mapping[str, int]) -> dict[int, int]:
    "the numbers of a column on the rows that have a place, modulo PRIME"
    found = {place[row]: modular(value) for row, value in numbers.items() if row in place}
    return {row: value for row, value in found.items() if value}


def of_values(model: Model, rows: Mapping[str, Pair], columns: Mapping[str, Pair]) -> Basis:
    """The basis of the model's m rows that aren't N: variables strictly between their limits are basic; it is filled up by those whose marginal is 0,
    then by the others, rows before columns. Each is taken where its column isn't a sum of multiples of those before it, so that the basis is
    nonsingular whatever the values are (but for a chance of some 1 to 2^61). KeyError where a row or a column has no pair."""
    place = {row: k for k, row in enumerate(row for row, kind in model.rows.items() if kind != "N")}
    sums = Sums(model)
    matrix = {column: entries_of(sums.of(column), place) for column in model.columns}
    order = []
    for is_column, names, pairs, limits_of in ((0, list(place), rows, model.row_limits), (1, list(matrix), columns, model.column_limits)):
        for k, name in enumerate(names):
            value, marginal = pairs[name]
            order.append((distance(limits_of(name), value) <= NEAR, abs(marginal) > NEAR, is_column, k, name))
    order.sort()
    inner = [name for at_limit, _, is_column, _, name in order if is_column and not at_limit]
    meets: dict[int, int] = {}
    for name in inner:
        for row in matrix[name]:
            meets[row] = meets.get(row, 0) + 1
    basic = chosen(order, matrix, place, Independent(meets))
    basis = opening(model)
    basis.rows.update({row: BASIC if (0, row) in basic else standing(model.row_limits(row), rows[row][0]) for row in place})
    basis.columns.update({name: BASIC if (1, name) in basic else standing(model.column_limits(name), columns[name][0]) for name in matrix})
    return basis


def chosen(order: list[tuple[bool, bool, int, int, str]], matrix: Mapping[str, dict[int, int]], place: Mapping[str, int],
           independent: Independent) -> set[tuple[int, str]]:
    "which variables are basic, as (0, row) and (1, column); as many as there are rows"
    basic: set[tuple[int, str]] = set()
    for _, _, is_column, _, name in order:
        if len(basic) == len(place):
            break
        if independent.take(dict(matrix[name]) if is_column else {place[name]: 1}):
            basic.add((is_column, name))
    return basic
