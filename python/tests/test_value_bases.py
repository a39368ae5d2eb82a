"Bases of values and marginals: as many basic variables as rows, a nonsingular matrix by an elimination apart, and the vertex that the values are."
import random
from fractions import Fraction

import places  # pylint: disable=unused-import  (the packages are known from here on)
import pytest
from mps360 import value_bases
from mps360.bases import BASIC, LOWER, UPPER
from mps360.mps import Reading, read_text

GLASS = """NAME GLASS FREE
ROWS
 N COST
 L P1
 L P2
 L P3
COLUMNS
 X COST -3
 X P1 1
 X P3 3
 Y COST -5
 Y P2 2
 Y P3 2
RHS
 B P1 4
 B P2 12
 B P3 18
ENDATA
"""


def rank(columns):
    "the rank of columns of fractions, by elimination without a modulus"
    rows, count = [list(line) for line in zip(*columns)], 0
    for k in range(len(columns)):
        pivot = next((row for row in rows[count:] if row[k]), None)
        if pivot is None:
            continue
        rows.remove(pivot)
        rows.insert(count, pivot)
        for row in rows[count + 1:]:
            factor = row[k] / pivot[k]
            row[:] = [a - factor * b for a, b in zip(row, pivot)]
        count += 1
    return count


def basic_columns(model, basis):
    "the columns of the basic variables, rows that aren't N from top to bottom"
    rows = [row for row, kind in model.rows.items() if kind != "N"]
    logical = [[Fraction(row == other) for other in rows] for row in rows if basis.rows[row] == BASIC]
    return logical + [[model.numbers_of(column).get(row, Fraction(0)) for row in rows] for column in model.columns if basis.columns[column] == BASIC]


def test_textbook():
    "the plan X 2, Y 6 of Hillier and Lieberman: rows P2 and P3 are at their limits"
    model = read_text(GLASS, Reading())
    basis = value_bases.of_values(model, {"P1": (2.0, 0.0), "P2": (12.0, -1.5), "P3": (18.0, -1.0)}, {"X": (2.0, 0.0), "Y": (6.0, 0.0)})
    assert basis.rows == {"COST": BASIC, "P1": BASIC, "P2": UPPER, "P3": UPPER}
    assert basis.columns == {"X": BASIC, "Y": BASIC}


def test_degenerate_prefers_what_has_no_price():
    "X stands at its limit 0 without a price, Y at 0 with one: X fills the basis up, not Y"
    text = "NAME D FREE\nROWS\n N COST\n E R\nCOLUMNS\n X COST 0\n X R 1\n Y COST 1\n Y R 1\nENDATA\n"
    model = read_text(text, Reading())
    basis = value_bases.of_values(model, {"R": (0.0, 0.5)}, {"X": (0.0, 0.0), "Y": (0.0, 1.0)})
    assert basis.columns == {"X": BASIC, "Y": LOWER}


def test_dependent_columns_are_left_out():
    "three columns between their limits in two rows: one of them isn't basic, whichever"
    text = ("NAME T FREE\nROWS\n N COST\n E R\n E S\nCOLUMNS\n X COST 0\n X R 1\n X S 1\n Y COST 0\n Y R 2\n Y S 2\n Z COST 0\n Z R 1\nRHS\n B R 4\n B S 3\n"
            "BOUNDS\n UP B X 9\n UP B Y 9\n UP B Z 9\nENDATA\n")
    model = read_text(text, Reading())
    basis = value_bases.of_values(model, {"R": (4.0, 0.0), "S": (3.0, 0.0)}, {"X": (1.0, 0.0), "Y": (1.0, 0.0), "Z": (1.0, 0.0)})
    assert rank(basic_columns(model, basis)) == 2
    assert basis.columns["Z"] == BASIC


def made(chance):
    "a model, and values and marginals of any kind: no vertex of it"
    m, n = chance.randint(1, 8), chance.randint(1, 10)
    rows = "".join(f" {chance.choice('LGE')} R{i}\n" for i in range(m))
    columns = "".join(f" C{j} COST {chance.randint(-3, 3)}\n" + "".join(f" C{j} R{i} {chance.choice((1, -1, 2, 0.5, 3))}\n" for i in range(m) if chance.random() < 0.4)
                      for j in range(n))
    text = f"NAME M FREE\nROWS\n N COST\n{rows}COLUMNS\n{columns}RHS\n" + "".join(f" B R{i} {chance.randint(0, 5)}\n" for i in range(m)) + "ENDATA\n"
    model = read_text(text, Reading())

    def pair():
        return chance.choice((0.0, 1.0, 2.5, 4.0)), chance.choice((0.0, 0.0, 1.0))
    return model, {f"R{i}": pair() for i in range(m)}, {name: pair() for name in model.columns}


@pytest.mark.parametrize("seed", range(60))
def test_nonsingular_whatever_the_values(seed):
    model, rows, columns = made(random.Random(seed))
    basis = value_bases.of_values(model, rows, columns)
    found = basic_columns(model, basis)
    assert len(found) == len(rows) == rank(found)


def test_work_is_linear_where_columns_are_a_chain():
    "a column meets its row and the next: twice the rows are twice the reductions, and no column fills up"
    def entries(size):
        independent = value_bases.Independent({k: 2 for k in range(size)})
        assert all(independent.take({k: 1, **({k + 1: 1} if k + 1 < size else {})}) for k in range(size))
        return sum(len(other) for _, other in independent.taken)
    assert entries(2000) <= 2 * entries(1000) + 2
