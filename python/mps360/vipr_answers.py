"""VIPR certificates straight from exact answers, of any solver and with numbers of any length: no job and no listing is made, and no number has to fit
the columns of a card or the program's 127 bits.

    certificate = of_answer(model, answer)     a vipr.Certificate, checked; vipr.Wrong says what the answer's numbers don't prove

The linear program is the model's: rows of type N have no limit, and aren't in it; neither is the constant of the objective."""
from __future__ import annotations

from collections.abc import Iterator, Mapping
from fractions import Fraction

from mps360.listings.write import Answer
from mps360.model import Model, Sums
from mps360.vipr import ENDING, READABLE, Certificate, Constraint, Sum, Wrong, check, nonzero

ZERO, ONE = Fraction(0), Fraction(1)
COMMENT = "% written by solution2listing.py of mps360: the linear program of a file, and the proof that another solver's exact answer gives"
Key = tuple[str, str]   # ("row", name) or ("column", name)


class Program:
    "a model's linear program as constraints: those of rows, then the limits of columns; place says which constraint is at an end of a row or a column"

    def __init__(self, model: Model) -> None:
        self.model, self.place = model, {}   # type: Model, dict[tuple[Key, str], int]
        self.rows = [row for row, kind in model.rows.items() if kind != "N"]
        self.columns = list(model.columns)
        sums = Sums(model)
        self.entries = [sums.of(column) for column in self.columns]
        self.costs = [numbers.get(model.objective or "", ZERO) for numbers in self.entries]
        names = [name if READABLE.fullmatch(name) else f"column{k}" for k, name in enumerate(self.columns, 1)]
        self.stated = Certificate(names, sense=(model.sense or "MIN").lower(), objective=nonzero(dict(enumerate(self.costs))))
        sums_of_rows: dict[str, Sum] = {row: {} for row in self.rows}
        for j, numbers in enumerate(self.entries):
            for row, value in numbers.items():
                if row in sums_of_rows and value:
                    sums_of_rows[row][j] = value
        for k, row in enumerate(self.rows, 1):
            self.state(("row", row), row if READABLE.fullmatch(row) else f"row{k}", model.row_limits(row), sums_of_rows[row], alone=True)
        before = len(self.stated.constraints)
        for j, column in enumerate(self.columns):
            self.state(("column", column), names[j], model.column_limits(column), {j: ONE}, alone=False)
        self.stated.limits = len(self.stated.constraints) - before

    def state(self, key: Key, name: str, limits: tuple[Fraction | None, Fraction | None], entries: Sum, *, alone: bool) -> None:
        "the constraints of the limits of a row or a column; alone says that the only one has the name as it is"
        lower, upper = limits
        ends = [("E", lower)] if lower is not None and lower == upper else [(sense, end) for sense, end in (("G", lower), ("L", upper)) if end is not None]
        for sense, end in ends:
            self.place[key, sense] = len(self.stated.constraints)
            self.stated.constraints.append(Constraint(name + ("" if alone and len(ends) == 1 else ENDING[sense]), sense, end or ZERO, entries))

    def left_over(self, wanted: list[Fraction], factors: Mapping[str, Fraction]) -> dict[str, Fraction]:
        "what is left of a number of each column once its entries, each times its row's factor, are taken away"
        return {column: want - sum((value * factors[row] for row, value in numbers.items() if row in factors), ZERO)
                for column, want, numbers in zip(self.columns, wanted, self.entries)}

    def factors(self, rows: Mapping[str, Fraction], columns: Mapping[str, Fraction], positive: str) -> Sum:
        "each factor at the constraint on whose side it bears: one above 0 at `positive` (G or L). Wrong where there is no such limit"
        found: Sum = {}
        for key, factor in self.keyed(rows, columns):
            sense = positive if factor > 0 else "L" if positive == "G" else "G"
            index = self.place.get((key, "E"), self.place.get((key, sense)))
            if index is None:
                raise Wrong(f"the {key[0]} {key[1][:40]} has the factor {factor}, which is for its {'lower' if sense == 'G' else 'upper'} limit, and it has none")
            found[index] = factor
        return found

    @staticmethod
    def keyed(rows: Mapping[str, Fraction], columns: Mapping[str, Fraction]) -> Iterator[tuple[Key, Fraction]]:
        "the factors that aren't 0, each with its row or column"
        for kind, table in (("row", rows), ("column", columns)):
            for name, factor in table.items():
                if factor:
                    yield (kind, name), factor


def of_answer(model: Model, answer: Answer) -> Certificate:
    "the certificate of an answer that is optimal or infeasible, by the names of the model; Wrong where its numbers don't prove it, or VIPR has no form"
    if answer.kind == "unbounded":
        raise Wrong("the answer is UNBOUNDED, for which VIPR has no form")
    program = Program(model)
    found = of_optimum(program, answer) if answer.kind == "optimal" else of_conflict(program, answer)
    check(found)
    return found


def of_optimum(program: Program, answer: Answer) -> Certificate:
    "the plan, and the prices as multipliers of limits"
    found, is_min = program.stated, program.stated.sense == "min"
    point = {j: answer.columns.get(column, ZERO) for j, column in enumerate(program.columns)}
    best = sum((cost * point[j] for j, cost in found.objective.items()), ZERO)
    reduced = program.left_over(program.costs, answer.prices) if answer.reduced is None else answer.reduced
    found.solutions, found.bounds = [("plan", nonzero(point))], (best, best)
    multipliers = program.factors(answer.prices, reduced, "G" if is_min else "L")
    found.derived = [Constraint("best", "G" if is_min else "L", best, found.objective, multipliers)]
    return found


def of_conflict(program: Program, answer: Answer) -> Certificate:
    "the ray's factors as multipliers of limits, or the two limits that cross"
    found = program.stated
    if answer.crossed:
        multipliers = {index: ONE if sense == "L" else -ONE for (key, sense), index in program.place.items() if key == answer.crossed}
    else:
        columns = program.left_over([ZERO] * len(program.columns), answer.ray) if answer.column_ray is None else answer.column_ray
        multipliers = program.factors(answer.ray, columns, "L")
    side = sum((factor * found.constraints[index].side for index, factor in multipliers.items()), ZERO)
    found.derived = [Constraint("none", "L", side, {}, multipliers)]
    return found
