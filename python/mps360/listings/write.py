"""Writes the listing of a job whose answer is known from elsewhere: reports, numbers and end as the job's program prints them, with the
point and the prices, the ray or the direction that are handed in. Nothing is solved, and nothing of the answer is checked here.

    listing_of(JOB, Answer(..))     of a job of mps_file the listing as text; Refused says what an answer lacks, or which number of it is too long

Only jobs as mps2job.py makes them: one PRIMAL, and SOLUTION. STEPS is 0, since no steps are known, and AT says where a value stands among its
limits, since no basis is known."""
from dataclasses import dataclass, field
from fractions import Fraction
from math import lcm

from mps360.jobs.write import Job
from mps360.model import Sums
from mps360.model import of_set
from mps360.numbers import GREATEST_OF_128_BITS, MOST_DIGITS, is_readable, is_short, text_of

HEADS = ("NUMBER ROW AT ACTIVITY SLACK LOWER UPPER DUAL", "NUMBER COLUMN AT ACTIVITY COST LOWER UPPER REDUCED")
STATUS = {"optimal": 0, "infeasible": 1, "unbounded": 2}
ZERO = Fraction(0)


class Refused(Exception):
    "why an answer isn't taken"


@dataclass
class Answer:
    """an answer by the names of the job's rows and columns; what a table leaves out is 0. kind is optimal, with columns (a point), prices (of
    rows) and, if they are known, reduced costs; infeasible, with a ray (of rows and, if they are known, columns) or the variable that is
    crossed, as ("row" or "column", name); unbounded, with columns and a direction (of columns)."""
    kind: str
    columns: dict[str, Fraction] = field(default_factory=dict)
    prices: dict[str, Fraction] = field(default_factory=dict)
    reduced: dict[str, Fraction] | None = None
    ray: dict[str, Fraction] = field(default_factory=dict)
    column_ray: dict[str, Fraction] | None = None
    crossed: tuple[str, str] | None = None
    direction: dict[str, Fraction] = field(default_factory=dict)


def code(lower: Fraction | None, upper: Fraction | None, value: Fraction) -> str:
    "where a value stands among its limits"
    if lower is not None and value < lower or upper is not None and value > upper:
        return "**"
    if value not in (lower, upper):
        return "BS"
    return "EQ" if lower == upper else "LL" if value == lower else "UL"


class Writer:
    "what the job would print, were the answer this one; rows and columns by their places, rows before columns"
    def __init__(self, job: Job, answer: Answer) -> None:
        model, self.job, self.answer = job.model, job, answer
        self.lines: list[str] = []
        self.row_names, self.column_names = list(job.rows.values()), list(job.columns.values())
        self.names, self.m = self.row_names + self.column_names, len(job.rows)
        place = {row: k for k, row in enumerate(model.rows)}
        self.objective = place[model.objective]
        self.sums = Sums(model)
        self.columns = [{place[row]: value for row, value in self.sums.of(column).items()} for column in model.columns]
        self.limits = [self.row_limits(row) for row in model.rows] + [model.column_limits(column) for column in model.columns]
        values = of_set(model.rhs, model.rhs_set)
        self.rhs = [ZERO if text_of(value) is None else value for value in (values.get(row, ZERO) for row in model.rows)]
        if model.parts:
            self.check_sums()

    def row_limits(self, row: str) -> tuple[Fraction | None, Fraction | None]:
        "the limits of a row, whose sums fit"
        limits, model = self.job.model.row_limits(row), self.job.model
        span = of_set(model.ranges, model.range_set).get(row)
        if span is not None:
            limit = of_set(model.rhs, model.rhs_set).get(row, ZERO)
            self.check_added(limit, abs(span))
            if limits[0] != limit:
                self.check_added(limit, -abs(span))
        return limits

    def check_added(self, x: Fraction, y: Fraction) -> None:
        "Refused where a sum doesn't fit over the least common denominator"
        common = lcm(x.denominator, y.denominator)
        parts = x.numerator * (common // x.denominator), y.numerator * (common // y.denominator)
        if any(abs(part) > GREATEST_OF_128_BITS for part in (*parts, sum(parts))) or not is_short(x + y):
            raise Refused("a limit made of a right-hand side and a range, or a sum of a combination's parts, doesn't fit 128 bits")

    def check_sums(self) -> None:
        "Refused where a sum of a combination doesn't fit"
        model = self.job.model
        for column in model.columns:
            numbers = self.sums.of(column)
            for row in numbers:
                total = ZERO
                for part, times in model.parts.get(row, {}).items():
                    if part in numbers:
                        self.check_added(times * numbers[part], ZERO)
                        self.check_added(total, times * numbers[part])
                        total += times * numbers[part]

    def activities(self, columns: dict[str, Fraction]) -> list[Fraction]:
        "the activities of the rows, and those of the columns behind them"
        point = [columns.get(name, ZERO) for name in self.column_names]
        rows = [ZERO] * self.m
        for entries, value in zip(self.columns, point):
            for row, entry in entries.items() if value else ():
                rows[row] += entry * value
        return rows + point

    def left_over(self, wanted: list[Fraction], multipliers: list[Fraction]) -> list[Fraction]:
        "what is left of a number of each column once its entries, each times the row's multiplier, are taken away"
        return [want - sum((multipliers[row] * entry for row, entry in entries.items()), ZERO) for want, entries in zip(wanted, self.columns)]

    def number(self, k: int, value: Fraction) -> str:
        "a number of a variable as text; Refused where no checker reads it"
        if not is_readable(value):
            raise Refused(f"a number of {self.names[k]} has more than {MOST_DIGITS:,} digits above or below the line")
        return str(value)

    def table_line(self, k: int, *words: str) -> None:
        "a line of a table"
        self.lines.append(f"{k + 1:5} {self.names[k]:<8} " + " ".join(words))

    def write(self) -> None:
        "all lines"
        job, answer, model, say = self.job, self.answer, self.job.model, self.lines.append
        entries = sum(max(1, len(column)) for column in model.columns.values())
        say("TITLE " + job.text.partition("TITLE('")[2].partition("'")[0])
        say(f"CONVERT {job.problem:<8} ROWS {self.m} COLUMNS {len(self.columns)} ENTRIES {entries}")
        say(f"SETUP   {job.problem:<8} {model.sense}")
        if answer.kind == "infeasible":
            self.infeasible()
        else:
            point, kind = self.activities(answer.columns), answer.kind.upper()
            say(f"PRIMAL {kind} STEPS 0 OBJECTIVE {self.number(self.objective, point[self.objective])} CHECKED")
            if answer.kind == "optimal":
                self.solution(point)
            else:
                for k, pair in enumerate(zip(point, self.activities(answer.direction))):
                    self.table_line(k, *(self.number(k, value) for value in pair))
        say(f"END {STATUS[answer.kind]}")

    def infeasible(self) -> None:
        "the verdict that there is no plan, with its ray or its crossed variable"
        answer = self.answer
        if answer.crossed:
            kind, name = answer.crossed
            k = self.row_names.index(name) if kind == "row" else self.m + self.column_names.index(name)
            self.lines.append(f"PRIMAL INFEASIBLE STEPS 0 CROSSED {k + 1} CHECKED")
            return
        ray = [answer.ray.get(name, ZERO) for name in self.row_names]
        ray += self.left_over([ZERO] * len(self.columns), ray) if answer.column_ray is None else [answer.column_ray.get(name, ZERO) for name in self.column_names]
        self.lines.append("PRIMAL INFEASIBLE STEPS 0 RAY CHECKED")
        for k, value in enumerate(ray):
            if value:
                self.table_line(k, self.number(k, value))

    def solution(self, point: list[Fraction]) -> None:
        "the two tables of SOLUTION"
        answer = self.answer
        prices = [answer.prices.get(name, ZERO) for name in self.row_names]
        costs = [entries.get(self.objective, ZERO) for entries in self.columns]
        prices += self.left_over(costs, prices) if answer.reduced is None else [answer.reduced.get(name, ZERO) for name in self.column_names]
        self.lines += ["SOLUTION OPTIMAL", "SECTION 1 - ROWS", HEADS[0]]
        for k, (lower, upper) in enumerate(self.limits):
            if k == self.m:
                self.lines += ["SECTION 2 - COLUMNS", HEADS[1]]
            second = self.rhs[k] - point[k] if k < self.m else costs[k - self.m]
            ends = ("NONE" if end is None else str(end) for end in (lower, upper))
            self.table_line(k, code(lower, upper, point[k]), self.number(k, point[k]), self.number(k, second), *ends, self.number(k, prices[k]))
        if not self.columns:
            self.lines += ["SECTION 2 - COLUMNS", HEADS[1]]


def listing_of(job: Job, answer: Answer) -> str:
    "the listing of a job whose answer is this one"
    writer = Writer(job, answer)
    writer.write()
    return "\n".join(writer.lines) + "\n"
