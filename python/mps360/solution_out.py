"""A best plan as files that other solvers read: its basis as an MPS basis file, and the solution in glpsol's form or in HiGHS's raw form.

    text = basis_file(point)                  for clp (-basisIn), esolver (-B) and others
    text = solution_file(point, "glpsol")     for glpsol (--ini, -r); solution_file(point, "highs") for HiGHS (--read_solution_file)

The names are those of the MPS file. Numbers of a solution are rounded to 15 digits, as these programs do; the exact ones stand in the listing."""
from __future__ import annotations

from collections.abc import Mapping, Sequence
from dataclasses import dataclass
from fractions import Fraction

from mps360.bases import BASIC, FREE, LOWER, UPPER, Basis
from mps360.errors import Refused
from mps360.model import Model, Sums
from mps360.plain import basis_cards, has_two

AT = {"BS": BASIC, "LL": LOWER, "UL": UPPER, "EQ": LOWER, "FR": FREE, "**": BASIC}
FORMS = ("glpsol", "highs")
GLPSOL_LETTERS = {BASIC: "b", LOWER: "l", UPPER: "u", FREE: "f"}
HIGHS_STATUS = {LOWER: 0, BASIC: 1, UPPER: 2, FREE: 3}
DIGITS = 15
Limits = tuple[Fraction | None, Fraction | None]


@dataclass(frozen=True)
class Line:
    "a row or a column: its name, where it stands (BS, LL, UL, FR), its activity, and its dual value or reduced cost"
    name: str
    stands: str
    activity: Fraction
    price: Fraction
    limits: Limits = (None, None)

    @property
    def is_fixed(self) -> bool:
        "whether its limits are equal"
        return self.limits[0] is not None and self.limits[0] == self.limits[1]


@dataclass(frozen=True)
class Point:
    """a best plan; rows are those that aren't of type N, in the order of the file. objective has the constant of the file. has_basis is False where
    no basis is known, as of an attested answer: then `stands` says where values stand"""
    problem: str
    objective_name: str
    sense: str
    objective: Fraction
    entries: int
    rows: tuple[Line, ...]
    columns: tuple[Line, ...]
    has_basis: bool = True


def one_word(name: str, what: str) -> str:
    "the name, where a file of words can have it"
    if not name or name.split() != [name]:
        raise Refused(f"the {what} {name[:30]!r} has a blank in its name, and a basis file of words can't name it", name)
    return name


def basis_file(point: Point) -> str:
    "the basis as an MPS basis file; Refused where no basis is known, or a name that it has to name has a blank"
    if not point.has_basis:
        raise Refused("no basis is known of this answer")
    rows = [(one_word(line.name, "row"), line.stands, has_two(line.limits)) for line in point.rows if line.stands != BASIC]
    columns = [(one_word(line.name, "column"), line.stands) for line in point.columns if line.stands in (BASIC, UPPER)]
    within = sum(stands == BASIC for _, stands in columns)
    if within != len(rows):
        raise Refused(f"{within} columns are basic, and {len(rows)} rows aren't: this is no basis")
    name = next(iter(point.problem.split()), "PROBLEM")
    return basis_cards(name, rows, columns)


def shown(value: Fraction) -> str:
    "a number of 15 digits"
    return f"{float(value):.{DIGITS}g}"


def solution_file(point: Point, form: str) -> str:
    "the solution in one of FORMS"
    return {"glpsol": glpsol_text, "highs": highs_text}[form](point)


def glpsol_text(point: Point) -> str:
    "what glpsol -w writes; a fixed variable that isn't basic has the letter s"
    rows, columns = len(point.rows), len(point.columns)
    lines = [f"c Problem:    {point.problem}", f"c Rows:       {rows}", f"c Columns:    {columns}", f"c Non-zeros:  {point.entries}", "c Status:     OPTIMAL",
             f"c Objective:  {point.objective_name} = {float(point.objective):.10g} ({'MAX' if point.sense == 'MAX' else 'MIN'}imum)", "c",
             f"s bas {rows} {columns} f f {shown(point.objective)}"]
    for letter, table in (("i", point.rows), ("j", point.columns)):
        for k, line in enumerate(table, 1):
            stands = "s" if line.is_fixed and line.stands != BASIC else GLPSOL_LETTERS[line.stands]
            lines.append(f"{letter} {k} {stands} {shown(line.activity)} {shown(line.price)}")
    return "\n".join([*lines, "e o f"]) + "\n"


def highs_text(point: Point) -> str:
    "what HiGHS writes as its raw solution, with its basis"
    tables = (("Columns", point.columns), ("Rows", point.rows))
    lines = ["Model status", "Optimal", "", "# Primal solution values", "Feasible", f"Objective {shown(point.objective)}"]
    for head, table in tables:
        lines += [f"# {head} {len(table)}", *(f"{line.name} {shown(line.activity)}" for line in table)]
    lines += ["", "# Dual solution values", "Feasible"]
    for head, table in tables:
        lines += [f"# {head} {len(table)}", *(f"{line.name} {shown(line.price)}" for line in table)]
    lines += ["", "# Basis", "HiGHS v1", "Valid" if point.has_basis else "None"]
    for head, table in tables if point.has_basis else ():
        lines += [f"# {head} {len(table)}", " ".join(str(HIGHS_STATUS[line.stands]) for line in table)]
    return "\n".join(lines) + "\n"


def nothing_text(verdict: str) -> str:
    "what HiGHS writes where there is no best plan; verdict is infeasible or unbounded"
    return f"Model status\n{verdict.capitalize()}\n\n# Primal solution values\nNone\n\n# Dual solution values\nNone\n\n# Basis\nHiGHS v1\nNone\n"


Cell = tuple[str, Fraction, Fraction]   # AT of the listing, the activity, and the dual value or reduced cost


def point_of(model: Model, rows: Sequence[Cell], columns: Sequence[Cell], *, basis: Basis | None = None, has_basis: bool = True) -> Point:
    """the point of a SOLUTION, whose rows and columns are in the model's order. AT says how each stands; or the basis does, of an answer whose AT says
    only where values stand. ValueError where they aren't as many as the model's."""
    row_at, column_at = (basis.rows, basis.columns) if basis else ({}, {})

    def line(name: str, cell: Cell, stands: Mapping[str, str], limits: Limits) -> Line:
        at, activity, price = cell
        return Line(name, stands[name] if basis else AT[at], activity, price, limits)

    listed = dict(zip(model.rows, rows, strict=True))
    sums = Sums(model)
    entries = sum(model.rows.get(row, "N") != "N" for column in model.columns for row in sums.of(column))
    return Point(model.name, model.objective or "", model.sense or "MIN", listed[model.objective][1] + model.constant, entries,
                 tuple(line(row, cell, row_at, model.row_limits(row)) for row, cell in listed.items() if model.rows[row] != "N"),
                 tuple(line(name, cell, column_at, model.column_limits(name)) for name, cell in zip(model.columns, columns, strict=True)), has_basis)
