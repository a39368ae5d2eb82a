#!/usr/bin/env python3
"""Bases that clp, QSopt_ex, lp_solve and glpsol wrote, and whether they are taken for what they are. What is expected is what each solver itself printed:
each deck is read by oracle/bases.py, apart from the product, and the one point at which its basis stands is to be the solver's plan, in each row and
column.

usage: solver_bases.py --fresh COUNT [SEED] | --make
  --fresh COUNT    COUNT models made at random from SEED on are solved by those solvers that are installed
  --make           writes the files of python/tests/data/bases anew, by the solvers

python/tests/data/bases has ten models made at random, with rows of all kinds, with and without ranges, and columns with all kinds of bounds; beside
each model what the solvers wrote. It ends with 1 where a result is another, with 64 for wrong use."""
import collections
import pathlib
import random
import re
import shutil
import subprocess
import sys
import tempfile
from fractions import Fraction

import places
from mps360 import bases as basis_file
from mps360 import errors
from mps360 import mps
from mps360.jobs.write import job_of
from oracle import bases as expected_bases
from oracle import listing as expected_listing

KEPT = places.DATA / "bases"
SOLVERS = ("clp", "esolver", "lp_solve", "glpsol")
ROW_KINDS = ("L", "G", "E", "RL", "RG", "R+", "R-", "RL", "RG", "R+", "R-")
COLUMN_KINDS = ("PL", "PL", "UP", "LO", "BOTH", "BOTH", "FR", "MI", "MIUP", "FX", "BELOW")
NEAR = Fraction(1, 50_000)
KEPT_MODELS, LONG_NAMES, FRESH = 10, (9, 10), (3, 101)


# ---- models made at random

def limits_of(kind, chance):
    lower = chance.randint(-5, 3)
    return {"PL": (0, None), "UP": (0, chance.randint(2, 9)), "LO": (lower, None), "BOTH": (lower, lower + chance.randint(1, 6)),
            "FR": (None, None), "MI": (None, None), "MIUP": (None, chance.randint(1, 9)), "FX": (lower, lower), "BELOW": (-9, -2)}[kind]


def row_of(kind, activity, chance):
    "the type, the right-hand side and the range of a row that this activity keeps"
    slack, more = chance.randint(0, 3), chance.randint(1, 4)
    if kind == "E":
        return "E", activity, None
    if kind in ("L", "RL"):
        return "L", activity + slack, slack + more if kind == "RL" else None
    if kind in ("G", "RG"):
        return "G", activity - slack, slack + more if kind == "RG" else None
    return ("E", activity - slack, slack + more) if kind == "R+" else ("E", activity + slack, -slack - more)


def made_model(seed):
    "an MPS file in words with a plan, and prices that bound its objective"
    chance = random.Random(seed)
    rows, kinds = chance.sample(ROW_KINDS, 8), chance.sample(COLUMN_KINDS, 9)
    limits = [limits_of(kind, chance) for kind in kinds]
    plan = [chance.randint(-4 if lower is None else lower, max(lower or 0, 6) if upper is None else upper) for lower, upper in limits]
    entries = [[chance.choice((1, 2, 3, 4, 5, -1, -2)) if chance.random() < 0.55 or i == j % len(rows) else 0 for j in range(len(kinds))]
               for i in range(len(rows))]
    sides = [row_of(kind, sum(a * x for a, x in zip(line, plan)), chance) for kind, line in zip(rows, entries)]
    prices = [abs(price) if kind == "G" else -abs(price) if kind == "L" else price for kind, price in ((kind, chance.randint(-4, 4)) for kind in rows)]
    costs = []
    for j, (lower, upper) in enumerate(limits):
        least, most = (0 if upper is None else -5), (0 if lower is None else 5)
        costs.append(sum(price * line[j] for price, line in zip(prices, entries)) + chance.randint(least, most))
    long = seed in LONG_NAMES
    return written(seed, [f"row_of_kind_{kind}_{i}" if long else f"{kind}{i}" for i, kind in enumerate(rows)],
                   [f"column_{j}_of_a_long_name" if long else f"X{j}" for j in range(len(kinds))], sides, entries, costs, limits)


def written(seed, rows, columns, sides, entries, costs, limits):
    lines = [f"NAME MADE{seed} FREE", "ROWS", " N COST", *(f" {side[0]} {row}" for row, side in zip(rows, sides)), "COLUMNS"]
    for j, column in enumerate(columns):
        lines += [f" {column} COST {costs[j]}", *(f" {column} {row} {line[j]}" for row, line in zip(rows, entries) if line[j])]
    lines += ["RHS", *(f" RHS {row} {side[1]}" for row, side in zip(rows, sides)), "RANGES"]
    lines += [f" RNG {row} {side[2]}" for row, side in zip(rows, sides) if side[2] is not None] + ["BOUNDS"]
    for column, (lower, upper) in zip(columns, limits):
        if lower is None and upper is None:
            lines.append(f" FR BND {column}")
        elif lower == upper:
            lines.append(f" FX BND {column} {lower}")
        else:
            lines += [f" MI BND {column}"] if lower is None else [f" LO BND {column} {lower}"] if lower else []
            lines += [] if upper is None else [f" UP BND {column} {upper}"]
    return "\n".join([*lines, "ENDATA"]) + "\n"


# ---- what the solvers write

COMMANDS = {"clp": "clp model.mps -dualsimplex -basisOut basis -printi all -solution solution",
            "esolver": "esolver -b basis -O solution model.mps", "lp_solve": "lp_solve -fmps model.mps -S4 -wbas basis",
            "glpsol": "glpsol --freemps model.mps -w basis"}


def solved(solver, text):
    "the basis that a solver writes, and what it prints of its plan (glpsol has both in one file)"
    with tempfile.TemporaryDirectory() as folder:
        pathlib.Path(folder, "model.mps").write_text(text)
        ended = subprocess.run(COMMANDS[solver].split(), cwd=folder, capture_output=True, text=True, timeout=60, stdin=subprocess.DEVNULL)
        basis, solution = (pathlib.Path(folder, name) for name in ("basis", "solution"))
        basis = basis.read_text() if basis.exists() else ""
        return basis, solution.read_text() if solution.exists() else ended.stdout if solver == "lp_solve" else ""


def plan_printed(solver, basis, solution, model):
    "the values of rows and columns as the solver printed them; QSopt_ex prints columns alone, and none that is 0"
    rows, columns = [row for row, kind in model.rows.items() if kind != "N"], list(model.columns)
    if solver == "clp":
        words = [line.split() for line in solution.split("\n")[1:] if line.strip()]
        return {line[-3]: Fraction(line[-2]) for line in words}
    if solver == "esolver":
        part = re.search(r"^VARS:\n(.*?)^\S[^\n]*:\n", solution, re.M | re.S)[1]
        return dict.fromkeys(columns, Fraction(0)) | {name: Fraction(value) for name, value in re.findall(r"^(\S+) = (\S+)$", part, re.M)}
    if solver == "lp_solve":
        part = solution.split("Actual values of the variables:")[1].split("Dual value")[0]
        return {name: Fraction(value) for name, value in re.findall(r"^(\S+) +(\S+)$", part, re.M) if name in model.rows or name in model.columns}
    found = {(kind, int(number)): Fraction(value) for kind, number, value in re.findall(r"^([ij]) (\d+) \S (\S+) \S+$", basis, re.M)}
    return {row: found["i", k] for k, row in enumerate(rows, 1)} | {column: found["j", k] for k, column in enumerate(columns, 1)}


def point_of(job, deck):
    "the values of all variables at the basis of a deck, by the names of the job, and where the variables stand"
    run = expected_listing.Run(job.text.replace("         PRIMAL\n         SOLUTION\n", ""))
    run.run()
    run.select()
    lp, table = run.lp, expected_listing.Table(run.lp)
    cards = deck.rstrip("\n").split("\n")
    opening = ["BS"] * lp.m + ["LL" if lp.lower[k] is not None else "UL" if lp.upper[k] is not None else "FR" for k in range(lp.m, lp.m + lp.n)]
    at = expected_bases.stands_for(cards, lp, opening, expected_listing.is_skipped, expected_listing.fields)
    expected_bases.take(table, at)
    return dict(zip([("row", name) for name in lp.names[:lp.m]] + [("column", name) for name in lp.names[lp.m:]], table.value())), at


def kind_of(model, row):
    span = model.ranges.get(model.range_set, {}).get(row)
    return model.rows[row] + ("" if span is None else "-" if model.rows[row] == "E" and span < 0 else "+" if model.rows[row] == "E" else "r")


def check_basis(what, solver, model, basis, solution, tally, writer=None):
    "the deck of a basis has the solver's plan for its point; AssertionError where it hasn't"
    try:
        job, found = job_of(model), basis_file.read_text(basis, model, writer)
        point, at = point_of(job, basis_file.deck_of(found, job))
        plan = plan_printed(solver, basis, solution, model)
    except (errors.Refused, expected_bases.DeckFault, expected_bases.Singular, LookupError, TypeError) as cause:
        raise AssertionError(f"{what}: {cause!r}\n{basis}") from cause
    assert found.writer == solver, f"{what}: the file tells {found.writer}"
    values = {name: point["column" if name in model.columns else "row", (job.columns if name in model.columns else job.rows)[name]] for name in plan}
    other = [f"{name} {float(plan[name])} {float(values[name])}" for name in plan if abs(plan[name] - values[name]) > NEAR * max(1, abs(plan[name]))]
    assert not other, f"{what}: not the plan that it printed: {', '.join(other)}"
    for row, status in found.rows.items():
        tally[solver, kind_of(model, row), status] += 1
    for column, status in found.columns.items():
        tally[solver, "column", status] += 1


# ---- the kept files

def parts_of(path):
    "the parts of a kept file, each behind a line with its name"
    pieces = re.split(r"^==== (.*)\n", path.read_text(), flags=re.M)
    return dict(zip(pieces[1::2], pieces[2::2]))


def make():
    KEPT.mkdir(parents=True, exist_ok=True)
    for seed in range(1, KEPT_MODELS + 1):
        text = made_model(seed)
        parts = {"model": text}
        for solver in SOLVERS:
            parts[f"{solver} basis"], solution = solved(solver, text)
            parts |= {f"{solver} solution": solution} if solution else {}
        (KEPT / f"made-{seed:02}.txt").write_text("".join(f"==== {name}\n{part.rstrip()}\n" for name, part in parts.items()))


def model_of(text):
    return mps.read_text(text, mps.Reading(form="free"))


def check_fresh(solver, number):
    "a basis that a solver writes now of the model of this number"
    text = made_model(number)
    check_basis(f"fresh {number}: {solver}", solver, model_of(text), *solved(solver, text), collections.Counter())


def main(words):
    if words == ["--make"]:
        make()
        return 0
    if words[:1] != ["--fresh"] or not 2 <= len(words) <= 3 or not all(word.isdecimal() for word in words[1:]):
        print(__doc__)
        return 0 if words and words[0] in ("-h", "--help") else 64
    count, seed, wrong = int(words[1]), int(words[2]) if len(words) > 2 else FRESH[1], 0
    there = [solver for solver in SOLVERS if shutil.which(solver)]
    for number in range(seed, seed + count):
        for solver in there:
            try:
                check_fresh(solver, number)
            except AssertionError as cause:
                wrong += 1
                print(f"solver_bases.py: {cause}", file=sys.stderr)
    print(f"{count} models, by {', '.join(there) or 'no solver'}: {wrong} wrong")
    return 1 if wrong else 0


if __name__ == "__main__":
    sys.exit(main(sys.argv[1:]))
