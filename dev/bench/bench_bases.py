#!/usr/bin/env python3
"""Counts how many bases that another solver wrote are inserted, solved and printed, by rows and decimals of random sparse models; and times
PRIMAL from the opening basis against INSERT of the solver's basis and PRIMAL.

usage: bench_bases.py [--with SOLVER] [--models N] [--rows N,N..] [--seconds S] PROGRAM | --opening [--models N] [--rows N,N..] [--seconds S] PROGRAM |
       bench_bases.py --times [--with SOLVER] [--seconds S] PROGRAM | --model ROWS DECIMALS N

  PROGRAM           a program that reads a job from standard input
  --with SOLVER     clp (without it), esolver, lp_solve or glpsol
  --models N        N models of each kind (10)
  --rows N,N..      10,20,50,100,200,300 without it
  --seconds S       a run, or the solver, is ended after S seconds of processor time (40, a whole number), and counted apart
  --opening         the counts of PRIMAL from the opening basis alone: of no solver
  --times           times, in place of the counts
  --model           prints the N-th model of so many rows, with numbers of 0, 1 or 2 decimals

Each model has a third of its rows as limits on all its columns, so that it has an optimum; the others are L, G and E rows, kept by a plan of
whole numbers. There are 7 columns for 6 rows, each with an entry above 0 in one of the first rows and with two of either sign in others; an
entry is a number from 1 to 9, or of .1 to 9.9, or of .01 to 9.99. Of the runs that stopped since a number doesn't fit it is counted in how
many the objective itself, which has but one value, doesn't fit in a fraction of 127 bits: esolver of qsopt-ex has it exactly.

How busy the machine is changes no count: a run is ended by its own processor seconds. One that hasn't had them after 100 times as many seconds by
the clock ends the script, which then prints no line for its kind."""
import argparse
import contextlib
import os
import pathlib
import random
import re
import resource
import signal
import subprocess
import sys
import tempfile
import time
from fractions import Fraction

sys.path.insert(0, str(pathlib.Path(__file__).resolve().parents[2] / "python"))
from mps360.bases import BASIC, Basis, with_insert
from mps360.cli.options import Parser, ending
from mps360 import solver_names, solvers
from mps360.plain import Plain
from mps360.processes import Processes
from mps360.jobs.write import job_of
from mps360.model import Model

SOLVERS = ("clp", "esolver", "lp_solve", "glpsol")
ROWS, DECIMALS, RUNS, SPARSE, MOST_NUMBER = (10, 20, 50, 100, 200, 300), (0, 1, 2), 5, (299, 0, 1), 2 ** 127 - 1
BY_CLOCK = 100   # times its processor seconds, after which a run ends the script
STOPS, OTHERS = ("INSERT", "PRIMAL", "SOLUTION"), ("singular", "no basis", "no end")
ENDS = ("printed", *STOPS, *OTHERS)
OUT_OF_TIME = (-signal.SIGXCPU, 128 + signal.SIGXCPU)   # of a program itself, and of one that a shell runs


def made_model(rows: int, decimals: int, number: int) -> Model:
    "a random sparse model of so many rows, whose numbers have so many decimals"
    chance = random.Random(f"{rows} {decimals} {number}")
    unit, capacities = Fraction(1, 10 ** decimals), max(1, rows // 3)

    def entry() -> Fraction:
        return chance.randint(1, 10 ** (decimals + 1) - 1) * unit

    model = Model(f"S{rows}D{decimals}N{number}", "MIN", "COST", rhs_set="RHS")
    model.rows = {"COST": "N", **{f"R{i}": "L" if i <= capacities else chance.choice("LGE") for i in range(1, rows + 1)}}
    sums = dict.fromkeys(model.rows, Fraction(0))
    for j in range(1, rows * 7 // 6 + 2):
        plan = chance.choice((0, 0, chance.randint(0, 9)))
        entries = {f"R{chance.randint(1, capacities)}": entry()}
        for i in chance.sample(range(capacities + 1, rows + 1), min(2, rows - capacities)):
            entries[f"R{i}"] = chance.choice((1, -1)) * entry()
        model.columns[f"X{j}"] = {"COST": (chance.randint(-12, 7) * 10 ** decimals + chance.randint(0, 10 ** decimals - 1)) * unit, **entries}
        for row, value in entries.items():
            sums[row] += plan * value
    slack = {"L": 1, "G": -1, "E": 0}
    model.rhs["RHS"] = {row: sums[row] + slack[kind] * chance.randint(0, 4) for row, kind in model.rows.items() if kind != "N"}
    return model


def transport(count: int) -> Model:
    "the problem of mps360 --make"
    model = Model("TRANSP", "MIN", "COST", rhs_set="RHS")
    places = range(1, count + 1)
    model.rows = {"COST": "N", **{f"S{i:03}": "L" for i in places}, **{f"D{j:03}": "G" for j in places}}
    for i in places:
        for j in places:
            model.columns[f"X{i:03}{j:03}"] = {"COST": Fraction((7 * i + 11 * j) % 19 + 1), f"S{i:03}": Fraction(1), f"D{j:03}": Fraction(1)}
    model.rhs["RHS"] = {row: Fraction(10) for row in model.rows if row != "COST"}
    return model


def limit(process: int, seconds: int) -> None:
    "ends a process, 0 is this one, by a signal once it has had so many seconds of processor time"
    with contextlib.suppress(ProcessLookupError):
        resource.prlimit(process, resource.RLIMIT_CPU, (seconds, seconds + 5))


def late(what: str, seconds: int) -> SystemExit:
    "the end of the script for a run that had too little of the machine"
    return SystemExit(f"bench_bases.py: {what} hasn't had {seconds} seconds of processor time after {BY_CLOCK * seconds} by the clock")


def limited(command: list[str], seconds: int, given: bytes = b"") -> tuple[int | None, bytes]:
    "the status and the output of a command; no status where it was ended for its processor time"
    try:
        # (between fork and exec no other thread of this script is there)
        ended = subprocess.run(command, input=given, stdout=subprocess.PIPE, stderr=subprocess.DEVNULL, timeout=BY_CLOCK * seconds, check=False,
                               preexec_fn=lambda: limit(0, seconds))
    except subprocess.TimeoutExpired:
        raise late(os.path.basename(command[0]), seconds) from None
    return None if ended.returncode in OUT_OF_TIME else ended.returncode, ended.stdout


def run(program: str, job: str, seconds: int) -> tuple[int | None, str, float]:
    "the status, the listing and the processor time of a run; no status where it was ended"
    before = resource.getrusage(resource.RUSAGE_CHILDREN)
    status, listing = limited([program], seconds, job.encode("ascii"))
    after = resource.getrusage(resource.RUSAGE_CHILDREN)
    return status, listing.decode("ascii"), after.ru_utime + after.ru_stime - before.ru_utime - before.ru_stime


def has_wide_objective(model: Model, seconds: int) -> bool:
    "whether the best objective, as QSopt_ex has it in exact fractions, doesn't fit in a number of the program; False where there is none in time"
    with tempfile.TemporaryDirectory() as folder:
        path, solution = pathlib.Path(folder, "model.mps"), pathlib.Path(folder, "solution")
        path.write_text(Plain(model).text)
        with contextlib.suppress(FileNotFoundError):
            limited(["esolver", "-O", str(solution), str(path)], seconds)
        found = re.search(r"Value = (\S+)", solution.read_text()) if solution.exists() else None
    value = Fraction(found[1]) if found else Fraction(0)
    return max(abs(value.numerator), value.denominator) > MOST_NUMBER


def asked(options: argparse.Namespace, model: Model) -> Basis | None:
    "the basis of the solver, or None where it gives none in time"
    with Processes() as processes:
        found: solvers.Solver = options.found
        request = found.ask(Plain(model), processes)
        limit(request.process.child.pid, options.seconds)
        if not processes.wait([request.process], time.monotonic() + BY_CLOCK * options.seconds):
            raise late(options.solver, options.seconds)
        try:
            return request.basis()[0]
        except solver_names.NoBasis:
            return None


def end_of(status: int | None, listing: str) -> str:
    "whether all was printed, or where the run stopped, or hadn't ended in its processor time"
    if status is None:
        return "no end"
    if status in (0, 1, 2):
        return "printed"
    if "STOP 10 VERB FAULT 15" in listing:
        return "singular"
    if "STOP 20 " not in listing:
        raise SystemExit(f"bench_bases.py: the program ended with {status}:\n{listing[-500:]}")
    return "SOLUTION" if "PRIMAL " in listing else "PRIMAL" if "INSERT " in listing else "INSERT"


def steps_of(listing: str) -> int | None:
    "the steps of PRIMAL, None where it hasn't ended"
    return next((int(line.split()[3]) for line in listing.split("\n") if line.startswith("PRIMAL ")), None)


def counts(options: argparse.Namespace) -> None:
    "a line for each kind of model"
    print("| Rows | Decimals | Models | Inserted, solved and printed | in no step | Stopped at INSERT | at PRIMAL | at SOLUTION | "
          "the objective itself doesn't fit | singular | no basis | no end | By PRIMAL from the opening basis |")
    print("|" + "---|" * 13)
    for rows in options.rows:
        for decimals in DECIMALS:
            ends, idle, opening, wide = dict.fromkeys(ENDS, 0), 0, 0, 0
            for number in range(1, options.models + 1):
                model = made_model(rows, decimals, number)
                job, basis = job_of(model), asked(options, model)
                if basis is None:
                    ends["no basis"] += 1
                else:
                    status, listing, _ = run(options.program, with_insert(job, basis), options.seconds)
                    end = end_of(status, listing)
                    ends[end] += 1
                    idle += end == "printed" and steps_of(listing) == 0
                    wide += end in STOPS and has_wide_objective(model, options.seconds)
                opening += end_of(*run(options.program, job.text, options.seconds)[:2]) == "printed"
            cells = [rows, decimals, options.models, ends["printed"], idle, *(ends[end] for end in STOPS), wide, *(ends[end] for end in OTHERS), opening]
            print("| " + " | ".join(str(cell) for cell in cells) + " |", flush=True)


def of_opening(options: argparse.Namespace) -> None:
    "a line for each number of decimals: how many came to their own answer, and how many hadn't ended; the others stopped since a number doesn't fit"
    print("| Decimals of the numbers | " + " | ".join(f"{rows} rows" for rows in options.rows) + " |")
    print("|" + "---|" * (1 + len(options.rows)), flush=True)
    for decimals in DECIMALS:
        cells = [str(decimals)]
        for rows in options.rows:
            ends = [end_of(*run(options.program, job_of(made_model(rows, decimals, number)).text, options.seconds)[:2]) for number in range(1, options.models + 1)]
            without = ends.count("no end")
            cells.append(f"{ends.count('printed')}" + f", {without} not ended" * bool(without))
        print("| " + " | ".join(cells) + " |", flush=True)


def least(program: str, job: str, seconds: int) -> tuple[int | None, str, float]:
    "the status, the listing and the least processor time of so many runs"
    ended = [run(program, job, seconds) for _ in range(RUNS)]
    return min(ended, key=lambda one: one[2])


def times(options: argparse.Namespace) -> None:
    "a line for each of two models"
    print(f"The least processor time of {RUNS} runs, in seconds.")
    print("| What | Basic columns | Deck alone | with INSERT | INSERT and PRIMAL | steps | PRIMAL from the opening basis | steps |")
    print("|" + "---|" * 8)
    for words, model in (("transportation of 60 by 60", transport(60)), ("a sparse model of 300 rows", made_model(*SPARSE))):
        job = job_of(model)
        job.text = job.text.replace("         SOLUTION\n", "")
        basis = asked(options, model)
        if basis is None:
            continue
        inserted = with_insert(job, basis)
        alone, begun = job.text.replace("         PRIMAL\n", ""), inserted.replace("         PRIMAL\n", "")
        parts = [least(options.program, text, options.seconds) for text in (alone, begun, inserted, job.text)]
        shown = [f"{seconds:.3f}" if status == 0 else f"status {status}" for status, _, seconds in parts]
        basic = sum(status == BASIC for status in basis.columns.values())
        cells = [words, basic, *shown[:3], steps_of(parts[2][1]), shown[3], steps_of(parts[3][1])]
        print("| " + " | ".join(str(cell) for cell in cells) + " |", flush=True)


def say(cause: str) -> None:
    "a line on standard error"
    print(f"bench_bases.py: {cause}", file=sys.stderr)


def main(words: list[str]) -> int:
    "the command; its status"
    if any(word in ("-h", "--help") for word in words):
        print(__doc__)
        return 0
    if words[:1] == ["--model"]:
        sys.stdout.write(Plain(made_model(*(int(word) for word in words[1:4]))).text)
        return 0
    parser = Parser(ending(say), allow_abbrev=True)
    parser.add_argument("--with", dest="solver", choices=SOLVERS, default="clp")
    parser.add_argument("--models", type=int, default=10)
    parser.add_argument("--rows", type=lambda word: [int(part) for part in word.split(",")], default=ROWS)
    parser.add_argument("--seconds", type=int, default=40)
    parser.add_argument("--opening", action="store_true")
    parser.add_argument("--times", action="store_true")
    parser.add_argument("program")
    options = parser.parse_args(words)
    options.program = os.path.abspath(options.program)
    if options.seconds < 1:
        say("--seconds takes a whole number of 1 or more")
        return 64
    if options.opening:
        of_opening(options)
        return 0
    options.found = solvers.find(options.solver)
    if options.found is None:
        say(f"{options.solver} isn't installed")
        return 70
    (times if options.times else counts)(options)
    return 0


if __name__ == "__main__":
    sys.exit(main(sys.argv[1:]))
