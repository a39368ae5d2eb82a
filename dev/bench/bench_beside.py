#!/usr/bin/env python3
"""Times whole jobs beside QSopt_ex, the exact solver of Debian's package qsopt-ex: the transportation problems of 20, 40 and 60 sources and
as many destinations, the problems of 8, 10 and 12 queens, and the two of 5,000 columns (dev/bench/bench_path.sh makes them). Both solve the
same deck, one after the other; the least processor time of the runs counts. It ends with 1 where the objectives aren't the same.

usage: bench_beside.py [--runs N] [--program FILE]

  --runs N         runs of each, 3 without it
  --program FILE   the program of jobs; without it the proved one

It prints a table, and ends with 64 for wrong use, 70 where there is no program or no esolver."""
import fractions
import pathlib
import re
import resource
import shutil
import subprocess
import sys
import tempfile
from typing import NoReturn

sys.path.insert(0, str(pathlib.Path(__file__).resolve().parents[2] / "python"))
from mps360 import programs
from mps360.cli.options import Parser

HERE = pathlib.Path(__file__).resolve().parent
CASES = [("transportation", 20), ("transportation", 40), ("transportation", 60), ("queens", 8), ("queens", 10), ("queens", 12), ("narrow", None), ("wide", None)]
NAMES = {"transportation": "transportation of {0} by {0}", "queens": "{0} queens", "narrow": "999 rows and 5,000 columns",
         "wide": "1,000 rows and 5,000 columns"}
PROGRAM = "".join(f"         {statement}\n" for statement in ("PROGRAM", "MOVE(XITERLIM,'NONE')", "CONVERT", "SETUP", "PRIMAL", "EXIT", "PEND"))


def deck_of(kind: str, size: int | None) -> str:
    "the deck of a case, by bench_path.sh"
    command = [str(HERE / "bench_path.sh"), f"--{kind}"] + ([] if size is None else [str(size)])
    return subprocess.run(command, capture_output=True, text=True, check=True).stdout


def spent(command: list[str], runs: int, given: str | None = None) -> tuple[str, float]:
    "what a command printed last, and the least processor time of its runs, in seconds"
    times = []
    for _ in range(runs):
        before = resource.getrusage(resource.RUSAGE_CHILDREN)
        ended = subprocess.run(command, capture_output=True, text=True, input=given, check=False)
        after = resource.getrusage(resource.RUSAGE_CHILDREN)
        times.append(after.ru_utime + after.ru_stime - before.ru_utime - before.ru_stime)
    return ended.stdout, min(times)


def own_answer(program: str, deck: str, runs: int) -> tuple[int, fractions.Fraction, float]:
    "steps, objective and time of the program of jobs"
    listing, seconds = spent([program], runs, PROGRAM + deck)
    verdict = re.search(r"^PRIMAL OPTIMAL STEPS (\d+) OBJECTIVE (\S+) CHECKED$", listing, re.MULTILINE)
    if not verdict:
        raise SystemExit(f"bench_beside.py: the program has no optimum: {listing.splitlines()[-1:]}")
    return int(verdict[1]), fractions.Fraction(verdict[2]), seconds


def other_answer(deck: str, folder: pathlib.Path, runs: int) -> tuple[fractions.Fraction, float]:
    "objective and time of esolver"
    path, solution = folder / "deck.mps", folder / "deck.sol"
    path.write_text(deck)
    _, seconds = spent(["esolver", "-O", str(solution), str(path)], runs)
    value = re.search(r"Value = (\S+)", solution.read_text())
    if not value:
        raise SystemExit("bench_beside.py: esolver writes no value")
    return fractions.Fraction(value[1]), seconds


def table(program: str, runs: int) -> bool:
    "prints the table; answers whether all objectives agree"
    agree = True
    print("| What | Steps | Objective | mps360 | QSopt_ex | Ratio |\n|---|---|---|---|---|---|")
    with tempfile.TemporaryDirectory() as folder:
        for kind, size in CASES:
            deck = deck_of(kind, size)
            steps, objective, own = own_answer(program, deck, runs)
            other_objective, other = other_answer(deck, pathlib.Path(folder), runs)
            print(f"| {NAMES[kind].format(size)} | {steps:,} | {objective} | {own:.3f} s | {other:.3f} s | {own / other:.1f} |", flush=True)
            if objective != other_objective:
                agree = False
                print(f"bench_beside.py: QSopt_ex has the objective {other_objective}", file=sys.stderr)
    return agree


def main(words: list[str]) -> int:
    "the command; its status"
    options = Parser(wrong_use, allow_abbrev=True)
    options.add_argument("--runs", type=int, default=3)
    options.add_argument("--program")
    chosen = options.parse_args(words)
    if chosen.runs < 1:
        wrong_use("--runs takes a number from 1 on")
    program = chosen.program or programs.proved_program()
    if not program or not shutil.which("esolver"):
        print("bench_beside.py: no program of jobs is there, or no esolver", file=sys.stderr)
        return 70
    return 0 if table(program, chosen.runs) else 1


def wrong_use(cause: str) -> NoReturn:
    "ends the command for wrong use"
    print(f"bench_beside.py: {cause}\n{(__doc__ or '').splitlines()[4]}", file=sys.stderr)
    sys.exit(64)


if __name__ == "__main__":
    if sys.argv[1:] in (["-h"], ["--help"]):
        print(__doc__)
        sys.exit(0)
    sys.exit(main(sys.argv[1:]))
