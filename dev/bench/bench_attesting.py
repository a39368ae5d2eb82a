#!/usr/bin/env python3
"""Counts how many exact answers of another solver are attested, by rows and decimals of random sparse models (those of bench_bases.py); and
times the checker.

usage: bench_attesting.py [--long] [--itself | --program FILE] [--models N] [--rows N,N..] [--seconds S] | --times [--long] [--program FILE]

  --long          mps360long, which reads numbers of any length, in place of mps360check
  --itself        oracle/attesting.py is asked, a reading of the checker's rules that isn't proved. Else the proved program
  --program FILE  another program, which takes the job on standard input and the listing from the file LISTING of the present folder
  --models N      N models of each kind (10)
  --rows N,N..    10,20,50,100,200,300 without it
  --seconds S     the solver is ended after S seconds (60), and counted apart
  --times         times, in place of the counts: the least processor time of five runs, and the peak memory

esolver of QSopt_ex solves each model in exact fractions, and solution2listing.py makes a job and a listing of what it wrote. A number of the
answer may not fit a fraction of 127 bits: then mps360check isn't asked, which reads none. It ends with 64 for wrong use, 70 where there is no
checker or no esolver."""
import argparse
import collections
import functools
import pathlib
import shutil
import subprocess
import sys
import tempfile
from collections.abc import Callable, Iterator
from typing import NoReturn

sys.path.insert(0, str(pathlib.Path(__file__).resolve().parents[2] / "python"))
import bench_bases
from mps360 import mps
from mps360.cli import mps2job
from mps360.cli import solution2listing
from mps360.jobs.write import job_of
from mps360.plain import Plain
from mps360.listings.write import Answer, listing_of
from mps360 import programs
from mps360.checkers import has_long_number
from mps360.cli.options import Parser
from mps360.errors import NoProgram
from oracle.attesting import attest
from oracle.claims import ATTESTED, OF_128_BITS, OF_ANY_LENGTH, UNCHECKED

HERE = pathlib.Path(__file__).resolve().parent
Asked = Callable[[bytes, bytes], tuple[int, str]]   # from a job and a listing to the status and the line of a checker
ENDS = ("attested", "unchecked", "doesn't fit", "no end")


def solved(path: pathlib.Path, solution: pathlib.Path, seconds: float) -> bool:
    "whether esolver has written an answer in time"
    try:
        subprocess.run(["esolver", "-O", solution, path], capture_output=True, timeout=seconds, check=False)
    except subprocess.TimeoutExpired:
        return False
    return solution.exists()


def end_of(asked: Asked, text: str, folder: pathlib.Path, options: argparse.Namespace) -> str:
    "what becomes of the answer to a model, as text"
    path, solution = folder / "model.mps", folder / "solution"
    path.write_text(text)
    solution.unlink(missing_ok=True)
    if not solved(path, solution, options.seconds):
        return "no end"
    job, listing = solution2listing.made(mps2job.parsed_options([str(path)], solution2listing.wrong_use), str(solution))
    if not options.long and has_long_number(listing.encode("latin-1")):
        return "doesn't fit"
    status, line = asked(job.text.encode("latin-1"), listing.encode("latin-1"))
    if status not in (ATTESTED, UNCHECKED):
        raise SystemExit(f"bench_attesting.py: of esolver's answer to {path.read_text().split()[1]} the checker says {line}")
    return "attested" if status == ATTESTED else "unchecked"


def counts(asked: Asked, options: argparse.Namespace) -> None:
    "a line for each kind of model"
    print("| Rows | Decimals | Models | Attested | Unchecked: an operation of a test doesn't fit | A number of the answer doesn't fit | No answer in time |")
    print("|" + "---|" * 7)
    with tempfile.TemporaryDirectory() as folder:
        for rows in options.rows:
            for decimals in bench_bases.DECIMALS:
                ends = collections.Counter[str]()
                for number in range(1, options.models + 1):
                    model = Plain(bench_bases.made_model(rows, decimals, number))
                    ends[end_of(asked, model.text, pathlib.Path(folder), options)] += 1
                print("| " + " | ".join(str(cell) for cell in (rows, decimals, options.models, *(ends[end] for end in ENDS))) + " |", flush=True)


def greatest_deck() -> Iterator[str]:
    "a deck of the greatest size, whose opening basis is optimal (that of bench_converting.sh)"
    entry = "    {:<8}  {:<8}  {:<12}\n".format
    yield "NAME          GREATEST\nROWS\n N  COST\n" + "".join(f" L  R{row}\n" for row in range(1, 1000)) + "COLUMNS\n"
    for column in range(1, 5001):
        yield entry(f"X{column}", "COST", column % 97)
        yield from (entry(f"X{column}", f"R{1 + (column * 7 + k * 111) % 999}", "-3.25") for k in range(9))
    yield "RHS\n" + "".join(entry("LIMIT", f"R{row}", row) for row in range(1, 1000)) + "ENDATA\n"


def times(program: str) -> None:
    "a line for each of two listings"
    greatest = job_of(mps.read_text("".join(greatest_deck())))
    wide = programs.TOP / "examples/wide.job"
    print("| What | Bytes of the listing | Answer, processor time, memory |\n|---|---|---|")
    for what, job, listing in (("examples/wide", wide.read_text(), wide.with_suffix(".listing").read_text()),
                               ("1,000 rows, 5,000 columns and 50,000 entries, with one SOLUTION", greatest.text, listing_of(greatest, Answer("optimal")))):
        with tempfile.TemporaryDirectory() as folder:
            for name, text in (("JOB", job), ("LISTING", listing)):
                pathlib.Path(folder, name).write_text(text)
            told = subprocess.run([sys.executable, HERE / "timed.py", "JOB", program], cwd=folder, stdout=subprocess.PIPE, text=True, check=False)
        print(f"| {what} | {len(listing)} | {told.stdout.strip()} |", flush=True)


def refused(message: str) -> NoReturn:
    "ends the command for wrong use"
    print(f"bench_attesting.py: {message}", file=sys.stderr)
    sys.exit(64)


def main(words: list[str]) -> int:
    "the command; its status"
    if any(word in ("-h", "--help") for word in words):
        print(__doc__)
        return 0
    parser = Parser(refused, allow_abbrev=True)
    parser.add_argument("--long", action="store_true")
    parser.add_argument("--itself", action="store_true")
    parser.add_argument("--program", type=lambda word: str(pathlib.Path(word).resolve()))
    parser.add_argument("--models", type=int, default=10)
    parser.add_argument("--rows", type=lambda word: [int(part) for part in word.split(",")], default=bench_bases.ROWS)
    parser.add_argument("--seconds", type=float, default=60)
    parser.add_argument("--times", action="store_true")
    options = parser.parse_args(words)
    if options.itself and (options.program or options.times):
        refused("--itself asks no program")
    try:
        if not options.times and not shutil.which("esolver"):
            raise NoProgram("esolver isn't installed (qsopt-ex)")
        program = None if options.itself else options.program or programs.checker_program(name="mps360long" if options.long else "mps360check")
    except NoProgram as cause:
        print(f"bench_attesting.py: {cause}", file=sys.stderr)
        return 70
    if options.times and program:
        times(program)
        return 0
    asked: Asked = functools.partial(attest, by=OF_ANY_LENGTH if options.long else OF_128_BITS)
    if program:
        asked = functools.partial(programs.attested_by, program)
    counts(asked, options)
    return 0


if __name__ == "__main__":
    sys.exit(main(sys.argv[1:]))
