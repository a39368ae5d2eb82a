#!/usr/bin/env python3
"""Times what the Python side takes: solve and attest, as commands, on the narrow model of bench_path.sh (999 rows, 5,000 columns, 45,000 entries) and on
the four rows of examples/glass.mps. The program and the checker are stand-ins that print what is known, so that their own time isn't in it.

usage: bench_python.py [--runs N]

  --runs N   runs of each, 5 without it; the least processor time, user and system, counts

It prints a table, and ends with 64 for wrong use."""
import argparse
import json
import os
import pathlib
import resource
import subprocess
import sys
import tempfile
from collections.abc import Callable, Mapping
from fractions import Fraction
from typing import Any

HERE = pathlib.Path(__file__).resolve().parent
TOP = HERE.parents[1]
sys.path.insert(0, str(TOP / "python"))
from mps360 import mps
from mps360.jobs.write import job_of
from mps360.listings.write import Answer
from mps360.long_answers import listing_of

GLASS: dict[str, Any] = {"answer": "optimal", "columns": {"doors": 2, "windows": 6}, "prices": {"plant_2_hours": "3/2", "plant_3_hours": 1}}


def narrow_deck() -> str:
    "the deck of bench_path.sh --narrow"
    return subprocess.run([HERE / "bench_path.sh", "--narrow"], capture_output=True, text=True, check=True).stdout


def stand_in(path: pathlib.Path, line: str) -> str:
    "a program that prints something known"
    path.write_text(f"#!/bin/sh\n{line}\n", encoding="ascii")
    path.chmod(0o755)
    return str(path)


def made(folder: pathlib.Path, name: str, text: str, solution: Mapping[str, Any]) -> tuple[str, str, str]:
    "a model's file, a solution of it, and a program that prints the listing of that; nothing of it is checked"
    model, answer = folder / f"{name}.mps", folder / f"{name}.json"
    model.write_text(text, encoding="utf-8")
    answer.write_text(json.dumps(solution), encoding="ascii")
    read = mps.read_text(text)
    job = job_of(read, False, read.name)
    columns = {key: Fraction(str(value)) for key, value in solution["columns"].items()}
    prices = {key: Fraction(str(value)) for key, value in solution["prices"].items()}
    (folder / f"{name}.listing").write_text(listing_of(job, Answer("optimal", columns, prices)), encoding="ascii")
    return str(model), str(answer), stand_in(folder / f"{name}.program", f"exec cat {folder}/{name}.listing")


def spent(command: list[str], runs: int) -> float:
    "the least processor time of so many runs, in seconds; the command is to end with 0"
    least = float("inf")
    for _ in range(runs):
        before = resource.getrusage(resource.RUSAGE_CHILDREN)
        ended = subprocess.run(command, stdout=subprocess.DEVNULL, stderr=subprocess.PIPE, check=False)
        after = resource.getrusage(resource.RUSAGE_CHILDREN)
        if ended.returncode:
            sys.exit(f"bench_python.py: {' '.join(command)} ended with {ended.returncode}: {ended.stderr.decode()}")
        least = min(least, after.ru_utime + after.ru_stime - before.ru_utime - before.ru_stime)
    return least


def main(words: list[str]) -> int:
    "the command; its status"
    if any(word in ("-h", "--help") for word in words):
        print(__doc__)
        return 0
    parser = argparse.ArgumentParser(add_help=False)
    parser.add_argument("--runs", type=int, default=5)
    try:
        options = parser.parse_args(words)
    except SystemExit:
        return 64
    os.environ.pop("PYTHONDONTWRITEBYTECODE", None)
    print("| What | 999 rows, 5,000 columns | four rows |\n|---|---|---|")
    with tempfile.TemporaryDirectory() as name:
        folder = pathlib.Path(name)
        models = [made(folder, "narrow", narrow_deck(), {"answer": "optimal", "columns": {}, "prices": {}}),
                  made(folder, "glass", (TOP / "examples/glass.mps").read_text(encoding="utf-8"), GLASS)]
        checker = stand_in(folder / "checker", "echo ATTESTED 5 REPORTS")
        scripts, python = TOP / "scripts", sys.executable
        rows: list[tuple[str, Callable[[str, str, str], list[str]]]] = [
                ("`solve --json`", lambda model, answer, program: [python, str(scripts / "solve"), "--json", "--only", "primal", "--program", program, model]),
                ("`solve`", lambda model, answer, program: [python, str(scripts / "solve"), "--only", "primal", "--program", program, model]),
                ("`solve --html`", lambda model, answer, program: [python, str(scripts / "solve"), "--html", str(folder / "page.html"), "--only", "primal", "--program", program, model]),
                ("`attest`", lambda model, answer, program: [python, str(scripts / "attest"), "--program", checker, model, answer])]
        for what, command in rows:
            print(f"| {what} | " + " | ".join(f"{spent(command(*model), options.runs):.2f} s" for model in models) + " |", flush=True)
        print(f"| `{pathlib.Path(python).name} -c pass` | {spent([python, '-c', 'pass'], options.runs):.3f} s | |")
    return 0


if __name__ == "__main__":
    sys.exit(main(sys.argv[1:]))
