"Options that several commands take of the routes to a proof, and the plan that they leave."
from __future__ import annotations

import argparse
import time

from mps360.routes import ROUTES, Plan, processors_here
from mps360.solver_names import EXACT_SOLVER, NAMES

NOBODY = "none"
MOST_SECONDS, MOST_DIGITS = 1_000_000_000, 9


def positive(word: str) -> float:
    "a number of seconds above 0"
    try:
        number = float(word)
    except ValueError:
        number = 0.0
    if not 0 < number < MOST_SECONDS:
        raise argparse.ArgumentTypeError(f"{word[:30]!r} isn't a number of seconds above 0 and below {MOST_SECONDS:,}")
    return number


def counted(word: str) -> int:
    "a count from 1 on"
    if not (word.isascii() and word.isdigit() and len(word) <= MOST_DIGITS and int(word)):
        raise argparse.ArgumentTypeError(f"{word[:30]!r} isn't a whole number from 1 on, of at most {MOST_DIGITS} digits")
    return int(word)


def solvers_of(word: str) -> tuple[str, ...]:
    "the names of solvers, parted by commas"
    if word == NOBODY:
        return ()
    names = tuple(dict.fromkeys(word.split(",")))
    unknown = next((name for name in names if name not in NAMES), None)
    if unknown is not None:
        raise argparse.ArgumentTypeError(f"no solver {unknown[:30] or 'of an empty name'}; {', '.join(NAMES)} are known, and {NOBODY} for nobody")
    return names


def add_routes(parser: argparse.ArgumentParser) -> None:
    "the options of the routes to a proof"
    parser.add_argument("--with", dest="solvers", type=solvers_of)
    parser.add_argument("--only", choices=ROUTES)
    parser.add_argument("--seconds", type=positive)
    parser.add_argument("--processors", type=counted)
    parser.set_defaults(begun=time.monotonic())


def plan_of(options: argparse.Namespace) -> Plan:
    "the routes that these options leave"
    return Plan(solvers=options.solvers, only=options.only, seconds=options.seconds, begun=options.begun,
                       processors=options.processors or processors_here())


def check_routes(options: argparse.Namespace) -> str | None:
    "what is wrong with the options of the routes, or None"
    if options.only in ("basis", "exact") and options.solvers == ():
        return f"--only {options.only} asks a solver, and --with {NOBODY} lets nobody be asked"
    if options.only == "exact" and options.solvers is not None and EXACT_SOLVER not in options.solvers:
        return f"--only exact asks {EXACT_SOLVER}, which --with doesn't name"
    return None
