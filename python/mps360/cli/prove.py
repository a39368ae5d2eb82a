"""Proves the answer of another solver: takes the basis at which it ended, goes on from there in exact fractions, and prints the listing. The
last line, on standard error, says what is proved and by which route. solve finds such a route by itself; this one asks whom it is told to, and
prints the listing.

usage: prove [--basis FILE [--from WRITER] | --with SOLVER,..] [--keep FOLDER] [--seconds S] [--life S] [--program FILE] [..] MODEL.mps

  --basis FILE    a basis of this model that clp -basisOut, esolver -b, lp_solve -wbas, glpsol -w or another program wrote
  --from WRITER   which program wrote it, where the file doesn't tell (basis2deck.py --help has more)
  --with SOLVER,..  highs, clp, esolver, lp_solve or glpsol is asked for a basis, where it is installed; of several each next one where the basis of
                  the one before comes to nothing
  --keep FOLDER   the job, its listing (which is what is proved), the table of names and the solver's basis stay in FOLDER
  --seconds S     ends the solver, or a run of the program, after S seconds; without it none is ended
  --life S        the first line of life on standard error after S seconds (5), the next after twice as long each time; 0 for none
  --program FILE  another program than scripts/mps360: it gets the job on standard input. What it prints is called unproved

Each other word that begins with -- is handed to mps2job.py. The basis is taken in by INSERT, and
PRIMAL goes on from it: in no step, where the solver's basis is optimal in exact fractions too. Where it is singular, or a number doesn't fit,
PRIMAL begins at the opening basis instead, in the end; without a basis it always does.

It ends with the status of the run whose listing is printed: 0, 1 no plan, 2 no bound, 20 a number doesn't fit, more in docs/FAULTS.md; or with
64 for wrong use, 65 where a file is refused, 66 where it can't be read, 70 where there is no program or no solver, 73 where a file can't be
written, 124 where a run was ended after S seconds, 130 after Ctrl-C or a TERM signal."""
import argparse
import json
import os
import pathlib
import signal
import sys
from collections.abc import Sequence
from fractions import Fraction
from typing import NoReturn
from mps360 import notes, routes, runs
from mps360.at_hand import Tool
from mps360.bases import WRITERS
from mps360.cli import basis2deck, solve
from mps360.cli.route_options import positive, solvers_of
from mps360.cli.words import joined
from mps360.jobs.write import Job
from mps360.life import FIRST, Life
from mps360.model import Model
from mps360.output import command
from mps360.solver_names import NoBasis

NAME = "prove"
NO_BASIS = "no basis of "
Ended = solve.Ended


def plan_of(options: argparse.Namespace) -> routes.Plan:
    "a basis of each solver that is named, then PRIMAL from the opening basis: each for so many seconds, and none beside another"
    seconds = options.seconds
    return routes.Plan(solvers=options.solvers, opening_first=False, exact=False, solver_seconds=seconds, run_seconds=seconds, last_seconds=seconds)


def told(attempt: runs.Attempt, model: Model, words: str) -> str:
    "what the verdict of a run says"
    assert attempt.verdict is not None
    verdict, steps, objective = attempt.verdict.groups()
    verdict += notes.after_verdict(model)
    if objective:
        verdict += f", objective {objective}"
        if model.constant:
            verdict += f", {Fraction(objective) + model.constant} with the file's constant"
    return f"{verdict}, by {attempt.words} in {steps} step{'' if steps == '1' else 's'}{words}"


def last_line(outcome: routes.Outcome, model: Model, kind: str) -> str:
    "what is proved, and by which route"
    attempt = outcome.attempt
    failed = [tried for tried in outcome.routes if tried.why and not tried.why.startswith(NO_BASIS) and tried.words != attempt.words]
    others = "".join(f" ({tried.words}: {tried.why})" for tried in failed)
    if attempt.interrupted:
        return f"not proved: interrupted{others}"
    if not attempt.verdict:
        return f"not proved: {attempt.why}{others}"
    part = f"; the rest of the listing isn't there: {attempt.why}" if attempt.why else ""
    before = {"proved": "proved: ", "unproved": "not proved, since the program ran unproved: ", "other": "not proved, since another program ran: "}
    return before[kind] + told(attempt, model, part + others)


def keep(options: argparse.Namespace, attempt: runs.Attempt, job: Job) -> None:
    "the job, its listing, the table of names and what the solver wrote stay"
    if not options.keep:
        return
    folder, stem = pathlib.Path(options.keep), solve.stem_of(options)
    solve.kept(folder, f"{stem}.job", attempt.job.encode("ascii"))
    solve.kept(folder, f"{stem}.listing", attempt.listing)
    solve.kept(folder, f"{stem}.names", (json.dumps(job.name_map(), indent=1) + "\n").encode("utf-8"))
    if attempt.written and attempt.solver:
        solve.kept(folder, f"{stem}.{attempt.solver.name}", attempt.written.encode("latin-1"))


def outcome_of(options: argparse.Namespace, job: Job, program: Tool, life: Life) -> routes.Outcome:
    "what the routes came to"
    way = routes.Routes(job, program, plan_of(options), observer=runs.Observer(say=life.say, heard=life.heard, tick=life.tick))
    if options.basis:
        way.begin_at(basis2deck.read_basis(options.basis, job.file, options.writer), os.path.basename(options.basis))
    try:
        return way.run()
    except OSError as cause:
        raise Ended(70, f"can't run {program.command[0]}: {cause.strerror}") from None
    except runs.NoAnswer as cause:
        raise Ended(cause.status, *cause.lines, str(cause)) from None
    except NoBasis as cause:
        raise Ended(70, str(cause)) from None
    finally:
        life.clear()


def prove(options: argparse.Namespace, passed: list[str]) -> int:
    "the whole; the exit status"
    life = Life(NAME, options.life, seconds=options.seconds)
    job = basis2deck.read_job(options.model, passed)
    program = solve.program_of(options)
    for sentence in job.said if options.keep else job.said_without(job.of_table):
        life.say(sentence)
    outcome = outcome_of(options, job, program, life)
    keep(options, outcome.attempt, job)
    sys.stdout.write(outcome.attempt.listing.decode("latin-1"))
    sys.stdout.flush()
    life.say(last_line(outcome, job.file, program.kind))
    return outcome.status


class Words(argparse.ArgumentParser):
    "words that end the command where they are wrong"
    def error(self, message: str) -> NoReturn:
        Life(NAME).say(message)
        sys.exit(64)


def options_of(words: Sequence[str]) -> tuple[argparse.Namespace, list[str]]:
    "the options that these words say, and the words for mps2job.py"
    parser = Words(add_help=False, allow_abbrev=False)
    begin = parser.add_mutually_exclusive_group()
    begin.add_argument("--basis")
    begin.add_argument("--with", dest="solvers", type=solvers_of, default=())
    parser.add_argument("--from", dest="writer", choices=WRITERS)
    for word in ("--keep", "--program"):
        parser.add_argument(word)
    parser.add_argument("--seconds", type=positive)
    parser.add_argument("--life", type=float, default=FIRST)
    parser.add_argument("model")
    options, passed = parser.parse_known_args(joined(words))
    if unknown := [word for word in passed if not word.startswith("--")]:
        parser.error(f"one model at a time; what is {unknown[0]}?")
    if options.writer and not options.basis:
        parser.error("--from goes with --basis")
    return options, passed


@command(NAME)
def main(words: list[str] | None = None) -> int:
    "the command; its status"
    words = sys.argv[1:] if words is None else words
    life = Life(NAME)
    options, passed = options_of(words)
    signal.signal(signal.SIGTERM, solve.interrupt)
    try:
        return prove(options, passed)
    except (Ended, basis2deck.Ended) as ended:
        status, *told_words = ended.args
        for line in "\n".join(told_words).split("\n"):
            life.say(line)
        return int(status)
    except KeyboardInterrupt:
        life.say("not proved: interrupted before the program ran")
        return 130
