"""Makes a job of an MPS file and a listing of a solution that another program found of it: the text that the job would print if the answer
were this one. Nothing is solved, and nothing of the solution is believed or changed: the listing says what the solution says.

usage: solution2listing.py [OPTIONS] -o JOB --listing LISTING [--names MAP] MODEL.mps SOLUTION
       solution2listing.py [OPTIONS] --vipr CERTIFICATE MODEL.mps SOLUTION

  -o JOB             where the job goes
  --listing LISTING  where the listing goes; without it to standard output
  --names MAP        where the table of names goes, as JSON for listing2json.py; needed where names were shortened
  --vipr CERTIFICATE  a VIPR certificate of the solution goes there, and no job and no listing is made: the solution's numbers, and those of the
                     file, may be of any length. What its numbers don't prove is refused

Each other option is one of mps2job.py, which reads the file: what it changes, leaves out or chooses is said on standard error. SOLUTION is

  - what `esolver -O SOLUTION` of QSopt_ex writes: what it leaves out is 0. It writes no ray, so an infeasible or unbounded answer is refused;
  - JSON, {"answer": "optimal", "columns": {..}, "prices": {..}}, or with "infeasible" and "ray", or "unbounded", "columns" and "direction":
    docs/COMING_FROM_MPS.md has each key. Numbers are whole, or texts such as "-7/3".

Prices that aren't there, a name that the model hasn't, a decimal number, a number of more than 100,000 digits above or below the line are refused, with the place. It ends with 0,
with 64 for wrong use, 65 where a file is refused, 66 where it can't be read, 73 where one can't be written."""
import argparse
import json
import os
import pathlib
import sys
from collections.abc import Callable
from typing import NoReturn

from mps360 import errors
from mps360 import mps
from mps360.cli import mps2job
from mps360.cli.mps2job import say
from mps360.cli.words import taken
from mps360.jobs.write import Job, exact_job
from mps360.listings.write import Answer
from mps360.listings.write import Refused
from mps360.model import Model
from mps360.output import command, write_file
from mps360.solutions import NoSolution, read_file

NAME = "solution2listing.py"


class Ended(Exception):
    "the status with which this ends, and what is said"
    def __init__(self, status: int, message: str) -> None:
        super().__init__(message)
        self.status = status


def told(message: object) -> None:
    "a line on standard error"
    say(f"{NAME}: {message}")


def wrong_use(message: str) -> NoReturn:
    "ends the command for wrong use"
    raise Ended(64, message)


def own_words(words: list[str]) -> tuple[list[str], str | None, str | None, str]:
    "the words without --listing LISTING, --vipr CERTIFICATE and the last one, and these three"
    try:
        words, listing = taken(words, "--listing")
        words, certificate = taken(words, "--vipr")
    except ValueError as cause:
        raise Ended(64, str(cause)) from None
    if len(words) < 2 or words[-1].startswith("-"):
        raise Ended(64, "MODEL.mps and SOLUTION are two files; --help says what there is")
    return words[:-1], listing, certificate, words[-1]


def model_of(options: argparse.Namespace) -> Model:
    "the model of the file"
    try:
        return mps.read_file(options.file, mps2job.reading_of(options))
    except OSError as cause:
        raise Ended(66, f"can't read {options.file}: {cause.strerror}") from None
    except errors.Refused as cause:
        raise Ended(65, f"{options.file}: {cause}") from None


def answer_of(solution: str, model: Model) -> Answer:
    "the solution, by the names of the model"
    try:
        return read_file(solution, model)
    except OSError as cause:
        raise Ended(66, f"can't read {solution}: {cause.strerror}") from None
    except NoSolution as cause:
        raise Ended(65, f"{solution}: {cause}") from None


def made(options: argparse.Namespace, solution: str) -> tuple[Job, str]:
    "the job, and the listing of the solution"
    job, _, listing = answered(options, solution)
    return job, listing


def answered(options: argparse.Namespace, solution: str) -> tuple[Job, Answer, str]:
    "the job, the answer of the solution by the file's names, and its listing"
    model = model_of(options)
    try:
        job = exact_job(model, False, model.name or os.path.basename(options.file))
    except errors.Refused as cause:
        raise Ended(65, f"{options.file}: {cause}") from None
    answer = answer_of(solution, model)
    from mps360.long_answers import listing_of
    try:
        return job, answer, listing_of(job, answer)
    except Refused as cause:
        raise Ended(65, f"{solution}: {cause}") from None


def certify(options: argparse.Namespace, solution: str, certificate: str) -> None:
    "writes the certificate of the solution"
    from mps360 import vipr, vipr_answers
    check_places(certificate, options.file, solution)
    model = model_of(options)
    try:
        found = vipr_answers.of_answer(model, answer_of(solution, model))
    except vipr.Wrong as cause:
        raise Ended(65, f"{solution}: {cause}") from None
    for sentence in model.said:
        told(sentence)
    if model.constant:
        told(f"the objective's constant {model.constant} isn't in the certificate")
    write_file(certificate, "\n".join(vipr.lines_of(found, vipr_answers.COMMENT)) + "\n")


def check_places(*paths: pathlib.Path | str | None) -> None:
    "nothing is written over another file of this call"
    places = [os.path.realpath(path) for path in paths if path]
    if len(set(places)) < len(places):
        raise Ended(64, "the files of this call are different files")


def put(job: Job, listing: str, options: argparse.Namespace, tell: Callable[[str], object]) -> None:
    "the job, its table of names and the listing go where they are wanted; what was changed is said"
    if job.renamed and not options.names:
        raise Ended(64, "names were shortened; say by --names MAP where the table of names goes")
    for sentence in job.said:
        tell(sentence)
    write_file(options.job, job.text)
    if options.names:
        write_file(options.names, json.dumps(job.name_map(), indent=1) + "\n")
    if options.listing:
        write_file(options.listing, listing)
    else:
        sys.stdout.write(listing)


def run(words: list[str]) -> int:
    "the command, or Ended"
    words, listing, certificate, solution = own_words(words)
    options = mps2job.parsed_options(words, wrong_use)
    options.listing = listing
    if certificate:
        if options.job or listing or options.names:
            raise Ended(64, "--vipr makes a certificate alone: -o, --listing and --names don't go with it")
        certify(options, solution, certificate)
        return 0
    if not options.job:
        raise Ended(64, "-o JOB is needed")
    check_places(options.job, options.names, listing, options.file, solution)
    job, text = made(options, solution)
    put(job, text, options, told)
    return 0


@command(NAME)
def main(words: list[str] | None = None) -> int:
    "the command; its status"
    words = sys.argv[1:] if words is None else words
    try:
        return run(words)
    except Ended as end:
        told(end)
        return end.status
