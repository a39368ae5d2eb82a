"""Attests another solver's exact answer: makes a job of the MPS file and a listing of the solution, and asks the proved checker of listings,
which knows no solver, whether its numbers prove it. One line on standard output says the outcome. mps360check is asked first, and where a number may
be too long for it mps360long, which reads numbers of any length; then the line names it.

usage: attest [--keep FOLDER] [--program FILE] [..] MODEL.mps SOLUTION

  --keep FOLDER   the job, its listing and the table of names stay in FOLDER
  --program FILE  another program than scripts/mps360check and scripts/mps360long: it gets the job on standard input, and the listing in the file
                  LISTING of the present folder. What it says isn't called attested

Each other option is one of mps2job.py, which reads the file: what it changes, leaves out or chooses is said on standard error. SOLUTION is what
solution2listing.py takes: what `esolver -O` of QSopt_ex writes, or JSON.

It ends with 0 where the answer is attested; with 40 where its numbers don't prove it, or don't fit 127 bits while no mps360long is at hand, 42 where an
operation of a test doesn't, 43 where the listing is too long, other statuses of the checker as they are; with 64 for wrong use, 65 where a file is
refused, 66 where it can't be read, 70 where there is no checker, 73 where a file can't be written."""
from __future__ import annotations

import json
import pathlib
import re
import subprocess
import sys
from fractions import Fraction

from mps360 import at_hand, checkers, notes, programs
from mps360.cli import mps2job
from mps360.cli import solution2listing
from mps360.cli.solution2listing import Ended
from mps360.checkers import UNCHECKED, WRONG, Said
from mps360.cli.words import taken
from mps360.errors import NoProgram
from mps360.jobs.write import Job
from mps360.listings.write import Answer
from mps360.model import Model
from mps360.output import command, make_folder, temporary_folder, write_file
from mps360.text import as_lines, as_text, marked_decimal, short_text

NAME = "attest"
REFUSED = {WRONG: "its numbers don't prove it", 41: "it can't be attested", UNCHECKED: checkers.OUT_OF_127_BITS, 43: "its listing has more than 64,000,000 bytes"}
VERDICT = re.compile(r"^PRIMAL (OPTIMAL|INFEASIBLE|UNBOUNDED) STEPS \d+ (?:OBJECTIVE (\S+))?", re.M)
MEANS = {"INFEASIBLE": ", no plan keeps all limits", "UNBOUNDED": ", the objective has no bound"}


def told(message: object) -> None:
    "a line on standard error"
    mps2job.say(f"{NAME}: {as_lines(str(message))}")


def checker_of(name: str) -> at_hand.Tool | None:
    "the checker of this name; where it isn't at hand, and there are sources of it, the command that compiles it. That it runs unproved is said"
    tool = at_hand.listing_checker(name)
    if tool is None:
        # (the command compiles it, and says so; or it says why there is none)
        may_be_made = name == at_hand.CHECKER or programs.may_be_compiled(name)
        return at_hand.Tool((str(programs.COMMANDS / name), "JOB", "LISTING"), "unproved", name=name) if may_be_made else None
    if tool.kind == "unproved":
        at_hand.say_unproved(name)
    return tool


def asked(checker: at_hand.Tool, job: bytes, listing: bytes) -> Said:
    "what a checker says; Ended where that is no answer"
    program = checker.command
    with temporary_folder() as folder:
        for name, text in (("JOB", job), ("LISTING", listing)):
            write_file(pathlib.Path(folder, name), text)
        try:
            with open(pathlib.Path(folder, "JOB"), "rb") as given:
                ended = subprocess.run(program, check=False, stdin=given, stdout=subprocess.PIPE, cwd=folder)
        except OSError as cause:
            raise Ended(70, f"can't run {program[0]}: {cause.strerror}") from None
    said = Said(ended.returncode, ended.stdout.decode("latin-1"))
    if said.status == 70 or not said.is_answer:
        raise Ended(70, f"{program[0]} ended with {said.status} and gave no answer: {said.text[:80]!r}")
    return said


def answer_of(file: str | None, job: bytes, listing: bytes) -> tuple[at_hand.Tool, Said]:
    "the checker that has the last word, the one that is named where one is, and what it says"
    try:
        there = at_hand.checkers_at_hand(file, checker_of)
    except NoProgram as cause:
        raise Ended(70, str(cause)) from None
    found = checkers.in_turn(there, listing, lambda checker: asked(checker, job, listing))
    assert found is not None
    return found


def attested_by(checker: at_hand.Tool) -> str:
    "how the line begins that says the outcome of an answer that is attested"
    who = checkers.title(checker)
    return {"proved": "attested" + ("" if checker.name == at_hand.CHECKER else f" by {checker.name}"), "unproved": f"not proved, since {who} ran unproved; it attests",
            "other": "not proved, since another program ran; it attests"}[checker.kind]


def first_fault(model: Model, answer: Answer) -> str | None:
    "the first test that the answer fails, in the file's names"
    from mps360 import solution_checks
    return solution_checks.first_fault(model, answer)


def refusal(checker: at_hand.Tool, said: Said, listing: str, model: Model, answer: Answer) -> str:
    "why an answer isn't attested"
    status, number = said.status, said.line
    lines = listing.split("\n")
    place = f": line {number} of the listing, {lines[number - 1][:60]}" if number and number <= len(lines) else ""
    limit = checkers.limit_met(checker, said, listing.encode("latin-1"))
    cause = limit or REFUSED.get(status, f"the checker ended with {status}")
    fault = first_fault(model, answer) if status == WRONG and not limit else None
    return f"not attested: {cause}" + (f": {fault} ({place[2:]})" if fault else place)


def outcome(listing: str, model: Model) -> str:
    "what the answer is"
    found = VERDICT.search(listing)
    verdict, objective = (found[1], found[2]) if found else ("", "0")
    changed = notes.after_verdict(model)
    if verdict != "OPTIMAL":
        return verdict + changed + MEANS.get(verdict, ", the listing has no verdict")
    value = Fraction(objective)
    return f"OPTIMAL{changed}, objective {said_of(value)}" + (f", {said_of(value + model.constant)} with the file's constant" if model.constant else "")


def said_of(value: Fraction) -> str:
    "a number; where it is long, its first digits and its decimal value"
    text = short_text(value)
    return text if text == str(value) else f"{text}, {marked_decimal(value)}"


def kept(folder: str, job: Job, listing: str, others: tuple[str, str]) -> None:
    "the job, its listing and the table of names stay"
    texts = {pathlib.Path(folder, f"model.{ending}"): text for ending, text in (("job", job.text), ("listing", listing), ("names", json.dumps(job.name_map(), indent=1) + "\n"))}
    solution2listing.check_places(*texts, *others)
    make_folder(folder)
    for path, text in texts.items():
        write_file(path, text)


def run(words: list[str]) -> int:
    "the command, or Ended"
    try:
        words, keep = taken(words, "--keep")
        words, program = taken(words, "--program")
    except ValueError as cause:
        raise Ended(64, str(cause)) from None
    if len(words) < 2 or words[-1].startswith("-"):
        raise Ended(64, "MODEL.mps and SOLUTION are two files; --help says what there is")
    options = mps2job.parsed_options(words[:-1], solution2listing.wrong_use)
    if options.job or options.names:
        raise Ended(64, "--keep FOLDER keeps the job and the table of names")
    job, answer, listing = solution2listing.answered(options, words[-1])
    for sentence in job.said if keep else job.said_without(job.of_table, job.of_listing):
        told(sentence)
    if keep:
        kept(keep, job, listing, (options.file, words[-1]))
    checker, said = answer_of(program, job.text.encode(), listing.encode())
    print(as_text(refusal(checker, said, listing, job.file, answer) if said.status else f"{attested_by(checker)}: {outcome(listing, job.file)}"))
    return said.status


@command(NAME)
def main(words: list[str] | None = None) -> int:
    "the command; its status"
    words = sys.argv[1:] if words is None else words
    try:
        return run(words)
    except Ended as end:
        told(end)
        return end.status
