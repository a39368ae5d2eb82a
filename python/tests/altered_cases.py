#!/usr/bin/env python3
"""Alters the attested listings of a file of cases again and again, and compares what a program says of each with the rules read apart
(oracle/attesting.py). It is for many alterations: of a listing only the statements behind the first changed line are walked anew, and the program
runs beside that walk.

usage: altered_cases.py [--checker NAME] [--proved | --unproved | --program FILE] [--keep FOLDER] FILE [FIRST [COUNT]]
       the alterations FIRST, FIRST + 1, .., by turns one of each case; 0 and 1000 where nothing is said. They are the same each time

  --checker NAME   by whose rules: mps360long, where nothing is said, or mps360check
  --proved         the proved program of this name is asked too
  --unproved       the same of the program as it stands, built once, where no proved one is
  --program FILE   the same of another program, which takes the job on standard input and the listing from the file LISTING in the present folder
  --keep FOLDER    each job and listing on which something is wrong goes there

FILE is of the form that given_answers.py takes. Every 500th altered listing is walked from its beginning too, which has to come to the same. What is
attested of an altered listing may differ from the listing that was altered only in what isn't attested, or in another proof, and is checked again as
a VIPR certificate, as altered_listings.py does. It prints how often which status came, ends with 1 where something is wrong, with 65 where FILE isn't of
its form or has no attested listing, with 70 where there is no program."""
from __future__ import annotations

import argparse
import collections
import contextlib
import copy
import os
import pathlib
import random
import re
import sys
import tempfile
from collections.abc import Callable, Iterator
from fractions import Fraction
from typing import Any

import altered_listings
import given_answers
from mps360 import programs
from oracle import attesting
from oracle.claims import ATTESTED, Checker, Found, Listing
from oracle.rules import Program, Stop, cut

WHOLE_EACH = 500
LONG = re.compile(r"(?<![\d/-])-?\d{6,}(?:/\d+)?|(?<![\d/-])-?\d+/\d{6,}")
LIMBS = (32, 63, 64, 96, 127, 128, 192, 256, 320)
PRIMES = (2, 3, 5, 7, 2 ** 31 - 1, 2 ** 61 - 1, 2 ** 64 - 59)
Answer = tuple[int, str]


# ---- alterations of long numbers

def near(chance: random.Random, value: Fraction) -> str:
    "another number that differs from this one by a limb, a prime, a digit or a factor, in lowest terms or not"
    top, bottom, shift = value.numerator, value.denominator, 1 << chance.choice(LIMBS)
    prime, sign = chance.choice(PRIMES), chance.choice((1, -1))
    made = chance.choice(((top + sign * shift, bottom), (top, bottom + shift), (top + sign * prime, bottom), (top + sign * prime * shift, bottom),
                          (top + sign * bottom, bottom), (top * prime, bottom), (top, bottom * prime), (-top, bottom), (bottom, top), (top ^ shift, bottom),
                          (top % shift, bottom), (top, bottom % shift), (top + sign, bottom), (top, bottom + sign), (0, 1)))
    if chance.random() < 0.15:
        return f"{top * prime}/{bottom * prime}"
    try:
        return str(Fraction(*made))
    except ZeroDivisionError:
        return f"{made[0]}/0"


def a_digit(chance: random.Random, word: str) -> str:
    "the number with a digit changed, left out, put in or exchanged with the next"
    place = chance.randrange(word.startswith("-"), len(word))
    other = chance.choice("0123456789")
    return chance.choice((word[:place] + other + word[place + 1:], word[:place] + word[place + 1:], word[:place] + other + word[place:],
                          word[:place] + word[place:place + 2][::-1] + word[place + 2:]))


def a_long_number(chance: random.Random, lines: list[str]) -> None:
    "one of the long numbers of a listing, changed"
    places = [place for place, line in enumerate(lines) if LONG.search(line)]
    if not places:
        return
    place = chance.choice(places)
    one = chance.choice(list(LONG.finditer(lines[place])))
    word = one[0]
    is_whole = not re.search(r"/0*$", word)
    changed = near(chance, Fraction(word)) if is_whole and chance.random() < 0.6 else a_digit(chance, word)
    lines[place] = lines[place][:one.start()] + changed + lines[place][one.end():]


def scaled(chance: random.Random, lines: list[str]) -> None:
    "each of a run of numbers at the ends of lines times a factor, as of a ray, which proves the same then if it is above 0"
    begins = [place for place, line in enumerate(lines) if " RAY " in line or " UNBOUNDED " in line or " INFEASIBLE " in line]
    if not begins:
        return
    factor, at = Fraction(chance.choice((1, 1, 1, -1)) * chance.randint(1, 2 ** 70), chance.randint(1, 2 ** 70)), chance.choice(begins) + 1
    while at < len(lines) and re.match(r" *\d+ ", lines[at]):
        head, _, word = lines[at].rpartition(" ")
        with contextlib.suppress(ValueError, ZeroDivisionError):
            lines[at] = f"{head} {Fraction(word) * factor}"
        at += 1


def exchanged(chance: random.Random, lines: list[str]) -> None:
    "two long numbers of a listing in each other's place"
    found = [(place, one.span(), one[0]) for place, line in enumerate(lines) for one in LONG.finditer(line)]
    if len(found) < 2:
        return
    two = sorted(chance.sample(found, 2), reverse=True)
    for (place, (start, end), _), word in zip(two, (two[1][2], two[0][2])):
        lines[place] = lines[place][:start] + word + lines[place][end:]


KINDS: tuple[Callable[[random.Random, list[str]], None], ...] = (*altered_listings.KINDS, *[a_long_number] * 14, scaled, scaled, exchanged, exchanged)


def altered(chance: random.Random, lines: list[str]) -> list[str]:
    "the lines of an altered listing"
    changed = list(lines)
    for _ in range(chance.choice((1, 1, 1, 1, 2))):
        if changed:
            chance.choice(KINDS)(chance, changed)
    return changed


# ---- walks that begin in the middle

class Kept(attesting.Walk):
    "a walk that keeps how it stood before each statement, and makes each linear program once"

    def __init__(self, job: bytes, listing: bytes, by: Checker) -> None:
        super().__init__(job, listing, by)
        self.made: dict[Any, Any] = {}
        self.stood: list[Kept] = []
        self.program: Program | None = None

    def statements(self, program: Program) -> None:
        self.program = program
        super().statements(program)

    def execute(self, one: Any, labels: dict[str, int]) -> str | None:
        before = self.copied()
        before.next, before.executed = self.next - 1, self.executed - 1
        self.stood.append(before)
        return super().execute(one, labels)

    def copied(self) -> Kept:
        "the walk as it stands"
        other = copy.copy(self)
        other.cells, other.demands, other.problems, other.stood = dict(self.cells), dict(self.demands), dict(self.problems), []
        other.listing = copy.copy(self.listing)
        return other

    def setup_lp(self, setup: Any) -> Any:
        problem, options = setup
        key = id(problem), self.cells.get("XOBJ"), self.cells.get("XRHS"), options
        if key not in self.made:
            # (with the problem, so that no other one gets its number)
            self.made[key] = problem, super().setup_lp(setup)
        return self.made[key][1]


def program_of(walk: Kept) -> Program:
    "the control program of a walk that has begun"
    assert walk.program is not None
    return walk.program


def told_of(walk: Kept) -> Answer:
    "the status and the line to which the rest of a walk comes"
    try:
        walk.statements(program_of(walk))
    except Stop as stop:
        try:
            walk.ends(stop.text)
        except Found as found:
            return attesting.told(found)
    except Found as found:
        return attesting.told(found)
    raise AssertionError("a walk has an end")


class Case:
    "a job and its attested listing"

    def __init__(self, job: bytes, listing: bytes, by: Checker) -> None:
        self.job, self.listing, self.by = job, listing, by
        self.lines = listing.decode("latin-1").split("\n")[:-1]
        self.walk = Kept(job, listing, by)
        self.walk.cards = cut(job)
        program = Program(self.walk.cards)
        self.walk.place, self.walk.program = program.ends or 0, program
        self.is_attested = told_of(self.walk)[0] == ATTESTED

    def answer(self, lines: list[str]) -> Answer:
        "what is due for a listing of these lines, by a walk from the last statement before which no line differs, nor the next one that it might see"
        same = next((k for k, (one, other) in enumerate(zip(lines, self.lines)) if one != other), min(len(lines), len(self.lines)))
        before = [walk for walk in self.walk.stood if walk.listing.at < same]
        if not before:
            return attesting.attest(self.job, text_of(lines), self.by)
        walk = before[-1].copied()
        walk.listing = Listing(text_of(lines).decode("latin-1"))
        walk.listing.at = before[-1].listing.at
        return told_of(walk)


def text_of(lines: list[str]) -> bytes:
    "the listing of these lines"
    return "".join(f"{line}\n" for line in lines).encode("latin-1")


# ---- the program

class Asked:
    "a program that is started in the present folder, and waited for later"

    def __init__(self, program: str, job: bytes, listing: bytes) -> None:
        for name, content in (("JOB", job), ("LISTING", listing)):
            with open(name, "wb", 0) as file:
                file.write(content)
        actions = [(os.POSIX_SPAWN_OPEN, 0, "JOB", os.O_RDONLY, 0), (os.POSIX_SPAWN_OPEN, 1, "ANSWER", os.O_WRONLY | os.O_CREAT | os.O_TRUNC, 0o600)]
        self.child = os.posix_spawn(program, [program], os.environ, file_actions=actions)

    def answer(self) -> Answer:
        _, status = os.waitpid(self.child, 0)
        with open("ANSWER", encoding="latin-1") as file:
            return os.waitstatus_to_exitcode(status), file.read()


def faults(case: Case, number: int, lines: list[str], program: str | None) -> tuple[int, list[str]]:
    "the status by the rules, and what is wrong with what is said of an altered listing"
    listing, told = text_of(lines), []
    asked = Asked(program, case.job, listing) if program else None
    status, line = case.answer(lines)
    if asked and (said := asked.answer()) != (status, line + "\n"):
        told.append(f"the program says {said[1].strip()[:60]!r}, status {said[0]}, and by the rules it is {line!r}, status {status}")
    if number % WHOLE_EACH == 0 and (whole := attesting.attest(case.job, listing, case.by)) != (status, line):
        told.append(f"from its beginning it is {whole[1]!r}, and from the statement before the change {line!r}")
    if status == ATTESTED and lines != case.lines:
        if list(altered_listings.claims(listing)) != list(altered_listings.claims(case.listing)):
            told.append("an altered claim is attested")
        if not altered_listings.is_proved_again(case.job, listing, case.by):
            told.append("what is attested isn't so by its certificate")
    return status, told


def alterations(cases: list[Case], numbers: range) -> Iterator[tuple[int, Case, list[str]]]:
    "each altered listing of these numbers with its number and its case, by turns one of each case"
    for number in numbers:
        case = cases[number % len(cases)]
        yield number, case, altered(random.Random(f"case {number}"), case.lines)


def keep(folder: str, number: int, case: Case, lines: list[str]) -> None:
    "the job and the listing as files"
    pathlib.Path(folder).mkdir(parents=True, exist_ok=True)
    for ending, content in (("job", case.job), ("listing", text_of(lines))):
        pathlib.Path(folder, f"{number}.{ending}").write_bytes(content)


def compare(options: argparse.Namespace, program: str | None, cases: list[Case]) -> int:
    "the alterations, one after the other; how many are wrong"
    statuses, wrong = collections.Counter[int](), 0
    for number, case, lines in alterations(cases, range(options.first, options.first + options.count)):
        status, told = faults(case, number, lines, program)
        statuses[status] += 1
        wrong += bool(told)
        for sentence in told:
            print(f"altered_cases.py: alteration {number}: {sentence}", file=sys.stderr, flush=True)
        if told and options.keep:
            keep(options.keep, number, case, lines)
    counts = ", ".join(f"{status}: {times}" for status, times in sorted(statuses.items()))
    print(f"{len(cases)} listings, {sum(statuses.values())} altered, {wrong} wrong; {counts}")
    return wrong


def options_of(words: list[str]) -> argparse.Namespace:
    "the options"
    parser = argparse.ArgumentParser(prog="altered_cases.py", usage=(__doc__ or "").split("usage: ")[1].split("\n")[0])
    parser.add_argument("--checker", choices=sorted(given_answers.RULES), default="mps360long")
    asked = parser.add_mutually_exclusive_group()
    asked.add_argument("--proved", action="store_true")
    asked.add_argument("--unproved", action="store_true")
    asked.add_argument("--program", type=lambda word: str(pathlib.Path(word).resolve()))
    parser.add_argument("--keep", type=lambda word: str(pathlib.Path(word).resolve()))
    parser.add_argument("file")
    parser.add_argument("first", nargs="?", type=int, default=0)
    parser.add_argument("count", nargs="?", type=int, default=1000)
    return parser.parse_intermixed_args(words)


def main(words: list[str]) -> int:
    "the command; its status"
    if any(word in ("-h", "--help") for word in words):
        print(__doc__)
        return 0
    try:
        options = options_of(words)
    except SystemExit:
        return 64
    try:
        program = options.program
        if options.proved or options.unproved:
            program = programs.checker_program(options.unproved, options.checker)
        cases = [case for job, listing, (status, _) in given_answers.cases(options.file) if status == ATTESTED
                 for case in [Case(job, listing, given_answers.RULES[options.checker])] if case.is_attested]
    except programs.NoProgram as cause:
        print(f"altered_cases.py: {cause}", file=sys.stderr)
        return 70
    except (OSError, ValueError, KeyError, TypeError) as cause:
        print(f"altered_cases.py: {options.file}: {cause}", file=sys.stderr)
        return 65
    if not cases:
        print(f"altered_cases.py: {options.file}: no listing of it is attested by the rules of {options.checker}", file=sys.stderr)
        return 65
    before = os.getcwd()
    with tempfile.TemporaryDirectory() as folder:
        os.chdir(folder)
        try:
            return int(compare(options, program, cases) > 0)
        finally:
            os.chdir(before)


if __name__ == "__main__":
    sys.exit(main(sys.argv[1:]))
