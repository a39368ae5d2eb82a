#!/usr/bin/env python3
"""Compares what is said of listings with answers that came with them: by the rules read apart (oracle/attesting.py), and by a program.

usage: given_answers.py [--checker NAME] [--proved | --unproved | --program FILE] FILE

  --checker NAME   by whose rules: mps360long, where nothing is said, or mps360check
  --proved         the proved program of this name is asked too
  --unproved       the same of the program as it stands, built once, where no proved one is
  --program FILE   the same of another program, which takes the job on standard input and the listing from the file LISTING in the present folder

Each line of FILE is a JSON object with the texts job, listing and answer, and the number status. It prints each case that differs, and ends with 1 where
one does, with 65 where FILE isn't of this form, with 70 where there is no program.

python/tests/data/long_listings.jsonl are 20 of 182 such cases that were handed in from outside, the smallest of their kinds: jobs with decimals, made at
random, and listings whose numbers don't fit 127 bits, half of them with a number changed. Their answers are those of a solver and a checker that share
nothing with this repository."""
from __future__ import annotations

import json
import pathlib
import sys
from collections.abc import Iterator

import places  # pylint: disable=unused-import  (the packages are known from here on)
from mps360 import programs
from oracle import attesting
from oracle.claims import OF_128_BITS, OF_ANY_LENGTH

RULES = {"mps360check": OF_128_BITS, "mps360long": OF_ANY_LENGTH}
Answer = tuple[int, str]


def cases(file: str) -> Iterator[tuple[bytes, bytes, Answer]]:
    "each job and listing of a file, and the status and the line that are right for them"
    with open(file, encoding="utf-8") as source:
        for line in source:
            case = json.loads(line)
            yield case["job"].encode("latin-1"), case["listing"].encode("latin-1"), (case["status"], case["answer"])


def differences(file: str, name: str, program: str | None) -> Iterator[str]:
    "what is said otherwise than it came, of each case of a file"
    for number, (job, listing, wanted) in enumerate(cases(file), 1):
        status, line = attesting.attest(job, listing, RULES[name])
        told = {"by the rules": (status, line + "\n")} | ({"by the program": programs.attested_by(program, job, listing)} if program else {})
        for who, said in told.items():
            if said != wanted:
                yield f"line {number}: {who} {said[1].strip()[:60]!r}, status {said[0]}, and it came with {wanted[1].strip()!r}, status {wanted[0]}"


def options_of(words: list[str]) -> tuple[str, str | None, str | None, str] | None:
    "the checker's name, which program is asked, its file, and the file of cases; None where the words are no use of this"
    name, asked, program, files = "mps360long", None, None, []
    given = iter(words)
    for word in given:
        if word == "--checker":
            name = next(given, "")
        elif word == "--program":
            asked, program = word, next(given, "")
        elif word in ("--proved", "--unproved"):
            asked = word
        else:
            files.append(word)
    is_use = name in RULES and len(files) == 1 and not files[0].startswith("-") and program != ""
    return (name, asked, program, files[0]) if is_use else None


def main(words: list[str]) -> int:
    "the command; its status"
    options = options_of(words)
    if options is None:
        print(__doc__)
        return 0 if words in (["-h"], ["--help"]) else 64
    name, asked, file, given = options
    wrong = 0
    try:
        program = str(pathlib.Path(file).resolve()) if file else programs.checker_program(asked == "--unproved", name) if asked else None
        for sentence in differences(given, name, program):
            wrong += 1
            print(f"given_answers.py: {sentence}", file=sys.stderr)
    except programs.NoProgram as cause:
        print(f"given_answers.py: {cause}", file=sys.stderr)
        return 70
    except (OSError, ValueError, KeyError, TypeError) as cause:
        print(f"given_answers.py: {given}: {cause}", file=sys.stderr)
        return 65
    print(f"{sum(1 for _ in cases(given))} cases, {wrong} answers differ")
    return wrong > 0


if __name__ == "__main__":
    sys.exit(main(sys.argv[1:]))
