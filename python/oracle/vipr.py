#!/usr/bin/env python3
"""Checks a VIPR certificate of a linear program (VER 1.0, and of VER 1.1 what
has all multipliers), by a reading of the format of its own: that its solution
keeps each constraint, that each derived constraint follows by its multipliers,
and that the last one proves what RTP states.

usage: check_vipr.py CERTIFICATE
           CERTIFICATE may be gzipped; - is standard input
       check_vipr.py --help | --version

It prints what is proved, infeasible or the objective's bounds. Derivations by
other means than multipliers (lin), as branching needs them, are refused.

It ends with 0; with 1 where something isn't so, with the place; with 64 for
wrong use, 65 where the file isn't such a certificate, 66 where it can't be
read, 73 where standard output can't be written."""
from __future__ import annotations

import errno
import gzip
import io
import os
import re
import sys
import zlib
from dataclasses import dataclass, field
from fractions import Fraction

MOST_BYTES = 1_000_000_000
DIGITS = "[0-9]{1,100000}"
NUMBER = re.compile(rf"[+-]?{DIGITS}(?:/{DIGITS})?|[+-]?(?:{DIGITS}(?:\.(?:{DIGITS})?)?|\.{DIGITS})(?:[eE][+-]?[0-9]{{1,3}})?")
# (where Python has a limit on the digits of a number)
if hasattr(sys, "set_int_max_str_digits"):
    sys.set_int_max_str_digits(0)
SENSES = ("E", "L", "G")


class NoCertificate(Exception):
    "the text isn't a certificate of this form"


class Wrong(Exception):
    "what the certificate says isn't so"


@dataclass
class Constraint:
    "a constraint, given or derived: a sum of variables, by their numbers, that is equal to, at most or at least its side"
    name: str
    sense: str
    side: Fraction
    entries: dict[int, Fraction]
    lin: dict[int, Fraction] | None = None      # the multipliers of the constraints before it; None for one of the problem
    line: int = 0

    def is_absurd(self) -> bool:
        return not any(self.entries.values()) and {"E": self.side != 0, "L": self.side < 0, "G": self.side > 0}[self.sense]

    def dominates(self, other: Constraint) -> bool:
        "whether what keeps this one keeps the other"
        if self.is_absurd():
            return True
        if nonzero(self.entries) != nonzero(other.entries) or self.sense not in ("E", other.sense):
            return False
        return {"E": self.side == other.side, "L": self.side <= other.side, "G": self.side >= other.side}[other.sense]


@dataclass
class Certificate:
    variables: list[str] = field(default_factory=list)
    integers: list[int] = field(default_factory=list)
    sense: str = "min"
    objective: dict[int, Fraction] = field(default_factory=dict)
    constraints: list[Constraint] = field(default_factory=list)   # those of the problem, then the derived ones
    count: int = 0                                    # how many are the problem's
    bounds: tuple[Fraction | None, Fraction | None] | None = None   # None where it is to be infeasible, else the lower and the upper, None for none
    solutions: list[tuple[str, dict[int, Fraction]]] = field(default_factory=list)


def nonzero(entries: dict[int, Fraction]) -> dict[int, Fraction]:
    return {k: value for k, value in entries.items() if value}


# ---- reading

class Reader:
    "the words of a certificate"
    def __init__(self, text: str) -> None:
        self.words = [(word, place) for place, line in enumerate(text.split("\n"), 1) if not line.lstrip().startswith("%") for word in line.split()]
        self.at = 0

    def refuse(self, wanted: str) -> NoCertificate:
        line = self.words[min(self.at, len(self.words)) - 1][1] if self.words else 1
        return NoCertificate(f"line {line}: {wanted}")

    def word(self) -> str:
        self.at += 1
        if self.at > len(self.words):
            raise self.refuse("the certificate ends too early")
        return self.words[self.at - 1][0]

    def line(self) -> int:
        return self.words[self.at - 1][1]

    def literal(self, *wanted: str) -> str:
        word = self.word()
        if word not in wanted:
            raise self.refuse(f"{word[:40]!r}, where {' or '.join(wanted)} is due")
        return word

    def whole(self, least: int, most: int) -> int:
        word = self.word()
        if not re.fullmatch(r"-?[0-9]{1,12}", word) or not least <= int(word) <= most:
            raise self.refuse(f"{word[:40]!r}, where a whole number from {least} to {most} is due")
        return int(word)

    def number(self) -> Fraction:
        word = self.word()
        if not NUMBER.fullmatch(word) or re.search(r"/0+$", word):
            raise self.refuse(f"{word[:40]!r}, where a number is due")
        return Fraction(word)

    def entries(self, most: int) -> dict[int, Fraction]:
        "a count, and so many pairs of an index below most and a number"
        entries = {}
        for _ in range(self.whole(0, most)):
            k = self.whole(0, most - 1)
            if k in entries:
                raise self.refuse(f"the index {k} stands twice")
            entries[k] = self.number()
        return entries


def parse(text: str) -> Certificate:
    "the certificate of a text"
    reader, found = Reader(text), Certificate()
    reader.literal("VER")
    reader.literal("1.0", "1.1")
    reader.literal("VAR")
    found.variables = [reader.word() for _ in range(reader.whole(0, 10 ** 7))]
    count = len(found.variables)
    reader.literal("INT")
    found.integers = [reader.whole(0, count - 1) for _ in range(reader.whole(0, count))]
    reader.literal("OBJ")
    found.sense = reader.literal("min", "max")
    found.objective = reader.entries(count)
    reader.literal("CON")
    found.count = reader.whole(0, 10 ** 7)
    reader.whole(0, found.count)
    for _ in range(found.count):
        found.constraints.append(constraint(reader, found))
    reader.literal("RTP")
    if reader.literal("infeas", "range") == "range":
        found.bounds = bound(reader, "-inf"), bound(reader, "inf")
    reader.literal("SOL")
    for _ in range(reader.whole(0, 10 ** 6)):
        found.solutions.append((reader.word(), reader.entries(count)))
    reader.literal("DER")
    for _ in range(reader.whole(0, 10 ** 7)):
        found.constraints.append(derived(reader, found))
    if reader.at < len(reader.words):
        reader.word()
        raise reader.refuse("something follows the last derivation")
    return found


def bound(reader: Reader, none: str) -> Fraction | None:
    "a bound of the objective; None where its word says that there is none"
    word = reader.word()
    if word == none:
        return None
    reader.at -= 1
    return reader.number()


def constraint(reader: Reader, found: Certificate) -> Constraint:
    "a constraint, up to its sum"
    name, sense, side, line = reader.word(), reader.literal(*SENSES), reader.number(), reader.line()
    if reader.at < len(reader.words) and reader.words[reader.at][0] == "OBJ":
        reader.word()
        entries = dict(found.objective)
    else:
        entries = reader.entries(len(found.variables))
    return Constraint(name, sense, side, entries, line=line)


def derived(reader: Reader, found: Certificate) -> Constraint:
    "a derived constraint with its multipliers"
    one = constraint(reader, found)
    reader.literal("{")
    kind = reader.word()
    if kind != "lin":
        raise reader.refuse(f"the derivation {one.name[:40]} is by {kind[:20]!r}, and of a linear program all are by lin")
    if reader.at < len(reader.words) and (word := reader.words[reader.at][0]) in ("weak", "incomplete"):
        raise reader.refuse(f"the derivation {one.name[:40]} is {word}, and leaves multipliers to a solver: viprcomp of VIPR writes them all")
    one.lin = reader.entries(len(found.constraints))
    reader.literal("}")
    reader.whole(-1, 10 ** 9)
    return one


# ---- checking

def worth(entries: dict[int, Fraction], values: dict[int, Fraction]) -> Fraction:
    return sum((entry * values.get(k, Fraction(0)) for k, entry in entries.items()), Fraction(0))


def keeps(one: Constraint, values: dict[int, Fraction]) -> bool:
    activity = worth(one.entries, values)
    return {"E": activity == one.side, "L": activity <= one.side, "G": activity >= one.side}[one.sense]


def combined(constraints: list[Constraint], lin: dict[int, Fraction]) -> Constraint | None:
    "the sum of constraints, each times its multiplier; None where their senses don't go together"
    entries: dict[int, Fraction] = {}
    side, senses = Fraction(0), set[str]()
    for index, factor in nonzero(lin).items():
        one = constraints[index]
        if one.sense != "E":
            senses.add(one.sense if factor > 0 else {"L": "G", "G": "L"}[one.sense])
        side += factor * one.side
        for k, entry in one.entries.items():
            entries[k] = entries.get(k, Fraction(0)) + factor * entry
    return None if len(senses) > 1 else Constraint("", senses.pop() if senses else "E", side, nonzero(entries))


def check_solution(found: Certificate, name: str, values: dict[int, Fraction]) -> None:
    for k in found.integers:
        if values.get(k, Fraction(0)).denominator > 1:
            raise Wrong(f"the solution {name}: {found.variables[k]} isn't whole")
    for one in found.constraints[:found.count]:
        if not keeps(one, values):
            raise Wrong(f"the solution {name} breaks the constraint {one.name} of line {one.line}")


def check(found: Certificate) -> str:
    "what is proved, as a sentence"
    for name, values in found.solutions:
        check_solution(found, name, values)
    for one in found.constraints[found.count:]:
        whole = combined(found.constraints, one.lin or {})
        if whole is None:
            raise Wrong(f"line {one.line}: the multipliers of {one.name} add up at-most and at-least constraints")
        if not whole.dominates(one):
            raise Wrong(f"line {one.line}: {one.name} doesn't follow by its multipliers")
    last = found.constraints[-1] if found.constraints else None
    if found.bounds is None:
        if found.solutions:
            raise Wrong("it is to be infeasible, and there is a solution")
        if last is None or not last.is_absurd():
            raise Wrong("the last constraint isn't one that nothing keeps")
        return "infeasible"
    lower, upper = found.bounds
    proved, reached = (lower, upper) if found.sense == "min" else (upper, lower)
    target = Constraint("", "G" if found.sense == "min" else "L", proved, found.objective) if proved is not None else None
    if target and (last is None or not last.dominates(target)):
        raise Wrong(f"the last constraint doesn't prove that the objective is at {'least' if found.sense == 'min' else 'most'} {proved}")
    objectives = [worth(found.objective, values) for _, values in found.solutions]
    if reached is not None and not any(value <= reached if found.sense == "min" else value >= reached for value in objectives):
        raise Wrong(f"no solution has an objective of {reached} or better")
    if lower is not None and lower == upper:
        return f"optimal, the objective is {lower}"
    return f"the objective is from {'-inf' if lower is None else lower} to {'inf' if upper is None else upper}"


def read_file(path: str) -> Certificate:
    "the certificate of a file, gzipped or not; - is standard input"
    if path == "-":
        if sys.stdin is None:
            raise OSError(errno.EBADF, "it is closed")
        data = sys.stdin.buffer.read(MOST_BYTES)
    else:
        with open(path, "rb") as source:
            data = source.read(MOST_BYTES)
    if data[:2] == b"\x1f\x8b":
        try:
            with gzip.open(io.BytesIO(data)) as packed:
                data = packed.read(MOST_BYTES)
        except (OSError, EOFError, zlib.error) as cause:
            raise NoCertificate(f"it begins as a gzipped file, and isn't one: {cause}") from None
    return parse(data.decode("latin-1"))


def say(message: str) -> None:
    print("".join(letter if " " <= letter <= "~" else "?" for letter in f"check_vipr.py: {message}"), file=sys.stderr)


def printed(text: str) -> int:
    "the status of printing a text: 0, or 73 where standard output doesn't take all of it, which is said"
    try:
        if sys.stdout is None:
            raise OSError(errno.EBADF, "it is closed")
        print(text, flush=True)
    except OSError as cause:
        say(f"can't write to standard output: {cause.strerror}")
        if sys.stdout:
            # (nor is it tried again when Python ends)
            os.dup2(os.open(os.devnull, os.O_WRONLY), sys.stdout.fileno())
        return 73
    return 0


def main(words: list[str]) -> int:
    "the command; its status"
    if words and words[0] in ("-h", "--help"):
        return printed(__doc__ or "")
    if words == ["--version"]:
        return printed("check_vipr.py, of VIPR certificates of VER 1.0 and 1.1")
    if len(words) != 1:
        say("one certificate is due; --help says what there is")
        return 64
    try:
        told = check(read_file(words[0]))
    except OSError as cause:
        say(f"can't read {words[0]}: {cause.strerror}")
        return 66
    except NoCertificate as cause:
        say(f"{words[0]}: {cause}")
        return 65
    except Wrong as cause:
        say(f"{words[0]}: {cause}")
        return 1
    return printed(told)


if __name__ == "__main__":
    sys.exit(main(sys.argv[1:]))
