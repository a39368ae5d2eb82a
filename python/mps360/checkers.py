"""Which checker of listings is asked: mps360check first, and where a number may have been too long for it mps360long, which reads numbers of any length.

    asked = in_turn(checkers, LISTING, ask)      the checker whose answer it is, and the answer; None where neither is at hand

An answer is the status of a checker and the line that it prints. Nothing is attested here."""
from __future__ import annotations

import re
from collections.abc import Callable
from typing import NamedTuple

from mps360.at_hand import CHECKER, LONG_CHECKER, PROVES, Checkers, Tool
from mps360.numbers import GREATEST_OF_128_BITS, MOST_DIGITS

ATTESTED, WRONG, UNCHECKED = 0, 40, 42
# why a listing isn't attested: by the one checker, and by the other
OUT_OF_127_BITS = "an operation of its test doesn't fit 127 bits"
PAST_127_BITS = f"a number in it doesn't fit 127 bits, and the checker mps360long, which reads longer ones, isn't at hand ({PROVES})"
LONGEST = f"a number in it has more than {MOST_DIGITS:,} digits above or below the line"
ANSWER = re.compile(r"(?:ATTESTED \d+ REPORTS|(?:WRONG|OPEN|UNCHECKED) LINE (\d{1,20})|LONG LISTING|STOP .*)\n")
# digits as long as those of the greatest number of 127 bits, or longer
MANY_DIGITS = re.compile(rf"\d{{{len(str(GREATEST_OF_128_BITS))},}}".encode())


class Said(NamedTuple):
    "what a checker says of a listing: its status, and what it prints"
    status: int
    text: str

    @property
    def line(self) -> int | None:
        "the line of the listing that it names"
        found = ANSWER.fullmatch(self.text)
        return int(found[1]) if found and found[1] else None

    @property
    def is_answer(self) -> bool:
        "whether this is how a checker answers: that there was no room for its line or no memory is an answer too"
        return (ANSWER.fullmatch(self.text) is not None or self.status in (25, 28)) and self.text.startswith("ATTESTED ") == (self.status == ATTESTED)


def has_long_number(listing: bytes, line: int = 1) -> bool:
    "whether a number of more than 127 bits stands in a listing, from this line on"
    place = 0
    for _ in range(line - 1):
        place = listing.find(b"\n", place) + 1
        if not place:
            return False
    greatest = str(GREATEST_OF_128_BITS).encode()
    return any(len(found[0]) > len(greatest) or found[0] > greatest for found in MANY_DIGITS.finditer(listing, place))


def may_be_for_length(said: Said, listing: bytes) -> bool:
    "whether a checker of 127 bits may have said so for no more than the length of a number"
    return said.status == UNCHECKED or said.status == WRONG and has_long_number(listing, said.line or 1)


def in_turn(checkers: Checkers, listing: bytes, ask: Callable[[Tool], Said]) -> tuple[Tool, Said] | None:
    "asks the one checker, and the other where the length of a number may stand in the way; the one isn't compiled where a long number stands in the listing"
    short = checkers.short
    if short and short.prepare and has_long_number(listing) and checkers.long:
        short = None
    said = ask(short) if short else None
    if short and said and not may_be_for_length(said, listing):
        return short, said
    if checkers.long:
        return checkers.long, ask(checkers.long)
    return (short, said) if short and said else None


def limit_met(tool: Tool, said: Said, listing: bytes) -> str | None:
    "that a number is too long, where that may be why a listing isn't attested"
    if tool.kind == "other":
        return None
    if tool.name == LONG_CHECKER:
        return LONGEST if said.status == UNCHECKED else None
    return PAST_127_BITS if said.status == WRONG and may_be_for_length(said, listing) else None


def title(tool: Tool) -> str:
    "what a checker is called in a sentence"
    return "the checker" if tool.name == CHECKER else f"the checker {tool.name}"
