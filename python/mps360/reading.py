"How the file of a model is read, whatever its form, and what is told of its numbers."
from __future__ import annotations

from collections.abc import Iterator
from dataclasses import dataclass
from fractions import Fraction

from mps360.model import Model
from mps360.numbers import decimal_text, finite_number
from mps360.text import counted

INFINITY = Fraction(10) ** 20   # a limit of this size and more is none


@dataclass(frozen=True)
class Reading:
    "how a file is read"
    form: str = "either"             # fields are words, unless their columns say otherwise; "free": words; "fixed": by their columns
    numbers: str = "job"             # "exact", "job" or "round"
    doubles: bool = False            # a number of 16 or 17 digits is the shortest decimal that is the same double
    relax: bool = False              # columns of whole numbers are taken as columns of any numbers
    marker_upper: str | None = None  # the upper limit of such a column between markers that has no bound: "1" or "none"
    negative_up: str | None = None   # "keep" leaves the lower limit of a negative UP at 0, "free" takes it away
    blank_set: str | None = None     # a blank name of a set beside named ones: "same" as before, or a set of its "own"
    constant: str = "minus"          # the objective's constant is "minus" its number in RHS, or "plus" it
    infinity: Fraction = INFINITY    # a limit of this size and more is none
    sense: str | None = None         # these five go before what the file says, or what stands first in it
    objective: str | None = None
    rhs_set: str | None = None
    range_set: str | None = None
    bound_set: str | None = None


def numbers_told(model: Model) -> Iterator[str]:
    "a sentence for the numbers that were rounded, and one for those that were taken as doubles"
    if model.doubles:
        line, word, short = model.doubles[0]
        numbers = counted(len(model.doubles), "number", "of 16 or 17 digits was", "of 16 or 17 digits were")
        yield f"{numbers} taken as the shortest decimal that is the same double, as {short} for {word[:40]} in line {line}"
    if model.rounded:
        exact = [(line, word, near, finite_number(word)) for line, word, near in model.rounded]
        changes = [(abs(near - value), abs(near / value - 1), line, word) for line, word, near, value in exact]
        most, least = max(changes), max(changes, key=lambda change: change[1])
        told = f"{counted(len(changes), 'number', 'was', 'were')} rounded to 12 columns; "
        told += f"the greatest change is {decimal_text(most[0])}, of {most[3][:40]} in line {most[2]}"
        told += f", and the greatest relative change {decimal_text(least[1])}, of {least[3][:40]} in line {least[2]}"
        yield told
