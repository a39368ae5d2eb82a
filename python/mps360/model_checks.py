"""What planners get wrong, as far as a model tells it before it is solved.

    warnings(MODEL, choices)     a sentence for each thing that may be meant otherwise, with what to say instead; none changes the model

A sentence names the rows or columns that are meant, and is no fault: a model may want all of this."""
from __future__ import annotations

import re
from dataclasses import dataclass
from fractions import Fraction
from typing import Iterator

from mps360.model import Model
from mps360.numbers import decimal_text
from mps360.text import counted, some_of

# what a part of an objective's name has that is to be great
GREAT = re.compile(r"profit|prof$|revenu|earning|surplus|welfare|payoff|npv|^(?:margin|gains?$|contrib|benefit|sales|maximi)")
PART = re.compile(r"[A-Z]?[a-z]+|[A-Z]+(?![a-z])")
APART = 10 ** 9
# fewer bits apart than this are less than APART
LEAST_BITS = APART.bit_length() - 2


@dataclass(frozen=True)
class Choices:
    "what the file or who reads it has said: the sense, the objective, and of which sections (RHS, RANGES, BOUNDS) the set"
    sense: bool = True
    objective: bool = True
    sets: frozenset[str] = frozenset(("RHS", "RANGES", "BOUNDS"))


def warnings(model: Model, choices: Choices = Choices()) -> list[str]:
    return [*of_sense(model, choices), *of_choices(model, choices), *of_empty(model), *of_limits(model), *of_magnitudes(model)]


def is_great(name: str) -> bool:
    "whether a name says of an objective that it is to be great"
    return any(GREAT.search(part.lower()) for part in PART.findall(name))


def of_sense(model: Model, choices: Choices) -> Iterator[str]:
    objective = model.objective or ""
    if not choices.sense and model.sense == "MIN" and is_great(objective) and any(entries.get(objective, 0) > 0 for entries in model.columns.values()):
        yield f"{objective[:30]} is made as small as can be, since the file says no sense: --max makes it great"


def of_choices(model: Model, choices: Choices) -> Iterator[str]:
    for what, count, taken, word in (("RHS", len(model.rhs), model.rhs_set, "--rhs"), ("RANGES", len(model.ranges), model.range_set, "--ranges"),
                                     ("BOUNDS", len(model.bounds), model.bound_set, "--bounds")):
        if count > 1 and what not in choices.sets:
            yield f"{what} has {count} sets; {(taken or '')[:30] or 'the one without a name'} is taken: {word} names another"
    count = sum(kind == "N" for kind in model.rows.values())
    if count > 1 and not choices.objective:
        yield f"there are {count} N rows; the objective is {(model.objective or '')[:30]}: --objective names another"


def of_empty(model: Model) -> Iterator[str]:
    "columns without entries, and rows that have limits and no entries; an entry that is 0 is none"
    met = {row for entries in model.columns.values() for row, value in entries.items() if value}
    met.update(row for row, parts in model.parts.items() if parts)
    rows = [row for row, kind in model.rows.items() if row not in met and kind != "N"]
    if rows:
        yield f"{counted(len(rows), 'row', 'has', 'have')} no entry ({some_of(rows)}): is a column missing?"
    columns = [column for column, entries in model.columns.items() if not any(entries.values())]
    if columns:
        them = "it" if len(columns) == 1 else "them"
        yield f"{counted(len(columns), 'column', 'has', 'have')} no entry ({some_of(columns)}): only bounds limit {them}"


def of_limits(model: Model) -> Iterator[str]:
    "columns whose limits cross"
    crossed = []
    for column in model.bounds.get(model.bound_set, {}) if model.bound_set is not None else ():
        lower, upper = model.column_limits(column)
        if lower is not None and upper is not None and lower > upper:
            crossed.append((column, lower, upper))
    if crossed:
        column, lower, upper = crossed[0]
        yield f"no plan keeps the bounds of {some_of([name for name, _, _ in crossed])}: {column[:30]} is at least {decimal_text(lower)} and at most {decimal_text(upper)}"


def of_magnitudes(model: Model) -> Iterator[str]:
    "rows and columns with entries that are far apart in size"
    for kind, suspects in suspects_of(model).items():
        if not suspects:
            continue
        far = sorted((found for name in suspects if (found := reach_of(model, kind, name))), key=lambda found: found[1] / found[0], reverse=True)
        if far:
            least, most, name = far[0]
            more = f" (and of {some_of([other for _, _, other in far[1:]])})" if len(far) > 1 else ""
            yield f"the entries of {kind} {name[:30]}{more} go from {decimal_text(least)} to {decimal_text(most)}: are the units meant so?"


def bits_of(value: Fraction) -> int:
    "the power of 2 of a number's size, or the one above it"
    return value.numerator.bit_length() - value.denominator.bit_length()


def suspects_of(model: Model) -> dict[str, list[str]]:
    "the rows and the columns whose entries may be so far apart"
    rows: dict[str, tuple[int, int]] = {}
    columns: list[str] = []
    for column, entries in model.columns.items():
        sizes = [(row, bits_of(value)) for row, value in entries.items() if value]
        for row, size in sizes:
            least, most = rows.get(row, (size, size))
            rows[row] = (size if size < least else least, size if size > most else most)
        if sizes and max(size for _, size in sizes) - min(size for _, size in sizes) >= LEAST_BITS:
            columns.append(column)
    return {"row": [row for row, (least, most) in rows.items() if most - least >= LEAST_BITS], "column": columns}


def reach_of(model: Model, kind: str, name: str) -> tuple[Fraction, Fraction, str] | None:
    "the least and the greatest size of the entries of a suspect, where they are so far apart"
    entries = model.columns[name].values() if kind == "column" else (numbers[name] for numbers in model.columns.values() if name in numbers)
    sizes = [abs(value) for value in entries if value]
    return (min(sizes), max(sizes), name) if max(sizes) >= APART * min(sizes) else None
