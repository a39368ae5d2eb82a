"""Notes: what was changed, left out or chosen on the way from a file to its answer, a sentence for each. Every form of an answer has them whole,
and its first line has in short those which make it the answer to another problem than the file's."""
from __future__ import annotations

from collections.abc import Iterator, Sequence
from typing import Any

from mps360.text import cell, counted

# the column of CSV that has them, on each line
COLUMN = "notes"


def short_words(model: Any) -> Iterator[str]:
    "of a model: that whole numbers aren't demanded, that numbers were rounded or read as doubles, and which of several sets counts"
    if model.relaxed:
        yield "whole numbers not demanded"
    if model.rounded:
        yield f"{counted(len(model.rounded), 'number')} rounded"
    if model.doubles:
        yield f"{counted(len(model.doubles), 'number')} read as {'a double' if len(model.doubles) == 1 else 'doubles'}"
    for what, sets, taken in (("RHS", model.rhs, model.rhs_set), ("RANGES", model.ranges, model.range_set), ("BOUNDS", model.bounds, model.bound_set)):
        if len(sets) > 1:
            yield f"with {taken or 'the set without a name'} of {len(sets)} sets of {what}"


def after_verdict(model: Any) -> str:
    "the same behind the word of a verdict, each after a comma"
    return "".join(f", {words}" for words in short_words(model))


def of_table(table: Any) -> list[str]:
    "the notes that a table of names has"
    said = table.get("said") if isinstance(table, dict) else None
    return [note for note in said if isinstance(note, str)] if isinstance(said, list) else []


def as_cell(notes: Sequence[str]) -> str:
    "all of them in a cell of CSV, parted by semicolons, which no spreadsheet takes for a formula"
    return cell("; ".join(notes))
