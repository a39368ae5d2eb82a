"""Writes the job of a model.

    job = job_of(model, ranging=False)        a Job; Refused, or TooLong where 12 columns don't hold a number
    job = exact_job(model, ranging=False)     a Job, or Refused; long numbers are kept exactly, and then job.split says by what

A Job has text; rows, columns and sets {name: name in the job}; problem, the problem's name in it; name_map(), a table for JSON by which
listing2json.py puts the file's names back: the names that were changed by those in the job, the objective, the sense, the sets taken, the
constants, the rounded numbers, the relaxed columns, and all that was said."""
from __future__ import annotations

from collections.abc import Callable, Iterator
import itertools
from fractions import Fraction
import re
from dataclasses import dataclass, field
from typing import TYPE_CHECKING, Any
from mps360.errors import Refused
from mps360.model import MOST, Limits, Model
from mps360.numbers import text_of
from mps360.text import counted, some_of

if TYPE_CHECKING:
    from mps360.long_numbers import Split


class Names:
    "names of at most 8 characters, kept where they are lawful"

    def __init__(self, letter: str) -> None:
        self.letter = letter
        self.short: dict[str, str | None] = {}
        self.used: set[str] = set()

    def add(self, name: str, quoted: bool = False) -> None:
        "a name, which may have to stand between quotes"
        lawful = 0 < len(name) <= 8 and all(" " <= letter <= "~" for letter in name) and name != "'MARKER'" and not (quoted and "'" in name)
        self.short[name] = name if lawful else None
        if lawful:
            self.used.add(name)

    def settle(self) -> dict[str, str]:
        "the name in the job of each that was added"
        made = (word for count in itertools.count(1) if (word := f"{self.letter}{count:07}") not in self.used)
        return {name: next(made) if short is None else short for name, short in self.short.items()}


@dataclass
class Job:
    "a job of a model, and the names that its rows, columns and sets have in it"
    model: Model
    text: str = ""
    problem: str = ""
    rows: dict[str, str] = field(default_factory=dict)
    columns: dict[str, str] = field(default_factory=dict)
    sets: dict[str, str] = field(default_factory=dict)
    rhs_on_objective: str | None = None  # the number of the objective in RHS, where the deck has it
    said: list[str] = field(default_factory=list)
    # those of said which are for a reader of the table of names, or of the listing, alone
    of_table: list[str] = field(default_factory=list)
    of_listing: list[str] = field(default_factory=list)
    split: Split | None = None  # where the model is one of short numbers, made of the file's

    @property
    def file(self) -> Model:
        "the model as the file has it, with its long numbers"
        return self.split.file if self.split else self.model

    def said_without(self, *unread: list[str]) -> list[str]:
        "what was said, without these, as no such reader is there"
        return [sentence for sentence in self.said if not any(sentence in sentences for sentences in unread)]

    @property
    def renamed(self) -> bool:
        "whether a name is another in the job"
        return any(name != short for names in (self.rows, self.columns, self.sets) for name, short in names.items())

    def name_map(self) -> dict[str, Any]:
        "the table of names, for JSON"
        model, file = self.model, self.file
        changed = {key: {short: name for name, short in getattr(self, key).items() if name != short} for key in ("rows", "columns", "sets")}
        taken = {"RHS": model.rhs_set, "RANGES": model.range_set, "BOUNDS": model.bound_set}
        return {"problem": {self.problem: model.name} if self.problem != model.name else {}, **changed, "sense": model.sense,
                "objective": self.rows[model.objective], "taken": {key: None if name is None else self.sets[name] for key, name in taken.items()},
                "constant": {"value": str(model.constant), "rhs": self.rhs_on_objective} if model.constant else None,
                "constants": {self.sets[name]: {self.rows[row]: str(model.constant_of(name, row)) for row in items if model.rows[row] == "N"}
                              for name, items in model.rhs.items()},
                "relaxed": [self.columns[name] for name in model.relaxed],
                "rounded": [{"line": line, "from": word, "to": text_of(near)} for line, word, near in model.rounded], "said": self.said,
                **({"doubles": [{"line": line, "from": word, "to": short} for line, word, short in file.doubles]} if file.doubles else {}),
                **({"units": file.units} if file.units else {}), **({"long": self.split.table(self)} if self.split else {})}


class TooLong(Refused):
    "a number that 12 columns don't hold"


def card_number(value: Fraction) -> str:
    "the text of a number; Refused where 12 columns don't hold it"
    text = text_of(value)
    if text is None:
        raise TooLong(f"the number {value} has no exact form of 12 columns")
    return text


def bound_cards(limits: Limits) -> list[tuple[str, str]]:
    "the types of the bounds that say these limits, and their numbers"
    lower, upper = limits.lower, limits.upper
    if lower is not None and lower == upper:
        return [("FX", card_number(lower))]
    if lower is None and upper is None:
        return [("FR", "")]
    cards = [] if lower == 0 else [("MI", "")] if lower is None else [("LO", card_number(lower))]
    return cards + ([] if upper is None else [("UP", card_number(upper))])


def name_all(job: Job) -> None:
    "gives each row, column and set its name in the job"
    model = job.model
    rows, columns, sets = Names("R"), Names("C"), Names("S")
    for name, kind in model.rows.items():
        rows.add(name, kind == "N")
    for name in model.columns:
        columns.add(name)
    for name in dict.fromkeys([*model.rhs, *model.ranges, *model.bounds]):
        if name:
            sets.add(name, True)
    job.rows, job.columns, job.sets = rows.settle(), columns.settle(), {**sets.settle(), "": ""}
    lawful = len(model.name) <= 8 and model.name.isascii() and model.name.isprintable()
    job.problem = model.name if lawful else "PROBLEM"
    renamed = [(sum(name != short for name, short in names.items()), what) for names, what in
               ((job.rows, "row"), (job.columns, "column"), (job.sets, "set"))]
    job.said = list(model.said)
    if shown := [counted(count, what) for count, what in renamed if count]:
        verb = "has another name" if sum(count for count, _ in renamed) == 1 else "have other names"
        job.of_table.append(f"{', '.join(shown)} {verb} in the job; the table of names has them")
    if not lawful:
        job.of_table.append(f"the problem's name is {job.problem} in the job")
    job.said += job.of_table


def rhs_cards(job: Job, item: Callable[[str, str, str], str]) -> list[str]:
    "the items of RHS; an N row's number that 12 columns don't hold is left out, and told"
    cards, model = [], job.model
    for name, items in model.rhs.items():
        for row, value in items.items():
            text = text_of(value) if model.rows[row] == "N" else card_number(value)
            if (name, row) == (model.rhs_set, model.objective):
                job.rhs_on_objective = text and str(value)
            if text is None:
                job.said.append(f"the number {value} of the N row {row} in RHS is too long for the deck, which has 0 for it")
                text = "0"
            cards.append(item(job.sets[name], job.rows[row], text))
    if model.constant:
        sign = "" if model.constant_sign > 0 else "the negative of "
        job.of_listing.append("the objective's constant isn't in OBJECTIVE and ACTIVITY of the listing: add it there (listing2json.py --names does)")
        job.said += [f"the objective's constant is {model.constant}, {sign}its number in RHS", *job.of_listing]
    return cards


def row_cards(job: Job, row: str) -> list[str]:
    "the card of a row, or a card for each part of a combination"
    kind, name = job.model.rows[row], job.rows[row]
    if row not in job.model.parts:
        return [f" {kind}  {name}"]
    return [f" D{kind} {name:<10}{job.rows[part]:<10}{card_number(times)}" for part, times in job.model.parts[row].items()] or [f" D{kind} {name}"]


def deck_cards(job: Job) -> list[str]:
    "the deck of the problem"
    model, item = job.model, "    {:<10}{:<10}{}".format
    cards = [f"NAME          {job.problem}".rstrip(), "ROWS", *(card for row in model.rows for card in row_cards(job, row)), "COLUMNS"]
    first, empty = next((job.rows[row] for row in model.rows if row not in model.parts), None), []
    for column, entries in model.columns.items():
        cards += [item(job.columns[column], job.rows[row], card_number(value)) for row, value in entries.items()]
        if not entries:
            empty.append(column)
            if first is None:
                raise Refused(f"column {column[:30]} has no entry, and a job has no card for it where all rows are combinations")
            cards.append(item(job.columns[column], first, "0"))
    if empty:
        job.said.append(f"{counted(len(empty), 'column', 'has', 'have')} no entry ({some_of(empty)}), and a card with 0 on the row {first}")
    rhs = rhs_cards(job, item)
    ranges = [item(job.sets[name], job.rows[row], card_number(value)) for name, items in model.ranges.items() for row, value in items.items()]
    bounds = [f" {kind} {job.sets[name]:<10}{job.columns[column]:<10}{value}".rstrip()
              for name, items in model.bounds.items() for column, limits in items.items() for kind, value in bound_cards(limits)]
    for section, items in (("RHS", rhs), ("RANGES", ranges), ("BOUNDS", bounds)):
        cards += [section, *items] if items else []
    return cards + ["ENDATA"]


def remark_cards(said: list[str]) -> Iterator[str]:
    "all that was said, as cards that mean nothing to the job"
    if said:
        import textwrap
    for sentence in said:
        text = "".join(letter if " " <= letter <= "~" else "?" for letter in sentence)
        yield from textwrap.wrap(text, 72, initial_indent="* ", subsequent_indent="*   ")


def job_of(model: Model, ranging: bool = False, title: str = "") -> Job:
    "the job of a model, with RANGE if ranging is asked; Refused where a job can't hold it"
    job = Job(model)
    name_all(job)
    deck = deck_cards(job)
    words = ["'MAX'"] if model.sense == "MAX" else []
    if model.bound_set is not None and any(bound_cards(limits) for limits in model.bounds.get(model.bound_set, {}).values()):
        words.append(f"'BOUND','{job.sets[model.bound_set]}'")
    if model.range_set is not None and model.ranges.get(model.range_set):
        words.append(f"'RANGE','{job.sets[model.range_set]}'")
    moves = []
    if model.objective != next(row for row, kind in model.rows.items() if kind == "N"):
        moves.append(f"MOVE(XOBJ,'{job.rows[model.objective]}')")
    if model.rhs_set is not None and model.rhs_set != next(iter(model.rhs), None):
        moves.append(f"MOVE(XRHS,'{job.sets[model.rhs_set]}')")
    title = re.sub(r"[^ -&(-~]", " ", title or model.name)[:54]
    statements = ["PROGRAM", f"TITLE('{title}')", "MOVE(XITERLIM,1000000)", *moves, "CONVERT", "SETUP" + (f"({','.join(words)})" if words else ""),
                  "PRIMAL", "SOLUTION", *(["RANGE"] if ranging else []), "EXIT", "PEND"]
    cards = ["         " + statement for statement in statements] + list(remark_cards(job.said)) + deck
    sizes = {"rows": len(model.rows), "columns": len(model.columns), "cards": len(cards),
             "entries": sum(max(1, len(entries)) for entries in model.columns.values())}
    for what, size in sizes.items():
        if size > MOST[what]:
            raise Refused(f"the job would have {size:,} {what}, and {MOST[what]:,} are the most")
    job.text = "\n".join(cards) + "\n"
    return job


def exact_job(model: Model, ranging: bool = False, title: str = "") -> Job:
    "the job of a model, whose long numbers are kept exactly"
    try:
        return job_of(model, ranging, title)
    except TooLong:
        from mps360.long_numbers import split_model
        split = split_model(model)
    job = job_of(split.model, ranging, title)
    job.split = split
    return job
