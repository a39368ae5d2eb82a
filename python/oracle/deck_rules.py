"The rules of decks with their faults (of problems, of revisions, of bases), fixed and free, read apart from the programs by docs/DECKS.md."
from __future__ import annotations

import re
from collections.abc import Callable, Container, Mapping
from fractions import Fraction
from typing import TYPE_CHECKING, Any, TypeVar

from oracle.rules import MOST_COLUMNS, MOST_ENTRIES, MOST_ROWS, NUMBER_CHARACTER, Stop, is_skipped, name_field, number_fault, value_of, word_of

if TYPE_CHECKING:
    from oracle.selecting import LinearProgram

Thing = TypeVar("Thing")


# ---- problems

ROW_TYPES, COMBINATIONS = ("N", "G", "L", "E"), ("DN", "DG", "DL", "DE")
BOUND_KINDS = ("UP", "LO", "FX", "FR", "MI", "PL")
# the fields that the words of a free card are, by how many words there are; a bound's type, column and value
Kinds = Mapping[int, tuple[int, ...]]
Bound = tuple[str, str, Fraction | None]
TOUCHED = {"UP": "U", "PL": "U", "LO": "L", "MI": "L", "FX": "LU", "FR": "LU"}


class Row:
    "a row of a type, plain or a combination: the sum of its parts, which are numbers by the names of rows before it"
    def __init__(self, kind: str, parts: dict[str, Fraction] | None = None) -> None:
        self.kind, self.parts = kind, parts

    def copy(self) -> Row:
        return Row(self.kind, None if self.parts is None else dict(self.parts))


class Problem:
    "rows and columns by their names in order, and the sets of each section"
    def __init__(self) -> None:
        self.name = ""
        self.rows: dict[str, Row] = {}
        self.columns: dict[str, dict[str, Fraction]] = {}
        self.rhs: dict[str, dict[str, Fraction]] = {}
        self.ranges: dict[str, dict[str, Fraction]] = {}
        self.bounds: dict[str, list[Bound]] = {}

    def copy(self) -> Problem:
        other = Problem()
        other.name = self.name
        other.rows = {name: row.copy() for name, row in self.rows.items()}
        other.columns = {name: dict(entries) for name, entries in self.columns.items()}
        other.rhs, other.ranges = ({name: dict(items) for name, items in sets.items()} for sets in (self.rhs, self.ranges))
        other.bounds = {name: list(items) for name, items in self.bounds.items()}
        return other

    def entries(self) -> int:
        return sum(map(len, self.columns.values()))

    def sections(self) -> tuple[dict[str, Any], ...]:
        "the sets of each section by their names; what an item of a set is, is another thing in BOUNDS"
        return self.rhs, self.ranges, self.bounds

    def punched_cards(self) -> int:
        "the number of cards that BCDOUT writes"
        has_plain_row = any(row.parts is None for row in self.rows.values())
        rows = sum(max(1, len(row.parts or ())) for row in self.rows.values())
        entries = sum(len(entries) or has_plain_row for entries in self.columns.values())
        sets = sum(bool(sets) + sum(map(len, sets.values())) for sets in self.sections())
        return 4 + rows + entries + sets

    def drop_empty_sets(self) -> None:
        for sets in self.sections():
            for name in [name for name, items in sets.items() if not items]:
                del sets[name]


# ---- the fields of a data card

FIELD_COLUMNS = ((2, 3), (5, 12), (15, 22), (25, 36), (40, 47), (50, 61))
GAPS = (1, 4, 13, 14, 23, 24, 37, 38, 39, 48, 49)


class Fields:
    "the six fields of a data card, each with its first column"
    def __init__(self) -> None:
        self.texts, self.columns = [""] * 6, [0] * 6

    def __getitem__(self, k: int) -> str:
        return self.texts[k - 1]

    def put(self, k: int, text: str, column: int) -> None:
        self.texts[k - 1], self.columns[k - 1] = text, column

    def any(self, *ks: int) -> bool:
        return any(self[k] for k in ks)


def fixed_fields(card: str) -> Fields:
    fields = Fields()
    for k, (first, last) in enumerate(FIELD_COLUMNS, 1):
        text = card[first - 1:last].rstrip(" ")
        fields.put(k, text.strip(" ") if k == 1 else text, first)
    return fields


def free_words(card: str) -> list[tuple[str, int]]:
    "the words of a card, each with its first column"
    return [(found[0], found.start() + 1) for found in re.finditer(r"[^ ]+", card)]


SECTIONS = ("NAME", "ROWS", "COLUMNS", "RHS", "RANGES", "BOUNDS", "ENDATA")
MARKER = "'MARKER'"


class Deck:
    "the reading of a deck, card by card; first is the number of its first card, last the job's last card"
    def __init__(self, cards: list[str], first: int, last: int) -> None:
        self.cards, self.first, self.job_last = cards, first, last
        self.section, self.is_free, self.card = "", False, first

    def data(self, card: str) -> None:
        "takes a data card of the present section; each kind of deck has its own"
        raise NotImplementedError

    def fault(self, number: int, more: str = "") -> Stop:
        return Stop(f"STOP 12 DECK FAULT {number} CARD {self.card}{more}")

    def read(self) -> None:
        "takes card after card up to ENDATA; Stop where one has a fault"
        for place, card in enumerate(self.cards):
            self.card = self.first + place
            if is_skipped(card):
                continue
            if card[0] != " ":
                self.begin_section(card)
            elif not self.section or self.section == "NAME" and not self.data_after_name():
                raise self.fault(1)
            else:
                self.data(card)
        if self.section != "ENDATA":
            self.card = self.job_last
            raise self.fault(13)

    def data_after_name(self) -> bool:
        return False

    def begin_section(self, card: str) -> None:
        "a section card"
        word = word_of(card)
        if not self.section and word != "NAME":
            raise self.fault(1)
        if word not in SECTIONS:
            raise self.fault(2)
        if not self.may_follow(word):
            raise self.fault(1)
        self.section = word
        if word == "NAME":
            self.is_free = card[24:28] == "FREE" and not (card[22:24] + card[28:]).strip(" ")
        self.begun()

    def may_follow(self, word: str) -> bool:
        if not self.section:
            return word == "NAME"
        now, then = SECTIONS.index(self.section), SECTIONS.index(word)
        return now < then and all(section in self.may_be_missing() for section in SECTIONS[now + 1:then])

    def may_be_missing(self) -> tuple[str, ...]:
        return ("RHS", "RANGES", "BOUNDS")

    def begun(self) -> None:
        "what a section card begins"

    # -- fields

    def fields(self, card: str, kinds: Kinds | None) -> Fields:
        "the fields of a card: those of its columns, or in a free deck the words, by the numbers of fields that a count of words stands for"
        if not self.is_free:
            if any(card[column - 1:column].strip(" ") for column in GAPS):
                raise self.fault(20)
            return fixed_fields(card)
        words = free_words(card)
        if kinds is None or len(words) not in kinds:
            raise self.fault(25)
        fields = Fields()
        for k, (text, column) in zip(kinds[len(words)], words):
            fields.put(k, text, column)
        if any(len(fields[k]) > 8 for k in (2, 3, 5)):
            raise self.fault(26)
        if any(len(fields[k]) > 12 for k in (4, 6)):
            raise self.fault(27)
        return fields

    def unused(self, fields: Fields, *ks: int) -> None:
        if not self.is_free and fields.any(*ks):
            raise self.fault(20)

    def number(self, fields: Fields, k: int) -> Fraction:
        found = number_fault(fields[k])
        if found:
            column = f" COLUMN {fields.columns[k - 1] + found[1] - 1}" if found[0] == NUMBER_CHARACTER else ""
            raise self.fault(8, f" NUMBER {found[0]}{column}")
        return value_of(fields[k])

    def row_fields(self, card: str) -> Fields:
        "the fields of a card of a row; a free one has a type, which tells how many words there may be"
        word = free_words(card)[0][0]
        if self.is_free and word not in ROW_TYPES + COMBINATIONS:
            raise self.fault(3)
        return self.fields(card, COMBINATION_WORDS if word in COMBINATIONS else ROW_WORDS)

    def bound_fields(self, card: str) -> Fields:
        if self.is_free:
            word = free_words(card)[0][0]
            if word not in BOUND_KINDS:
                raise self.fault(10)
            return self.fields(card, {4: (1, 2, 3, 4), 3: (1, 3, 4)} if word in ("UP", "LO", "FX") else {3: (1, 2, 3), 2: (1, 3)})
        return self.fields(card, None)


ROW_WORDS, COMBINATION_WORDS = {2: (1, 2)}, {2: (1, 2), 4: (1, 2, 3, 4), 6: (1, 2, 3, 4, 5, 6)}
COLUMN_WORDS = {3: (2, 3, 4), 5: (2, 3, 4, 5, 6)}
SET_WORDS = {3: (2, 3, 4), 5: (2, 3, 4, 5, 6), 2: (3, 4), 4: (3, 4, 5, 6)}


class DataDeck(Deck):
    "a deck that describes a problem"
    def __init__(self, cards: list[str], first: int, last: int) -> None:
        super().__init__(cards, first, last)
        self.problem, self.entries = Problem(), 0
        # the column, or the type and the name of the combination, of the card before
        self.before: str | tuple[str, str] | None = None

    def begun(self) -> None:
        self.before = None

    def data(self, card: str) -> None:
        readers: dict[str, Callable[[str], None]] = {"ROWS": self.row, "COLUMNS": self.column, "RHS": self.set_items, "RANGES": self.set_items, "BOUNDS": self.bound}
        readers[self.section](card)

    def insert_row(self, name: str, row: Row) -> None:
        self.problem.rows[name] = row

    def insert_column(self, name: str) -> None:
        self.problem.columns[name] = {}

    def place_of_row(self) -> int:
        "how many rows stand before a new one"
        return len(self.problem.rows)

    def row(self, card: str) -> None:
        "a card of ROWS"
        fields, rows = self.row_fields(card), self.problem.rows
        kind, name = fields[1], fields[2]
        if kind not in ROW_TYPES + COMBINATIONS:
            raise self.fault(3)
        if not name:
            raise self.fault(15)
        is_same = (kind, name) == self.before
        if not is_same:
            if name in rows:
                raise self.fault(4)
            if len(rows) == MOST_ROWS:
                raise self.fault(16)
        self.before = (kind, name) if kind in COMBINATIONS else None
        if kind in ROW_TYPES:
            self.unused(fields, 3, 4, 5, 6)
            self.insert_row(name, Row(kind))
            return
        before = rows[name].parts if is_same else None
        parts = {} if before is None else before
        place = list(rows).index(name) if is_same else self.place_of_row()
        self.parts(fields, parts, place, may_replace=False)
        if not is_same:
            self.insert_row(name, Row(kind[1], parts))

    def parts(self, fields: Fields, parts: dict[str, Fraction], place: int, may_replace: bool) -> None:
        "the parts of a combination at a place among the rows, which stand on the rows before"
        earlier = list(self.problem.rows)[:place]
        for k in (3, 5):
            if not fields.any(k, k + 1):
                continue
            name = fields[k]
            if not name:
                raise self.fault(15)
            if name not in earlier:
                raise self.fault(6)
            if name in parts and not may_replace:
                raise self.fault(7)
            parts[name] = self.number(fields, k + 1)

    def column(self, card: str) -> None:
        "a card of COLUMNS"
        fields = self.column_fields(card)
        name, columns = fields[2], self.problem.columns
        if name != self.before and name in columns:
            raise self.fault(5)
        if name not in columns:
            if len(columns) == MOST_COLUMNS:
                raise self.fault(17)
            self.insert_column(name)
        self.before = name
        self.pairs(fields, columns[name], may_replace=False, is_column=True)

    def column_fields(self, card: str) -> Fields:
        fields = self.fields(card, COLUMN_WORDS)
        self.unused(fields, 1)
        if MARKER in (fields[3], fields[5]):
            raise self.fault(14)
        if not fields[2]:
            raise self.fault(15)
        return fields

    def pairs(self, fields: Fields, items: dict[str, Fraction], may_replace: bool, is_column: bool = False) -> None:
        "the pairs of a row and a number"
        for k in (3, 5):
            if k == 5 and not fields.any(5, 6):
                continue
            name = fields[k]
            if not name:
                raise self.fault(15)
            if name not in self.problem.rows:
                raise self.fault(6)
            if is_column and self.problem.rows[name].parts is not None:
                raise self.fault(28)
            if self.section == "RANGES" and self.problem.rows[name].kind == "N":
                raise self.fault(9)
            if name in items and not may_replace:
                raise self.fault(7)
            value = self.number(fields, k + 1)
            if is_column and name not in items:
                if self.entries == MOST_ENTRIES:
                    raise self.fault(18)
                self.entries += 1
            items[name] = value

    def sets(self) -> dict[str, dict[str, Fraction]]:
        return {"RHS": self.problem.rhs, "RANGES": self.problem.ranges}[self.section]

    def set_items(self, card: str, may_replace: bool = False) -> None:
        fields = self.fields(card, SET_WORDS)
        self.unused(fields, 1)
        self.pairs(fields, self.sets().setdefault(fields[2], {}), may_replace)

    def bound(self, card: str, may_replace: bool = False) -> None:
        "a card of BOUNDS; a revision may replace what another one says"
        fields = self.bound_fields(card)
        kind, group, column = fields[1], fields[2], fields[3]
        if kind not in BOUND_KINDS:
            raise self.fault(10)
        if not column:
            raise self.fault(15)
        if column not in self.problem.columns:
            raise self.fault(11)
        items = self.problem.bounds.get(group, [])
        kept = [item for item in items if item[1] != column or not set(TOUCHED[item[0]]) & set(TOUCHED[kind])]
        if not may_replace and len(kept) < len(items):
            raise self.fault(12)
        value = self.number(fields, 4) if kind in ("UP", "LO", "FX") else None
        self.unused(fields, 5, 6)
        self.problem.bounds[group] = kept + [(kind, column, value)]


ACTIONS = ("MODIFY", "DELETE", "BEFORE", "AFTER")


class RevisionDeck(DataDeck):
    "a deck that revises a problem"
    def __init__(self, problem: Problem, cards: list[str], first: int, last: int) -> None:
        super().__init__(cards, first, last)
        self.problem, self.entries, self.place = problem.copy(), problem.entries(), 0
        self.action: str | None = None

    def may_be_missing(self) -> tuple[str, ...]:
        return SECTIONS[1:6]

    def begun(self) -> None:
        self.action, self.before = None, None

    def action_of(self, card: str) -> tuple[str, str] | None:
        "the action and the name of an action card; None for a data card"
        if not self.is_free:
            return (word_of(card[1:]), name_field(card)) if " " not in card[1:4].ljust(3) else None
        words = [text for text, _ in free_words(card)]
        return (words[0], (words + [""])[1]) if len(words) <= 2 and words[0] in ACTIONS else None

    def data(self, card: str) -> None:
        action = self.action_of(card)
        if action:
            self.begin_action(*action)
        elif self.action is None:
            raise self.fault(21)
        elif self.action == "DELETE":
            self.delete(card)
            self.entries = self.problem.entries()
        elif self.action == "MODIFY":
            self.modify(card)
        else:
            super().data(card)
        self.problem.drop_empty_sets()

    def begin_action(self, word: str, name: str) -> None:
        "an action card of a revision: what is done from here on, and for BEFORE and AFTER where"
        listed = [*self.problem.rows] if self.section == "ROWS" else [*self.problem.columns] if self.section == "COLUMNS" else []
        if word not in ACTIONS or word in ("BEFORE", "AFTER") and self.section not in ("ROWS", "COLUMNS"):
            raise self.fault(21)
        if word in ("BEFORE", "AFTER") and name and name not in listed:
            raise self.fault(22)
        self.action, self.before = word, None
        if word == "BEFORE":
            self.place = listed.index(name) if name else 0
        elif word == "AFTER":
            self.place = listed.index(name) + 1 if name else len(listed)

    def insert(self, things: dict[str, Thing], name: str, value: Thing) -> None:
        "puts a row or a column at the place, among those that there are"
        listed = list(things.items())
        listed.insert(self.place, (name, value))
        things.clear()
        things.update(listed)
        self.place += 1

    def insert_row(self, name: str, row: Row) -> None:
        self.insert(self.problem.rows, name, row)

    def place_of_row(self) -> int:
        return self.place

    def insert_column(self, name: str) -> None:
        self.insert(self.problem.columns, name, dict[str, Fraction]())

    def modify(self, card: str) -> None:
        "a card after MODIFY"
        if self.section == "ROWS":
            self.modify_row(card)
        elif self.section == "COLUMNS":
            fields = self.column_fields(card)
            if fields[2] not in self.problem.columns:
                raise self.fault(24)
            self.pairs(fields, self.problem.columns[fields[2]], may_replace=True, is_column=True)
        elif self.section == "BOUNDS":
            self.bound(card, may_replace=True)
        else:
            self.set_items(card, may_replace=True)

    def modify_row(self, card: str) -> None:
        "another type of a row, or other parts of a combination"
        fields = self.row_fields(card)
        kind, name, rows = fields[1], fields[2], self.problem.rows
        if not name:
            raise self.fault(15)
        if name not in rows:
            raise self.fault(24)
        row = rows[name]
        if kind not in (ROW_TYPES if row.parts is None else COMBINATIONS):
            raise self.fault(3)
        if kind in ("N", "DN") and any(name in items for items in self.problem.ranges.values()):
            raise self.fault(9)
        if row.parts is None:
            self.unused(fields, 3, 4, 5, 6)
        else:
            self.parts(fields, row.parts, list(rows).index(name), may_replace=True)
        row.kind = kind[-1]

    def delete(self, card: str) -> None:
        fields = self.fields(card, {1: (2,)} if self.section == "ROWS" else {1: (2,), 2: (2, 3)})
        if self.section in ("COLUMNS", "RHS", "RANGES"):
            self.unused(fields, 1)
        {"ROWS": self.delete_row, "COLUMNS": self.delete_column, "BOUNDS": self.delete_bound}.get(self.section, self.delete_item)(fields)

    def delete_row(self, fields: Fields) -> None:
        "takes away a row, with all numbers on it"
        name, problem = fields[2], self.problem
        if not name:
            raise self.fault(15)
        if name not in problem.rows:
            raise self.fault(23)
        self.unused(fields, 3, 4, 5, 6)
        del problem.rows[name]
        parts = [row.parts for row in problem.rows.values() if row.parts]
        for items in [*parts, *problem.columns.values(), *problem.rhs.values(), *problem.ranges.values()]:
            items.pop(name, None)

    def delete_column(self, fields: Fields) -> None:
        "takes away a column with its bounds, or its number on one row"
        name, row, problem = fields[2], fields[3], self.problem
        if not name:
            raise self.fault(15)
        if name not in problem.columns:
            raise self.fault(23)
        self.named_in(row, problem.rows, 6, problem.columns[name])
        self.unused(fields, 4, 5, 6)
        if row:
            del problem.columns[name][row]
            return
        del problem.columns[name]
        for group, items in problem.bounds.items():
            problem.bounds[group] = [item for item in items if item[1] != name]

    def delete_item(self, fields: Fields) -> None:
        name, row, sets = fields[2], fields[3], self.sets()
        if name not in sets:
            raise self.fault(23)
        self.named_in(row, self.problem.rows, 6, sets[name])
        self.unused(fields, 4, 5, 6)
        if row:
            del sets[name][row]
        else:
            del sets[name]

    def delete_bound(self, fields: Fields) -> None:
        name, column, sets = fields[2], fields[3], self.problem.bounds
        if name not in sets:
            raise self.fault(23)
        self.named_in(column, self.problem.columns, 11, [item[1] for item in sets[name]])
        self.unused(fields, 4, 5, 6)
        if column:
            sets[name] = [item for item in sets[name] if item[1] != column]
        else:
            del sets[name]

    def named_in(self, name: str, known: Container[str], number: int, items: Container[str]) -> None:
        "where a name is given it has to be known, and to be among the items"
        if name and name not in known:
            raise self.fault(number)
        if name and name not in items:
            raise self.fault(23)


class BasisDeck(Deck):
    "a deck that stands for a basis of a linear program; it is read for its faults alone"
    def __init__(self, lp: LinearProgram, cards: list[str], first: int, last: int) -> None:
        super().__init__(cards, first, last)
        self.lp = lp
        self.named: set[int] = set()

    def data_after_name(self) -> bool:
        return True

    def begin_section(self, card: str) -> None:
        super().begin_section(card)
        self.is_free = False

    def may_follow(self, word: str) -> bool:
        return word == "NAME" if not self.section else word == "ENDATA" and self.section == "NAME"

    def data(self, card: str) -> None:
        fields = self.fields(card, None)
        code, lp = fields[1], self.lp
        if code not in ("XU", "XL", "UL", "LL"):
            raise self.fault(30)
        if fields[2] not in lp.column_names:
            raise self.fault(11)
        column = lp.m + lp.column_names.index(fields[2])
        row = None
        if code in ("XU", "XL"):
            if fields[3] not in lp.row_names:
                raise self.fault(6)
            row = lp.row_names.index(fields[3])
        if column in self.named or row in self.named:
            raise self.fault(31)
        self.named |= {column} if row is None else {column, row}
        limited = column if row is None else row
        if (lp.upper if code in ("XU", "UL") else lp.lower)[limited] is None:
            raise self.fault(32)
        self.unused(fields, *((4, 5, 6) if row is not None else (3, 4, 5, 6)))
