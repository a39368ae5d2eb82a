"""Decks of problems and of revisions, read by the rules of docs/DECKS.md: the problem that a deck, fixed or free, describes, or its first fault."""
from collections.abc import Callable, Iterator, Sequence
from typing import Any, NamedTuple
import copy
import functools
import re
from fractions import Fraction

SECTIONS = ("NAME", "ROWS", "COLUMNS", "RHS", "RANGES", "BOUNDS", "ENDATA")
# the first and the last column of each field of a fixed card, and the columns between them
FIELDS = {1: (2, 3), 2: (5, 12), 3: (15, 22), 4: (25, 36), 5: (40, 47), 6: (50, 61)}
GAPS = [column for column in range(1, 62) if not any(first <= column <= last for first, last in FIELDS.values())]
NAMES, NUMBERS = (2, 3, 5), (4, 6)
NAME_LENGTH, NUMBER_LENGTH = 8, 12
KINDS, COMBINATIONS = ("N", "G", "L", "E"), ("DN", "DG", "DL", "DE")
TYPE_NAMED, PARTS = [(1, 2)], [(1, 2, 3, 4), (1, 2, 3, 4, 5, 6)]
# the ends of a column that a bound touches, and the types that take a number
BOUNDS = {"UP": "U", "PL": "U", "LO": "L", "MI": "L", "FX": "LU", "FR": "LU"}
VALUED = ("UP", "LO", "FX")
ACTIONS = ("MODIFY", "DELETE", "BEFORE", "AFTER")
MOST_ROWS, MOST_COLUMNS, MOST_ENTRIES, MOST_POWER = 1000, 5000, 50_000, 18
NUMBER = re.compile(r"([+-]?(?:\d+\.?\d*|\.\d+))(?:[EeDd]([+-]?\d+))?$")
# the same where any number of digits, none too, may stand in each place
BEGUN_NUMBER = re.compile(r"[+-]?(\d*)(?:\.(\d*))?(?:[EeDd]([+-]?\d*))?")
NAMED_PAIRS, BARE_PAIRS = [(2, 3, 4), (2, 3, 4, 5, 6)], [(3, 4), (3, 4, 5, 6)]



class Fields(NamedTuple):
    "the texts of a data card's fields, by their numbers, and the columns in which its numbers begin"
    text: dict[int, str]
    column: dict[int, int]


class DeckFault(Exception):
    """a deck that has a fault: its number, the place of its card in the deck, from 0, what follows on the line, and for an unknown row the names
    of those that are known there"""
    def __init__(self, fault: int, place: int | None = None, more: str = "", known: Sequence[str] | None = None) -> None:
        super().__init__(fault)
        self.number, self.place, self.more, self.known = fault, place, more, known


def number(text: str) -> Fraction:
    "the value of a number of the control program; ValueError where it is none"
    found = NUMBER.match(text.strip())
    if not found:
        raise ValueError(f"not a number: {text!r}")
    return Fraction(found[1].rstrip(".") if found[1].endswith(".") else found[1]) * Fraction(10) ** int(found[2] or 0)


class Written(Fraction):
    "a number as a card has it: its value, and its text"
    text: str

    def __new__(cls, text: str) -> "Written":  # pylint: disable=signature-differs
        self = super().__new__(cls, number(text))
        self.text = text.strip()
        return self

    def __deepcopy__(self, _: object) -> "Written":
        return self


@functools.lru_cache(maxsize=65536)
def number_on(text: str, column: int) -> Written:
    "the number in a field that begins in this column"
    word, blanks = text.strip(), len(text) - len(text.lstrip())
    found = BEGUN_NUMBER.match(word)
    if not word or not found:
        raise DeckFault(8, more=" NUMBER 1")
    if found.end() < len(word):
        raise DeckFault(8, more=f" NUMBER 2 COLUMN {column + blanks + found.end()}")
    if not (found[1] or found[2]) or found[3] is not None and not found[3].lstrip("+-"):
        raise DeckFault(8, more=" NUMBER 3")
    if abs(int(found[3] or 0)) > MOST_POWER:
        raise DeckFault(8, more=" NUMBER 4")
    return Written(text)


# ---- cards

def is_skipped(card: str) -> bool:
    "whether a card means nothing"
    return not card or card.startswith("*")


def deck_name(cards: Sequence[str]) -> str | None:
    "the name on the first card, where that is a NAME card"
    first = next((card for card in cards if not is_skipped(card)), "")
    return first[14:22].rstrip() if first.split(" ")[0] == "NAME" else None


def is_free(name_card: str) -> bool:
    "whether a NAME card begins a free deck: FREE in columns 25 to 28, and nothing else after the name"
    return name_card[22:80].rstrip() == "  FREE"


def words_of(card: str) -> list[tuple[int, str]]:
    "the words of a card, each with its first column"
    return [(found.start() + 1, found[0]) for found in re.finditer("[^ ]+", card)]


def action_on(card: str, has_words: bool) -> tuple[str, str] | None:
    "the word and the name on an action card of a revision; None on another card"
    if not has_words:
        return (card[1:].split(" ")[0], card[14:22].rstrip()) if re.match(r" [^ ]{3}", card) else None
    words = [word for _, word in words_of(card)]
    return (words[0], words[1] if len(words) > 1 else "") if words[0] in ACTIONS and len(words) <= 2 else None


def fields(card: str) -> list[str]:
    "the texts of the six fields of a fixed card"
    return [card[first - 1:last].rstrip() for first, last in FIELDS.values()]


# the fields of a fixed card, which is filled up with blanks to its last column
FIXED = re.compile(r" (.{2}) (.{8})  (.{8})  (.{12})   (.{8})  (.{12})")
BEGINS = {field: FIELDS[field][0] for field in NUMBERS}


def fixed_fields(card: str) -> Fields:
    "the fields of a fixed card"
    found = FIXED.match(card.ljust(FIELDS[6][1]))
    if not found:
        raise DeckFault(20)
    text = {field: part.rstrip() for field, part in enumerate(found.groups(), 1)}
    text[1] = text[1].strip()
    return Fields(text, BEGINS)


def word_fields(section: str, deletes: bool, first: str) -> list[tuple[int, ...]]:
    "which fields the words of a free card may be; its first word tells its type"
    if deletes:
        return [(2,)] if section == "ROWS" else [(2,), (2, 3)]
    if section == "ROWS":
        return TYPE_NAMED + (PARTS if first in COMBINATIONS else [])
    if section == "BOUNDS":
        return [(1, 2, 3, 4), (1, 3, 4)] if first in VALUED else [(1, 2, 3), (1, 3)]
    return NAMED_PAIRS if section == "COLUMNS" else NAMED_PAIRS + BARE_PAIRS


def free_fields(card: str, section: str, deletes: bool) -> Fields:
    "the fields of a free card, whose words they are"
    words = words_of(card)
    first = words[0][1]
    if section == "ROWS" and not deletes and first not in KINDS + COMBINATIONS:
        raise DeckFault(3)
    if section == "BOUNDS" and not deletes and first not in BOUNDS:
        raise DeckFault(10)
    given = next((given for given in word_fields(section, deletes, first) if len(given) == len(words)), None)
    if given is None:
        raise DeckFault(25)
    text = {**dict.fromkeys(FIELDS, ""), **{field: word for field, (_, word) in zip(given, words)}}
    if any(len(text[field]) > NAME_LENGTH for field in NAMES):
        raise DeckFault(26)
    if any(len(text[field]) > NUMBER_LENGTH for field in NUMBERS):
        raise DeckFault(27)
    return Fields(text, {field: column for field, (column, _) in zip(given, words)})


def needs_blank(field: Fields, *numbers: int) -> None:
    "the fault of a field that is to be blank"
    if any(field.text[number].strip() for number in numbers):
        raise DeckFault(20)


# ---- a problem, by names

# the type, the column, and the number where it has one
Bound = tuple[str, str, Written | None]

class Problem:
    """what a deck says; DeckFault where it has a fault. A row has its kind; a combination also has its parts, which are multipliers by the names
    of other rows"""
    def __init__(self, cards: list[str]) -> None:
        self.name = ""
        self.rows: dict[str, str] = {}
        self.parts: dict[str, dict[str, Written]] = {}
        self.columns: dict[str, dict[str, Written]] = {}
        # of RHS and RANGES {set: {row: number}}, of BOUNDS {set: [Bound]}
        self.sets: dict[str, dict[str, Any]] = {"RHS": {}, "RANGES": {}, "BOUNDS": {}}
        DataDeck(self, cards).read()

    def entries(self) -> int:
        "how many entries it has"
        return sum(len(entries) for entries in self.columns.values())

    def summed(self, column: str, combinations: list[str] | None = None) -> dict[str, Fraction]:
        """the numbers of a column by the names of rows: its entries, and on each combination that has a part where the column has a number the sum
        of such parts, each its multiplier times that number; combinations() is handed in where many columns are summed"""
        numbers: dict[str, Fraction] = dict(self.columns[column])
        for name in self.combinations() if combinations is None else combinations:
            products = [times * numbers[row] for row, times in self.parts[name].items() if row in numbers]
            if products:
                numbers[name] = sum(products, Fraction(0))
        return numbers

    def combinations(self) -> list[str]:
        "the names of the combinations, in their order"
        return [name for name in self.rows if name in self.parts] if self.parts else []

    def deck(self) -> Iterator[str]:
        "the cards that BCDOUT punches"
        def card(kind: str, *names: str, value: Written | None = None) -> str:
            text = " {:<2} {:<10}{:<10}".format(kind, *names, *[""] * (2 - len(names))) + (value.text if value is not None else "")
            return text.rstrip()

        yield f"NAME          {self.name}".rstrip()
        yield "ROWS"
        for name, kind in self.rows.items():
            if name not in self.parts:
                yield card(kind, name)
            elif self.parts[name]:
                yield from (card("D" + kind, name, row, value=value) for row, value in self.parts[name].items())
            else:
                yield card("D" + kind, name)
        yield "COLUMNS"
        plain = [name for name in self.rows if name not in self.parts]
        for name, entries in self.columns.items():
            if not entries and plain:
                entries = {plain[0]: Written("0")}
            yield from (card("", name, row, value=value) for row, value in entries.items())
        for section in ("RHS", "RANGES"):
            if self.sets[section]:
                yield section
            yield from (card("", name, row, value=value) for name, items in self.sets[section].items() for row, value in items.items())
        if self.sets["BOUNDS"]:
            yield "BOUNDS"
        yield from (card(kind, name, column, value=value) for name, items in self.sets["BOUNDS"].items() for kind, column, value in items)
        yield "ENDATA"

    def revised(self, cards: list[str]) -> "Problem":
        "what the deck of a revision makes of it; the problem itself stays as it is"
        revised = copy.deepcopy(self)
        Revision(revised, cards).read()
        return revised


def rows_before(problem: Problem, name: str) -> list[str]:
    "the names of the rows before the one of this name"
    names = list(problem.rows)
    return names[:names.index(name)]


class Deck:
    "reads the cards of a deck into a problem, one after the other"
    def __init__(self, problem: Problem, cards: list[str]) -> None:
        self.problem, self.cards, self.section, self.is_free = problem, cards, "", False
        # the type and the name on the card of ROWS before, where that is a combination's
        self.combining: tuple[str, str] | None = None
        self.entries = problem.entries()
        # the bounds of a data deck by their set and column
        self.index: dict[tuple[str, str], list[Bound]] = {}

    def may_follow(self) -> Sequence[str]:
        "the sections that may begin here"
        raise NotImplementedError

    def take_data(self, card: str) -> None:
        "a data card"
        raise NotImplementedError

    def read(self) -> None:
        "reads the whole deck"
        for place, card in enumerate(self.cards):
            if is_skipped(card):
                continue
            try:
                self.take(card)
            except DeckFault as fault:
                raise DeckFault(fault.number, place, fault.more, fault.known) from None
            if self.section == "ENDATA":
                return
        raise DeckFault(13, len(self.cards) - 1)

    def take(self, card: str) -> None:
        "a card that means something"
        word = card.split(" ")[0]
        if not self.section and word != "NAME" or not word and self.section == "NAME":
            raise DeckFault(1)
        if not word:
            self.take_data(card)
            return
        if word not in SECTIONS:
            raise DeckFault(2)
        if word not in self.may_follow():
            raise DeckFault(1)
        if word == "NAME":
            self.problem.name, self.is_free = card[14:22].rstrip(), is_free(card)
        self.begin(word)

    def begin(self, section: str) -> None:
        "a section begins"
        self.section = section

    def fields_on(self, card: str, deletes: bool = False) -> Fields:
        "the fields of a data card"
        return free_fields(card, self.section, deletes) if self.is_free else fixed_fields(card)

    def take_pairs(self, field: Fields, items: dict[str, Written], replaces: bool = False, known: Sequence[str] | None = None) -> None:
        """the pairs of rows and numbers on a card, into a column's entries, a set's items or the parts of a combination, which stand on known rows
        alone and may be none"""
        for name, value in ((3, 4), (5, 6)):
            row = field.text[name]
            if (name == 5 or known is not None) and not row and not field.text[value].strip():
                continue
            if not row:
                raise DeckFault(15)
            if row not in (self.problem.rows if known is None else known):
                raise DeckFault(6, known=known)
            if self.section == "COLUMNS" and row in self.problem.parts:
                raise DeckFault(28)
            if self.section == "RANGES" and self.problem.rows[row] == "N":
                raise DeckFault(9)
            if row in items and not replaces:
                raise DeckFault(7)
            written = number_on(field.text[value], field.column[value])
            if self.section == "COLUMNS" and row not in items:
                if self.entries == MOST_ENTRIES:
                    raise DeckFault(18)
                self.entries += 1
            items[row] = written

    def begin_row(self, kind: str, name: str) -> None:
        "a new row at the end; a revision has a place for it"
        self.problem.rows[name] = kind

    def rows_before_new(self) -> list[str]:
        "the names of the rows before a new one"
        return list(self.problem.rows)

    def take_row(self, field: Fields) -> None:
        """a card that begins a row, or goes on with the combination of the card before it; the parts of a combination stand on rows before it"""
        kind, name, problem = field.text[1], field.text[2], self.problem
        if kind not in KINDS + COMBINATIONS:
            raise DeckFault(3)
        if not name:
            raise DeckFault(15)
        goes_on = self.combining == (kind, name)
        if not goes_on and name in problem.rows:
            raise DeckFault(4)
        if not goes_on and len(problem.rows) == MOST_ROWS:
            raise DeckFault(16)
        known = rows_before(problem, name) if goes_on else self.rows_before_new()
        self.combining = (kind, name) if kind in COMBINATIONS else None
        if kind in COMBINATIONS:
            self.take_pairs(field, problem.parts.setdefault(name, {}), known=known)
        else:
            needs_blank(field, 3, 4, 5, 6)
        if not goes_on:
            self.begin_row(kind[-1], name)

    def test_column_card(self, field: Fields) -> None:
        "the faults of a card of COLUMNS before its pairs"
        needs_blank(field, 1)
        if "'MARKER'" in (field.text[3], field.text[5]):
            raise DeckFault(14)
        if not field.text[2]:
            raise DeckFault(15)

    def test_new_column(self, name: str) -> None:
        "the faults of a card that begins a column"
        if name in self.problem.columns:
            raise DeckFault(5)
        if len(self.problem.columns) == MOST_COLUMNS:
            raise DeckFault(17)

    def take_bound(self, field: Fields, replaces: bool = False) -> None:
        "a card of BOUNDS"
        kind, name, column = (field.text[number] for number in (1, 2, 3))
        if kind not in BOUNDS:
            raise DeckFault(10)
        if not column:
            raise DeckFault(15)
        if column not in self.problem.columns:
            raise DeckFault(11)
        items = self.problem.sets["BOUNDS"].get(name, [])
        touched = [item for item in self.bounds_on(name, column) if set(BOUNDS[item[0]]) & set(BOUNDS[kind])]
        if touched and not replaces:
            raise DeckFault(12)
        value = number_on(field.text[4], field.column[4]) if kind in VALUED else None
        needs_blank(field, 5, 6)
        if touched:
            items[:] = [item for item in items if item not in touched]
        self.problem.sets["BOUNDS"].setdefault(name, items).append((kind, column, value))
        self.index.setdefault((name, column), []).append((kind, column, value))

    def bounds_on(self, name: str, column: str) -> list[Bound]:
        "the bounds of a column in a set"
        return self.index.get((name, column), [])


class DataDeck(Deck):
    "a deck that states a problem"
    def may_follow(self) -> Sequence[str]:
        later = SECTIONS[SECTIONS.index(self.section) + 1:] if self.section else SECTIONS
        return later[:1] if later[0] in ("NAME", "ROWS", "COLUMNS") else later

    def take_data(self, card: str) -> None:
        field, problem = self.fields_on(card), self.problem
        if self.section == "ROWS":
            self.take_row(field)
        elif self.section == "COLUMNS":
            self.test_column_card(field)
            name = field.text[2]
            if next(reversed(problem.columns), None) != name:
                self.test_new_column(name)
            self.take_pairs(field, problem.columns.setdefault(name, {}))
        elif self.section == "BOUNDS":
            self.take_bound(field)
        else:
            needs_blank(field, 1)
            self.take_pairs(field, problem.sets[self.section].setdefault(field.text[2], {}))


class Revision(Deck):
    "a deck that revises a problem"
    action = ""
    place = 0
    inserted: str | None = None

    def bounds_on(self, name: str, column: str) -> list[Bound]:
        return [item for item in self.problem.sets["BOUNDS"].get(name, []) if item[1] == column]

    def may_follow(self) -> Sequence[str]:
        return SECTIONS[SECTIONS.index(self.section) + 1:] if self.section else SECTIONS[:1]

    def begin(self, section: str) -> None:
        self.section, self.action = section, ""

    def listed(self) -> dict[str, Any]:
        "the rows or the columns, in whose list BEFORE and AFTER have a place"
        if self.section == "ROWS":
            return self.problem.rows
        return self.problem.columns

    def take_data(self, card: str) -> None:
        action = action_on(card, self.is_free)
        if action:
            self.begin_action(*action)
            return
        if not self.action:
            raise DeckFault(21)
        field = self.fields_on(card, self.action == "DELETE")
        if self.action == "DELETE":
            deletes: dict[str, Callable[[Fields], None]] = {"ROWS": self.delete_row, "COLUMNS": self.delete_column}
            deletes.get(self.section, self.delete_item)(field)
            self.drop_empty_sets()
            self.entries = self.problem.entries()
        elif self.section == "ROWS":
            (self.modify_row if self.action == "MODIFY" else self.take_row)(field)
        elif self.section == "COLUMNS":
            self.edit_column(field)
        elif self.section == "BOUNDS":
            self.take_bound(field, replaces=True)
        else:
            needs_blank(field, 1)
            self.take_pairs(field, self.problem.sets[self.section].setdefault(field.text[2], {}), replaces=True)

    def begin_action(self, word: str, name: str) -> None:
        "BEFORE and AFTER have a place in the list of rows or columns"
        if word not in ACTIONS or word in ("BEFORE", "AFTER") and self.section not in ("ROWS", "COLUMNS"):
            raise DeckFault(21)
        self.action, self.inserted, self.combining = word, None, None
        if word in ("BEFORE", "AFTER"):
            names = list(self.listed())
            if name and name not in names:
                raise DeckFault(22)
            self.place = (names.index(name) + (word == "AFTER")) if name else (0 if word == "BEFORE" else len(names))

    def insert(self, name: str, value: Any) -> None:
        "a new row or column at the place that BEFORE or AFTER has told"
        listed = list(self.listed().items())
        listed.insert(self.place, (name, value))
        self.listed().clear()
        self.listed().update(listed)
        self.place, self.inserted = self.place + 1, name

    def rows_before_new(self) -> list[str]:
        return list(self.problem.rows)[:self.place]

    def begin_row(self, kind: str, name: str) -> None:
        self.insert(name, kind)

    def modify_row(self, field: Fields) -> None:
        "a plain row stays plain, and a combination one, whose parts on the card come in the place of those on the same rows, or at the end"
        kind, name, problem = field.text[1], field.text[2], self.problem
        if not name:
            raise DeckFault(15)
        if name not in problem.rows:
            raise DeckFault(24)
        if kind not in (COMBINATIONS if name in problem.parts else KINDS):
            raise DeckFault(3)
        if kind[-1] == "N" and any(name in items for items in problem.sets["RANGES"].values()):
            raise DeckFault(9)
        if name in problem.parts:
            self.take_pairs(field, problem.parts[name], replaces=True, known=rows_before(problem, name))
        else:
            needs_blank(field, 3, 4, 5, 6)
        problem.rows[name] = kind[-1]

    def edit_column(self, field: Fields) -> None:
        "a card of COLUMNS under MODIFY, BEFORE or AFTER"
        self.test_column_card(field)
        name, columns = field.text[2], self.problem.columns
        if self.action == "MODIFY" and name not in columns:
            raise DeckFault(24)
        if self.action != "MODIFY" and name != self.inserted:
            self.test_new_column(name)
            self.insert(name, {})
        self.take_pairs(field, columns[name], replaces=self.action == "MODIFY")

    def delete_row(self, field: Fields) -> None:
        "a row goes, with its entries and items"
        name = field.text[2]
        if not name:
            raise DeckFault(15)
        if name not in self.problem.rows:
            raise DeckFault(23)
        needs_blank(field, 3, 4, 5, 6)
        del self.problem.rows[name]
        self.problem.parts.pop(name, None)
        sets = self.problem.sets
        for items in (*self.problem.parts.values(), *self.problem.columns.values(), *sets["RHS"].values(), *sets["RANGES"].values()):
            items.pop(name, None)

    def delete_column(self, field: Fields) -> None:
        "a column goes, with its bounds, or one of its entries"
        needs_blank(field, 1)
        if not field.text[2]:
            raise DeckFault(15)
        if field.text[2] not in self.problem.columns:
            raise DeckFault(23)
        if field.text[3]:
            self.delete_of_row(field, self.problem.columns[field.text[2]])
            return
        needs_blank(field, 4, 5, 6)
        del self.problem.columns[field.text[2]]
        for name, items in self.problem.sets["BOUNDS"].items():
            self.problem.sets["BOUNDS"][name] = [item for item in items if item[1] != field.text[2]]

    def delete_of_row(self, field: Fields, items: dict[str, Written]) -> None:
        "the entry of a column, or the item of a set, on the row in field 3"
        row = field.text[3]
        if row not in self.problem.rows:
            raise DeckFault(6)
        if row not in items:
            raise DeckFault(23)
        needs_blank(field, 4, 5, 6)
        del items[row]

    def delete_item(self, field: Fields) -> None:
        "a set, or what field 3 names of it"
        sets, name, other = self.problem.sets[self.section], field.text[2], field.text[3]
        if self.section != "BOUNDS":
            needs_blank(field, 1)
        if name not in sets:
            raise DeckFault(23)
        if other and self.section != "BOUNDS":
            self.delete_of_row(field, sets[name])
            return
        if other and other not in self.problem.columns:
            raise DeckFault(11)
        if other and not any(item[1] == other for item in sets[name]):
            raise DeckFault(23)
        needs_blank(field, 4, 5, 6)
        sets[name] = [item for item in sets[name] if item[1] != other] if other else []

    def drop_empty_sets(self) -> None:
        "sets without an item go"
        for sets in self.problem.sets.values():
            for name in [name for name, items in sets.items() if not items]:
                del sets[name]
