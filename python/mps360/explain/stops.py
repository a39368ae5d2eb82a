"What a STOP line means: the card that it names, what the fault is, and what helps."
from __future__ import annotations

from collections.abc import Iterator, Sequence
from typing import TYPE_CHECKING, Any
import difflib
import re
from mps360 import programs
from mps360.commands import called, here
from mps360.jobs import decks
from mps360.numbers import nearest, text_of

if TYPE_CHECKING:
    from mps360.explain.reports import Replayed
    from mps360.listings.read import End, Line

# the fields of a data card, by their columns on it
FIELDS = ((2, 3), (5, 12), (15, 22), (25, 36), (40, 47), (50, 61))
# the fields that a section uses; the first and the last section alone may leave the others out
USED = {"ROWS": (1, 2), "a combination": (1, 2, 3, 4, 5, 6), "COLUMNS": (2, 3, 4, 5, 6), "RHS": (2, 3, 4, 5, 6), "RANGES": (2, 3, 4, 5, 6),
        "BOUNDS": (1, 2, 3, 4), "an XU card": (1, 2, 3), "an XL card": (1, 2, 3), "a UL card": (1, 2), "an LL card": (1, 2)}
# what each field holds, in the words of a free card
HOLDS = {"ROWS": {1: "type", 2: "name", 3: "row", 4: "multiplier", 5: "row", 6: "multiplier"},
         "COLUMNS": {2: "column", 3: "row", 4: "entry", 5: "row", 6: "entry"},
         "RHS": {2: "set", 3: "row", 4: "number", 5: "row", 6: "number"}, "RANGES": {2: "set", 3: "row", 4: "number", 5: "row", 6: "number"},
         "BOUNDS": {1: "type", 2: "set", 3: "column", 4: "number"}}
# what stands in the parentheses of each verb that has them
ARGUMENTS = {
    "TITLE": "TITLE('text'), of 60 bytes at most",
    "MOVE": "MOVE(cell,'name') or MOVE(cell,number); XPARAM, XPARMAX and XITERLIM take a number, XITERLIM 'NONE' too, the other cells a name",
    "MVADR": "MVADR(demand,label), the label without quotes",
    "GOTO": "GOTO(label), the label without quotes",
    "SETUP": "SETUP('MIN' or 'MAX','BOUND','name','RANGE','name'), each at most once and in any order",
}
OPTIONS = ["MIN", "MAX", "BOUND", "RANGE"]
VERBS = "BCDOUT CONVERT DUAL EXIT GOTO INITIALZ INSERT MOVE MVADR PARAOBJ PARARHS PEND PRIMAL PUNCH RANGE REVISE SETUP SOLUTION TITLE".split()
CELLS = "XDATA XPBNAME XOLDNAME XOBJ XRHS XCHROW XCHCOL XPARAM XPARMAX XITERLIM".split()
PLACES = {"LL": "stands at its lower limit", "UL": "stands at its upper limit", "EQ": "stands at its limits, which are equal", "FR": "stands at 0"}
MOST_SHOWN = 30


def fault_entries() -> Iterator[tuple[str, dict[str, str]]]:
    "the faults that are known, each by its name with its entries"
    path = [path for path in (programs.TOP / "examples/faults/INDEX", programs.TOP / "faults/INDEX") if path.exists()][0]
    for block in re.sub(r"^#.*\n", "", path.read_text(), flags=re.M).strip().split("\n\n"):
        name, *lines = block.split("\n")
        yield name, dict(line[2:].split(" ", 1) for line in lines)


def entry_of(stop: str) -> dict[str, str] | None:
    "the entry of the fault that a STOP line tells"
    kind = re.match(r"STOP (\d+) (?:(CONTROL|VERB|DECK|CARD) FAULT (\d+))?", stop)
    number = re.search(r" NUMBER (\d+)", stop)
    names = dict(fault_entries())
    if not kind:
        return None
    if kind[2]:
        width = 1 if kind[2] == "CARD" else 2
        name = f"{kind[2].lower()}-{int(kind[3]):0{width}}" + (f"-{number[1]}" if number else "")
        return names.get(name)
    return next((entry for entry in names.values() if entry["status"] == kind[1]), None)


def revises(cards: list[str]) -> bool:
    "whether the deck that begins with these cards, of which the first is its NAME card, revises another"
    end = next((place for place, card in enumerate(cards) if card.split(" ")[0] == "ENDATA"), len(cards))
    is_free, data = decks.is_free(cards[0]), [card for card in cards[1:end] if card.startswith(" ")]
    return any(decks.action_on(card, is_free) for card in (data[:1] if is_free else data))


def word_fields(card: str, section: str, deletes: bool) -> Any:
    "the fields that the words of a free card are, in order; None where its section takes no card of so many words"
    words = decks.words_of(card)
    given = decks.word_fields(section, deletes, words[0][1])
    return next((fields for fields in given if len(fields) == len(words)), None)


class DataCard:
    "a data card in a section of a deck: its place, from 0, whether its deck is free, the action over it, or that it is itself"
    def __init__(self, place: int, card: str, section: str, is_free: bool, action: str | None, is_action: bool, begins: int) -> None:
        self.place, self.card, self.section, self.is_free, self.begins = place, card, section, is_free, begins
        self.is_action, self.deletes = is_action, action == "DELETE"

    def field(self, number: int) -> str:
        if not self.is_free:
            first, last = FIELDS[number - 1]
            return self.card[first - 1:last].rstrip()
        fields = word_fields(self.card, self.section, self.deletes) or ()
        return next((word for field, (_, word) in zip(fields, decks.words_of(self.card)) if field == number), "")


def data_cards(cards: list[str]) -> Iterator[DataCard]:
    "the data cards of the decks of problems and revisions; begins is the place of the NAME card, where the deck revises none"
    section, action = "", None
    is_free = is_revision = False
    begins = 0
    for place, card in enumerate(cards):
        if not card or card.startswith("*"):
            continue
        if card[0] != " ":
            section, action = card.split(" ")[0], None
            if section == "NAME":
                is_free, is_revision = decks.is_free(card), revises(cards[place:])
                begins = begins if is_revision else place
        elif section in HOLDS:
            found = decks.action_on(card, is_free) if is_revision else None
            action = found[0] if found else action
            yield DataCard(place, card, section, is_free, action, found is not None, begins)


def data_card_at(cards: list[str], place: int) -> DataCard | None:
    "the data card of this number, None where that is another card"
    return next((card for card in data_cards(cards[:place]) if card.place == place - 1), None)


def deck_before(cards: list[str], place: int) -> dict[str, list[str]]:
    "the names of rows and columns, and of sets, of the deck up to this card, and of the deck before where it revises that"
    listed = [card for card in data_cards(cards[:place]) if not card.is_action]
    begins = max((card.begins for card in listed), default=0)
    return {section: list(dict.fromkeys(card.field(2) for card in listed if card.section == section and card.begins == begins)) for section in HOLDS}


def earlier_rows(cards: list[str], data: DataCard) -> list[str] | None:
    "the rows before that of a card of ROWS, on which its parts may stand; None where the decks can't be read so far"
    problem: decks.Problem | None = None
    begins = data.begins
    for place in range(data.begins, data.place + 1):
        if cards[place].split(" ")[0] != "ENDATA" and place < data.place:
            continue
        deck, begins = cards[begins:place + 1], place + 1
        try:
            problem = problem.revised(deck) if problem else decks.Problem(deck)
        except decks.DeckFault as fault:
            if place == data.place:
                return list(fault.known) if fault.known is not None else None
    return None


def known_names(stop: str, cards: list[str], place: int, run: Replayed | None) -> tuple[str, list[str], list[str]] | None:
    "what is known where an unknown name stands, and the words on the card; run has the problem that is set up"
    card = cards[place - 1] if place else ""
    kind = re.match(r"STOP \d+ (\w+) FAULT (\d+)", stop)
    if not kind:
        return None
    fault = kind[1], int(kind[2])
    words = re.findall(r"'([^']*)'", card) or re.findall(r"[A-Z0-9.]+", card)
    if fault == ("CONTROL", 3):
        return "verbs", VERBS, [re.split(r"[( ]", card[9:].strip() or " ")[0]]
    if fault == ("CONTROL", 8):
        return "cells", CELLS, re.findall(r"\(([^,)]*)", card)
    if fault == ("CONTROL", 9):
        return "demands", ["XDONFS", "XDOUNB"], re.findall(r"\(([^,)]*)", card)
    if fault == ("CONTROL", 6):
        return "labels", [text.split()[0] for text in cards if text[:1] not in ("", " ", "*")][:40], re.findall(r"[(,]([A-Z0-9]+)\)", card)
    whole = deck_before(cards, len(cards))
    if fault[0] == "DECK" and fault[1] in (6, 11) and section_at(cards, place) == "NAME":
        problem = run.setup[0] if run and run.setup else None
        names = list(problem.rows.keys() if fault[1] == 6 else problem.columns.keys()) if problem else []
        return None if not names else ("rows" if fault[1] == 6 else "columns", names, [card[14:22].rstrip() if fault[1] == 6 else card[4:12].rstrip()])
    if fault[0] == "DECK" and fault[1] in (6, 11):
        what, data = "rows" if fault[1] == 6 else "columns", data_card_at(cards, place)
        wrong = [data.field(number) for number in ((3, 5) if fault[1] == 6 else (3,))] if data else []
        earlier = earlier_rows(cards, data) if data and data.section == "ROWS" else None
        if earlier is not None:
            return "earlier rows", earlier, [name for name in wrong if name and name not in earlier]
        return what, deck_before(cards, place)[what.upper()], [name for name in wrong if name]
    table = {6: ("ROWS", "XCHROW"), 7: ("RHS", "XCHCOL"), 10: ("ROWS", "XOBJ"), 11: ("ROWS", "XOBJ"), 12: ("RHS", "XRHS"),
             13: ("RANGES", None), 14: ("BOUNDS", None)}
    if fault[0] == "VERB" and fault[1] in table:
        what, cell = table[fault[1]]
        moved = [word for text in cards[:place] for word in re.findall(rf"MOVE\({cell},'([^']*)'", text)]
        return ("rows of type N" if what == "ROWS" else f"sets of {what}"), (
            [data.field(2) for data in data_cards(cards) if data.section == "ROWS" and data.field(1).strip() in ("N", "DN")] if what == "ROWS" else whole[what]), (
            moved[-1:] if cell else words)
    return None


def more_than(shown: Sequence[object]) -> str:
    return f" and {len(shown) - MOST_SHOWN} more" if len(shown) > MOST_SHOWN else ""


def wordings(text: str) -> str:
    "a text of the index of faults, with the names that commands and documents have here"
    return here(re.sub(r"(?<!docs/)\b([A-Z_]{4,}\.md)", r"docs/\1", text))


def section_at(cards: list[str], place: int) -> str | None:
    "the section in which a card stands"
    words = [card.split(" ")[0] for card in cards[:place] if card and card[0] not in " *"]
    return words[-1] if words else None


def ruler() -> str:
    "the fields, with | in the first and the last column of each"
    line = [" "] * FIELDS[-1][1]
    for number, (first, last) in enumerate(FIELDS, 1):
        line[first - 1] = line[last - 1] = "|" if number > 1 else "1"
        line[(first + last) // 2 - 1] = str(number)
    return "".join(line)


def is_combination(card: str) -> bool:
    return card[1:3].strip() in decks.COMBINATIONS


def to_be_blank(card: str, section: str, deletes: bool) -> Any:
    "the first column of a data card that holds something and is to be blank, and why"
    if section == "NAME":
        section = next((kind for kind in USED if kind.endswith(f" {card[1:3].strip()} card")), section)
    combines = section == "ROWS" and is_combination(card) and not deletes
    used = USED["a combination" if combines else section] if section in USED else ()
    for column, byte in enumerate(card[:FIELDS[-1][1]], 1):
        number = next((number for number, (first, last) in enumerate(FIELDS, 1) if first <= column <= last), None)
        if byte == " " or number in used:
            continue
        if number:
            owner = "a plain row" if section == "ROWS" and not deletes else section
            why = f"which belongs to field {number}, and {owner} has no field {number}"
        else:
            after = next((number for number, (first, _) in enumerate(FIELDS, 1) if first > column), 7)
            why = f"between fields {after - 1} and {after}" if after > 1 else "before field 1"
        return column, f"column {column} is to be blank, {why}; here it has {byte!r}"
    return None


def show_words(data: DataCard) -> None:
    "the field of each word of a free card below it, and what it is read as; nothing where its section takes no card of so many words"
    words, fields = decks.words_of(data.card), word_fields(data.card, data.section, data.deletes)
    if data.is_action:
        read = zip(("action", "name"), words)
    elif fields:
        line = ""
        for field, (column, _) in zip(fields, words):
            line = line.ljust(column - 1) + str(field)
        print(f"    {line}  (fields)")
        read = zip((HOLDS[data.section][field] for field in fields), words)
    else:
        return
    print("\nIt is read as " + ", ".join(f"{what} '{word}'" for what, (_, word) in read) + ".")


def of_word(data: DataCard, fault: int) -> Any:
    "the column of the word of a free card that has fault 25, 26 or 27, and what is wrong with it"
    words, section = decks.words_of(data.card), data.section
    given = decks.word_fields(section, data.deletes, words[0][1])
    if fault == 25:
        wanted = [f"{len(fields)} ({', '.join(HOLDS[section][field] for field in fields)})" for fields in sorted(given, key=len)]
        kind = f"a card of {section}" + (" under DELETE" if data.deletes else f" with {words[0][1]}" if section in ("ROWS", "BOUNDS") else "")
        return None, f"the card has {len(words)} words, and {kind} has {' or '.join(wanted)}"
    fields, most = (decks.NAMES, decks.NAME_LENGTH) if fault == 26 else (decks.NUMBERS, decks.NUMBER_LENGTH)
    long = [word for field, word in zip(word_fields(data.card, section, data.deletes) or (), words) if field in fields and len(word[1]) > most]
    if not long:
        return None, None
    column, word = long[0]
    return column, f"{word} has {len(word)} characters, and a {'name' if fault == 26 else 'number'} has {most} at most" + shorter(word)


def shorter(word: str) -> Any:
    "the same number in fewer characters, where there is one"
    if not decks.NUMBER.match(word) or len(word) <= decks.NUMBER_LENGTH:
        return ""
    short = text_of(decks.number(word))
    return f": {short} is the same number" if short else f": {text_of(nearest(decks.number(word)))} is near to it"


def where_free(cards: list[str], place: int) -> list[str]:
    "what is said where the NAME card has the word FREE, and begins a fixed deck all the same"
    name = next((card for card in reversed(cards[:place]) if card.split(" ")[0] == "NAME"), "")
    found = re.search(r"\bFREE\b", name[4:])
    if decks.is_free(name) or not found:
        return []
    column = found.start() + 5
    why = "something else stands behind the name" if column == 25 else f"it stands in {column} to {column + 3}"
    return [f"The deck is fixed: FREE counts in columns 25 to 28 of the NAME card, with columns 23, 24 and 29 to 80 blank, and {why}."]


def misplaced(card: str, section: str) -> Any:
    "a number or a name on a data card that stands in wrong columns, as words tell it"
    for found in re.finditer(r"\S+", card[:FIELDS[-1][1]]):
        first, last = found.start() + 1, found.end()
        if any(start <= first and last <= end for start, end in FIELDS):
            continue
        has_numbers = section in ("COLUMNS", "RHS", "RANGES", "BOUNDS") or section == "ROWS" and is_combination(card)
        if has_numbers and decks.NUMBER.match(found[0]):
            number = 4 if abs(FIELDS[3][0] - first) <= abs(FIELDS[5][0] - first) else 6
            start, end = FIELDS[number - 1]
            if len(found[0]) > end - start + 1:
                return f"the number {found[0]} has {len(found[0])} characters, and field {number} has {end - start + 1} columns: shorten it"
            return f"move the number {found[0]}, which stands in columns {first} to {last}, into field {number}, columns {start} to {end}"
        if len(found[0]) > 8 and not decks.NUMBER.match(found[0]):
            return f"{found[0]} runs over its field, and a name has 8 characters at most; {called('mps2job.py')} shortens longer ones"
    return None


def show_card(stop: str, cards: list[str], place: int) -> None:
    "the card that the stop names, under a ruler"
    card, section, data = cards[place - 1], section_at(cards, place), data_card_at(cards, place)
    print(f"\ncard {place}:")
    print("    " + "".join(f"{ten:>10}" for ten in range(10, 81, 10)))
    print("    " + "1234567890" * 8)
    print("    " + re.sub(r"[^ -~]", "?", card)[:80])
    told = re.search(r" COLUMN (\d+)", stop)
    column: int | None = int(told[1]) if told else None
    why: str | None = None
    word_fault = re.search(r" DECK FAULT (25|26|27) ", stop)
    if " DECK FAULT 20 " in stop + " ":
        column, why = to_be_blank(card, section or "", data is not None and data.deletes) or (None, None)
    elif word_fault and data and data.is_free:
        column, why = of_word(data, int(word_fault[1]))
    if " CARD FAULT 4 " in stop:
        column = next((at for at, byte in enumerate(card, 1) if not " " <= byte <= "~"), None)
        why = f"column {column} holds the byte {ord(card[column - 1])} (hexadecimal {ord(card[column - 1]):02X}), shown as ?" if column else None
    if column and column <= 80:
        print("    " + " " * (column - 1) + "^")
    if data and data.is_free:
        show_words(data)
    elif " DECK " in stop and card[:1] == " ":
        print("    " + ruler() + "  (fields 1 to 6)")
    if why:
        print(f"\n{why[0].upper()}{why[1:]}.")


def about_arguments(card: str) -> list[str]:
    "what is wrong with the arguments of a statement, as far as that can be seen, and what the verb wants"
    found = re.match(r"\S*\s+([A-Z]+)(.*)", card[:72])
    if not found:
        return []
    verb, rest = found[1], found[2]
    inside = re.match(r"\(((?:'[^']*'|[^')])*)", rest)
    words = re.findall(r"'[^']*'|[^,']+", inside[1]) if inside else []
    if verb in ARGUMENTS:
        said = [f"{verb} is written {ARGUMENTS[verb]}."]
    else:
        said = [f"{verb} has no arguments."] if verb in VERBS and rest.startswith("(") else []
    if verb == "SETUP":
        names = {at + 1 for at, word in enumerate(words) if word in ("'BOUND'", "'RANGE'", "'BOUNDS'", "'RANGES'")}
        for at, word in enumerate(words):
            plain = word.strip("' ")
            near = difflib.get_close_matches(plain, OPTIONS, 1)
            if word == plain:
                said.append(f"{plain} has no quotes, and SETUP's words have them.")
            elif at not in names and plain not in OPTIONS:
                said.append(f"'{plain}' is no option of SETUP" + (f"; near to it: '{near[0]}'." if near else "."))
    elif verb == "MOVE" and len(words) == 2 and words[0] in CELLS and words[0] not in ("XPARAM", "XPARMAX", "XITERLIM") and not words[1].startswith("'"):
        said.append(f"{words[1]} has no quotes: a name is moved in quotes, as MOVE({words[0]},'{words[1]}').")
    elif verb == "MOVE" and len(words) == 2 and words[0] in ("XPARAM", "XPARMAX") and words[1].startswith("'"):
        said.append(f"{words[1]} has quotes: {words[0]} takes a number, as MOVE({words[0]},{words[1].strip(chr(39))}).")
    elif verb in ("GOTO", "MVADR") and words and words[-1].startswith("'"):
        said.append(f"{words[-1]} has quotes: a label has none.")
    elif verb == "TITLE" and inside and not inside[1].startswith("'"):
        said.append("The text has no quotes.")
    if " " in re.sub(r"'[^']*'", "", rest.partition(")")[0]) and ")" in rest:
        said.append("A blank stands between the parentheses outside quotes: it ends the statement.")
    return said


def mistaken(stop: str, text: str, cards: list[str], place: int) -> list[str]:
    "what the file, or the card, was perhaps meant to be"
    card = cards[place - 1] if 0 < place <= len(cards) else ""
    if text.startswith(("\xef\xbb\xbf", "\xff\xfe", "\xfe\xff")):
        name = "UTF-8" if text.startswith("\xef") else "UTF-16"
        return [f"The file begins with a byte order mark (BOM) of {name}: save it as plain ASCII, without BOM."]
    if "CONTROL FAULT 1 " in stop and re.match(r"NAME|ROWS|OBJSENSE|OBJNAME", card) and "PROGRAM" not in card:
        return [f"The file begins as an MPS file does: {called('mps2job.py')} makes a job of it."]
    if re.search(r" DECK FAULT (?:3|20|21|30) ", stop + " "):
        return where_free(cards, place)
    if re.search(r"CONTROL FAULT (3|4|7) ", stop) and re.match(r"NAME\b", card):
        return ["A card NAME begins a deck: PEND is missing, which ends the control program before it."]
    return about_arguments(card) if "CONTROL FAULT 7 " in stop else []


def cure_of(stop: str, entry: dict[str, str], cards: list[str], place: int) -> str:
    "what helps: where a number or a name of a data card stands in wrong columns, that; else what the index of faults says"
    told: str | None = misplaced(cards[place - 1], section_at(cards, place) or "") if " DECK FAULT 20 " in stop + " " and 0 < place <= len(cards) else None
    return told or wordings(entry["cure"])


def explain_dependency(lines: list[Line], run: Replayed | None) -> None:
    "the lines after fault 15, as a sentence"
    rows = run.lp.m if run and hasattr(run, "lp") else None
    columns = [line for line in lines if rows is None or line["number"] > rows]
    print("\nTake each column as often as its number says:\n")
    for line in columns:
        print(f"  {line['value']:>8} x {line['name']}")
    print()
    if rows is not None:
        moved = [f"{line['name']} by {line['value']}" for line in lines if line["number"] <= rows]
        print(f"That changes {', '.join(moved[:MOST_SHOWN]) + more_than(moved) if moved else 'no row'}, and no row that the deck takes out of the basis.", end=" ")
    print("So these columns can't be basic together: in those rows each is made up by the others.")


def explain_end(end: End, run: Replayed | None) -> None:
    "what a stop at INSERT or DUAL says besides"
    if "dependency" in end:
        explain_dependency(end["dependency"], run)
    names = run.lp.names if run and hasattr(run, "lp") else []
    if "variable" in end and 1 <= end["variable"] <= len(names):
        print(f"\nVariable {end['variable']} is {names[end['variable'] - 1]}.")


def explain_combination(stop: str, run: Replayed | None) -> None:
    "what formula 19 says: a combination's number in a column, a product or a sum of its parts"
    found = re.match(r"STOP 20 OVERFLOW F19 (MUL|ADD) (\S+) (\S+) .* I (\d+) J (\d+) TERM (\d+) ", stop)
    if not found:
        return
    i, j, term = (int(number) for number in found.groups()[3:])
    names = [*run.setup[0].rows, *run.setup[0].columns] if run and run.setup else []
    row, column = (names[k - 1] if 1 <= k <= len(names) else f"variable {k}" for k in (i, j))
    print(f"\n{row} is a combination: in the column {column} it has the sum of its parts, each its multiplier times {column}'s number on the part's row,")
    if found[1] == "MUL":
        print(f"and the product {found[2]} x {found[3]} doesn't fit ({term} parts that count stand before it).")
    else:
        print(f"and of {found[2]}, the sum of the first {term} parts that count, and the next, {found[3]}, the sum doesn't fit.")


def explain_stop(end: End, text: str, cards: list[str], run: Replayed | None) -> None:
    "what a STOP line means"
    stop = end["text"]
    told = re.search(r" CARD (\d+)", stop)
    place = int(told[1]) if told else 0
    print(stop.split("\n")[0])
    if 0 < place <= len(cards):
        show_card(stop, cards, place)
    entry = entry_of(stop)
    if entry:
        print(f"\nIt means: {wordings(re.sub('^STOP [^:]*: ', '', entry['means']))}.")
        for line in mistaken(stop, text, cards, place):
            print(line)
        print(f"What to do: {cure_of(stop, entry, cards, place)}.")
    explain_end(end, run)
    explain_combination(stop, run)
    known = known_names(stop, cards, place, run) if cards else None
    if known:
        what, names, wrong = known
        shown = [f"'{name}'" for name in names[:MOST_SHOWN]]
        print(f"\nKnown {what}: " + (", ".join(shown) + more_than(names) if shown else "none"))
        for word in wrong:
            near = difflib.get_close_matches(word.strip(), names, 1) or [name for name in names if name.lower() == word.strip().lower()]
            if near and near[0] != word:
                print(f"Near to '{word}': '{near[0]}'")
