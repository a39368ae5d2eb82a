"""Turns the fixed decks of a job into free ones, whose cards are words between blanks, or free decks into fixed ones. Each card that is changed
is read again, and has the same fields; no card is added or taken out, so card numbers stay.

usage: free_deck.py [--fixed] [FILE]       FILE is a job or decks alone; without it standard input; what comes of it goes to standard output

Refused, with the card and the reason, is what the other form can't say: in a free deck a name with blanks, a set with the empty name that is
to be deleted, one of the words MODIFY, DELETE, BEFORE and AFTER where it would begin an action card; and each card whose fields have a fault.
What isn't read in a fixed deck is left out, and said: text behind the fields or the name, a number on a bound that takes none.
Basis decks are always fixed, and stay as they are. It ends with 0, with 64 for wrong use, 65 where the file is refused, 66 where it can't be
read."""
from collections.abc import Callable, Iterator
import re
import sys
from mps360.files import bytes_of
from mps360.jobs import decks
from mps360.text import guard
from mps360.jobs.decks import ACTIONS, BOUNDS, FIELDS, NAMES, VALUED, DeckFault, is_skipped
from mps360.output import command

MEANS = {3: "an unknown row type", 8: "a number is faulty", 10: "an unknown bound type", 20: "something stands where a fixed card is to be blank",
         25: "no card of this section has so many words", 26: "a name of more than 8 bytes", 27: "a number of more than 12 bytes"}
LAST_COLUMN = FIELDS[6][1]


class Refused(Exception):
    "why a card isn't turned"


def program_end(cards: list[str]) -> int:
    "the number of cards of the control program; 0 where the file has decks alone"
    first = next((card for card in cards if not is_skipped(card)), "")
    if first.split(" ")[0] == "NAME" and "PROGRAM" not in first:
        return 0
    end = next((place for place, card in enumerate(cards, 1) if not card.startswith("*") and re.match(r"[^ ]* +PEND( |$)", card[:72])), None)
    if end is None:
        raise Refused("the file is no job, whose control program ends with PEND, and no deck, which begins with NAME")
    return end


def each_deck(cards: list[str], begun: int) -> Iterator[list[int]]:
    "the places of the cards of each deck that are to be read"
    deck = []
    for place in range(begun, len(cards)):
        deck += [] if is_skipped(cards[place]) else [place]
        if deck and cards[place].split(" ")[0] == "ENDATA":
            yield deck
            deck = []
    if deck:
        yield deck


class Form:
    "one of the two forms of cards"
    def __init__(self, is_free: bool) -> None:
        self.is_free = is_free

    def read(self, card: str, section: str, deletes: bool) -> dict[int, str]:
        "the fields of a data card, without the blanks around numbers"
        text = (decks.free_fields(card, section, deletes) if self.is_free else decks.fixed_fields(card)).text
        return {field: word if field in NAMES else word.strip() for field, word in text.items()}

    def action(self, card: str) -> tuple[str, str] | None:
        "the word and the name on an action card"
        return decks.action_on(card, self.is_free)

    def written(self, text: dict[int, str]) -> str:
        "a data card of these fields"
        if self.is_free:
            return " " + " ".join(word for word in text.values() if word)
        card = ""
        for field, (first, _) in FIELDS.items():
            card = card.ljust(first - 1) + text[field] if text[field] else card
        return card

    def written_action(self, word: str, name: str) -> str:
        "an action card"
        return f" {word} {name}".rstrip() if self.is_free else f" {word:<13}{name}".rstrip()

    def name_card(self, card: str) -> str:
        "the NAME card"
        return f"{card[:22]:<22}  FREE" if self.is_free else card[:22].rstrip()


class Turner:
    "turns the cards of one deck"
    def __init__(self, is_free: bool, cards: list[str], say: Callable[[str], object]) -> None:
        self.old, self.new, self.cards, self.say = Form(not is_free), Form(is_free), cards, say
        self.section, self.action = "", ""
        self.revises: bool | None = None

    def turn(self, deck: list[int]) -> None:
        "turns the cards at these places"
        name, is_basis = self.cards[deck[0]], len(deck) > 1 and self.cards[deck[1]].startswith(" ")
        if name.split(" ")[0] != "NAME":
            raise Refused(f"card {deck[0] + 1}: a deck begins with NAME")
        if is_basis or decks.is_free(name) == self.new.is_free:
            return
        for place in deck:
            try:
                self.cards[place] = self.turned(self.cards[place], place + 1)
            except DeckFault as fault:
                raise Refused(f"card {place + 1}: deck fault {fault}{fault.more}: {MEANS.get(fault.number, 'its fields are faulty')}") from None
            except Refused as cause:
                raise Refused(f"card {place + 1}: {cause}") from None

    def turned(self, card: str, number: int) -> str:
        "a card in the other form"
        if card.split(" ")[0] == "NAME":
            self.leave_out(card[22:] if self.new.is_free else "", f"card {number}: what stands behind the name")
            return self.new.name_card(card)
        if card[0] != " ":
            self.section, self.action = card.split(" ")[0], ""
            return card
        action = self.old.action(card) if self.revises is not False else None
        if self.revises is None:
            self.revises = action is not None
        if action:
            return self.turned_action(card, number, *action)
        return self.turned_data(card, number)

    def leave_out(self, text: str, what: str) -> None:
        "tells what isn't read"
        if text.strip():
            self.say(f"{what}, which isn't read, is left out: {text.strip()}")

    def turned_action(self, card: str, number: int, word: str, name: str) -> str:
        "an action card in the other form"
        if word not in ACTIONS:
            raise Refused(f"{word} is no action")
        if not self.new.is_free and len(name) > 8:
            if word in ("BEFORE", "AFTER"):
                raise Refused(f"{name} has more than 8 bytes, so it is the name of nothing (deck fault 22)")
            self.leave_out(name, f"card {number}: the name, of more than 8 bytes")
            name = ""
        self.action = word
        if not self.old.is_free:
            self.leave_out(card[1 + len(word):14] + card[22:], f"card {number}: what stands beside the word and the name")
        changed = self.new.written_action(word, name)
        if self.new.action(changed) != (word, name):
            raise Refused(f"the name '{name}' has blanks, and a word has none")
        return changed

    def turned_data(self, card: str, number: int) -> str:
        "a data card in the other form"
        deletes = self.action == "DELETE"
        text = self.old.read(card, self.section, deletes)
        if not self.old.is_free:
            self.leave_out(card[LAST_COLUMN:], f"card {number}: what stands behind column {LAST_COLUMN}")
            self.leave_unread(text, number, deletes)
        if self.new.is_free:
            self.test_words(text, deletes)
        changed = self.new.written(text)
        if self.revises and self.new.action(changed):
            raise Refused(f"{changed.split()[0]} would begin an action card")
        self.test_same(changed, text, deletes)
        return changed

    def test_same(self, changed: str, text: dict[int, str], deletes: bool) -> None:
        "Refused where the card in the other form has other fields"
        try:
            read = self.new.read(changed, self.section, deletes)
        except DeckFault as fault:
            raise Refused(f"its fields are none that such a card can have: as '{changed.strip()}' it would have deck fault {fault}") from None
        if read != text:
            raise Refused(f"as '{changed.strip()}' it would have other fields")

    def leave_unread(self, text: dict[int, str], number: int, deletes: bool) -> None:
        "fields of fixed cards that a section has and doesn't read"
        unread = [1] if deletes and self.section in ("ROWS", "BOUNDS") else []
        if not deletes and self.section == "BOUNDS" and text[1] in BOUNDS and text[1] not in VALUED:
            unread = [4]
        for field in unread:
            self.leave_out(text[field], f"card {number}: field {field}")
            text[field] = ""

    def test_words(self, text: dict[int, str], deletes: bool) -> None:
        "Refused where a field can't be a word"
        for field in (*NAMES, 4, 6):
            if " " in text[field]:
                raise Refused(f"field {field} is '{text[field]}': a word has no blanks, so a free deck can't have it")
        if deletes and not text[2]:
            raise Refused("what is to be deleted has the empty name, and a free deck has no word for it")


def turned(data: str, is_free: bool, say: Callable[[str], object]) -> str:
    "the file with its decks in the other form"
    lines = data.split("\n")
    cards = [line.rstrip(" \r") for line in lines]
    for number, card in enumerate(cards, 1):
        if len(card) > 80 or re.search(r"[^ -~]", card):
            raise Refused(f"card {number}: it has more than 80 bytes, or one that isn't printable")
    changed = list(cards)
    for deck in each_deck(cards, program_end(cards)):
        Turner(is_free, changed, say).turn(deck)
    return "\n".join(line if new == old else new + line[len(line.rstrip("\r")):] for line, old, new in zip(lines, cards, changed))


@command("free_deck.py")
def main(words: list[str] | None = None) -> int:
    "the command; its status"
    words = sys.argv[1:] if words is None else words
    guard()
    is_free = words[:1] != ["--fixed"]
    words = words if is_free else words[1:]
    if len(words) > 1 or any(re.match("-.", word) for word in words):
        print("usage: free_deck.py [--fixed] [FILE]", file=sys.stderr)
        return 64
    try:
        data = bytes_of(words[0] if words else None)
    except OSError as cause:
        print(f"free_deck.py: can't read {cause.filename}: {cause.strerror}", file=sys.stderr)
        return 66
    said: list[str] = []
    try:
        text = turned(data.decode("latin-1"), is_free, said.append)
    except Refused as cause:
        print(f"free_deck.py: {cause}", file=sys.stderr)
        return 65
    for line in said:
        print(f"free_deck.py: {line}", file=sys.stderr)
    sys.stdout.buffer.write(text.encode("latin-1"))
    return 0
