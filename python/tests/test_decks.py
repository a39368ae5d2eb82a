"""The reading of decks (oracle/decks.py) on free decks and free revisions whose answers were worked out by hand, and free_deck.py: each job of
examples/ has the same listing and punched deck with its decks made free, and free and fixed again; what the other form can't say is refused
with its card. Where the proved program is fresh, it is tried on the same."""
import functools
import subprocess
import sys

import places
import pytest
from mps360 import programs
from mps360.cli import free_deck
from oracle import listing

SCRIPT = places.SCRIPTS / "free_deck.py"


def program_of(*verbs):
    return [f"         {verb}" for verb in ("PROGRAM", *verbs, "EXIT", "PEND")]


# the deck of a problem whose first card is card 8, and that of a revision, whose NAME card is card 22
DECK = [*program_of("CONVERT", "SETUP", "PRIMAL", "SOLUTION"),
        "NAME          ONE       FREE", "ROWS", " N COST", " G LOW", "COLUMNS", " X COST 1 LOW 1", "RHS", " LOW 1", "ENDATA"]
REVISED = [*program_of("CONVERT", "REVISE", "SETUP", "PRIMAL", "SOLUTION"),
           "NAME          ONE", "ROWS", " N  COST", " G  LOW", "COLUMNS", "    X         COST      1              LOW       1",
           "RHS", "              LOW       1", "RANGES", "    R         LOW       2", "BOUNDS", " UP BND       X         9", "ENDATA",
           "NAME          NEXT      FREE"]
SAME = "CONVERT ONE      ROWS 2 COLUMNS 1 ENTRIES 2"


def fault(number, card, more=""):
    return f"STOP 12 DECK FAULT {number} CARD {card}{more}"


def with_card(number, *cards, adds=False):
    "the deck with these cards in the place of one, or before it"
    return DECK[:number - 1] + list(cards) + DECK[number - (1 if adds else 0):]


def entry_cases():
    "a card of COLUMNS in the place of card 13"
    for card, told in ((" X COST", fault(25, 13)), (" X COST 1 LOW", fault(25, 13)), (" X COST 1 LOW 1 LOW", fault(25, 13)), (" X", fault(25, 13)),
                       (" LONGNAME9 COST 1", fault(26, 13)), (" X LONGNAME9 1", fault(26, 13)), (" X COST 1 LONGNAME9 1", fault(26, 13)),
                       (" X COST 1234567890123", fault(27, 13)), (" LONGNAME9 COST 1234567890123", fault(26, 13)),
                       (" X COST 1 LOW 1.2.3", fault(8, 13, " NUMBER 2 COLUMN 18")), (" X COST 1 LOW Q", fault(8, 13, " NUMBER 2 COLUMN 15")),
                       ("   X   COST   E1", fault(8, 13, " NUMBER 3")), (" X COST 1E19", fault(8, 13, " NUMBER 4")),
                       (" X COST 1 COST 1", fault(7, 13)), (" X NOROW 1", fault(6, 13)), (" M1 'MARKER' 'INTORG'", fault(14, 13)),
                       (" M1 'MARKER'", fault(25, 13)), ("X COST 1", fault(2, 13)), (" EIGHTLET COST 123456789012 LOW 1", SAME),
                       (" " * 60 + "X COST 1 LOW 1", SAME)):
        yield with_card(13, card), told


def row_cases():
    "a card of ROWS more, before card 12"
    three = "CONVERT ONE      ROWS 3 COLUMNS 1 ENTRIES 2"
    for card, told in ((" Q R X", fault(3, 12)), (" Q R", fault(3, 12)), (" L", fault(25, 12)), (" L A B 1", fault(25, 12)), (" G LOW", fault(4, 12)),
                       (" DN", fault(25, 12)), (" DN S COST", fault(25, 12)), (" DL S COST 1 LOW", fault(25, 12)), (" L LONGNAME9", fault(26, 12)),
                       (" Q LONGNAME9", fault(3, 12)), (" L A", three), (" DN S", three), (" DL S COST 1", three), (" DL S COST 1 LOW -2", three),
                       (" DL LONGNAME9 COST 1", fault(26, 12)), (" DL S LONGNAME9 1", fault(26, 12)), (" DL S COST 1234567890123", fault(27, 12)),
                       (" DL S COST 1 LOW 1.2.3", fault(8, 12, " NUMBER 2 COLUMN 21")), (" DL S S 1", fault(6, 12)), (" DL S NOROW 1", fault(6, 12)),
                       (" DL COST COST 1", fault(4, 12)), (" DL S COST 1 COST 2", fault(7, 12)), (" DE S 'MARKER' 1", fault(6, 12))):
        yield with_card(12, card, adds=True), told
    for cards, told in ((("DL S COST 1", "DL S LOW 1"), three), (("DL S", "DL S LOW 1"), three), (("DL S COST 1", "* a note", "DL S LOW 1"), three),
                        (("DL S COST 1", "DL S COST 1"), fault(7, 13)), (("DL S COST 1", "DG S LOW 1"), fault(4, 13)), (("DL S COST 1", "L S"), fault(4, 13)),
                        (("DL S COST 1", "L A", "DL S LOW 1"), fault(4, 14)), (("DL S COST 1", "DL S S 1"), fault(6, 13)), (("L A", "L A"), fault(4, 13))):
        yield with_card(12, *(card if card.startswith("*") else " " + card for card in cards), adds=True), told


def combination_cases():
    """a fixed deck with a combination S of the rows A and B: cards of ROWS in the place of card 13, S's, an entry in that of card 15, a right-hand
    side or a range behind"""
    head = [*program_of("CONVERT", "SETUP", "PRIMAL", "SOLUTION"), "NAME          T", "ROWS", " N  COST", " L  A", " L  B"]
    columns = ["COLUMNS", "    X         A         1"]

    def of(cards, more=()):
        return [*head, *cards, *columns, *more, "ENDATA"]

    def row(*fields):
        return " {:<2} {:<10}{:<10}{:<15}{:<10}{}".format(*fields, *[""] * (6 - len(fields))).rstrip()

    def sizes(rows):
        return f"CONVERT T        ROWS {rows} COLUMNS 1 ENTRIES 1"

    for cards, told in (
            ([row("DL", "S", "A", "1", "B", "1")], sizes(4)), ([row("DL", "S")], sizes(4)), ([row("DL", "S", "", "", "B", "1")], sizes(4)),
            ([row("DL", "S", "A", "1"), row("DL", "S", "B", "1")], sizes(4)), ([row("DL", "S"), row("DN", "Z", "S", "-1")], sizes(5)),
            ([row("DL", "S", "A", "1"), row("DL", "U", "A", "1")], sizes(5)), ([row("DX", "S", "A", "1")], fault(3, 13)), ([row("DL", "", "A", "1")], fault(15, 13)),
            ([row("DL", "S", "", "1")], fault(15, 13)), ([row("DL", "S", "A", "1", "", "1")], fault(15, 13)), ([row("DL", "S", "A")], fault(8, 13, " NUMBER 1")),
            ([row("DL", "S", "", "", "B", "1X")], fault(8, 13, " NUMBER 2 COLUMN 51")), ([row("DL", "S", "S", "1")], fault(6, 13)),
            ([row("DL", "S", "U", "1"), row("DL", "U", "A", "1")], fault(6, 13)), ([row("DL", "S", "A", "1", "A", "1")], fault(7, 13)),
            ([row("DL", "S", "A", "1"), row("DL", "S", "A", "2")], fault(7, 14)), ([row("DL", "S", "A", "1"), row("DG", "S", "B", "1")], fault(4, 14)),
            ([row("DL", "S", "A", "1"), row("L", "C"), row("DL", "S", "B", "1")], fault(4, 15)), ([row("DL", "A", "B", "1")], fault(4, 13)),
            ([row("L", "A")], fault(4, 13)), ([row("L", "S", "A", "1")], fault(20, 13)), ([row("DN", "S", "A", "1")[:13] + "X"], fault(20, 13))):
        yield of(cards), told
    whole = [row("DL", "S", "A", "1", "B", "1")]
    free = [row("DN", "S", "A", "1", "B", "1")]
    for rows, more, told in ((whole, (row("", "X", "S", "1"),), fault(28, 16)), (whole, (row("", "X", "B", "1", "S", "1"),), fault(28, 16)),
                             (whole, (row("", "X", "S", "X"),), fault(28, 16)), (whole, ("RHS", row("", "R", "S", "1")), sizes(4)),
                             (whole, ("RANGES", row("", "R", "S", "1")), sizes(4)), (free, ("RANGES", row("", "R", "S", "1")), fault(9, 17)),
                             (free, ("RHS", row("", "R", "S", "1")), sizes(4))):
        yield of(rows, more), told


def set_cases():
    "cards of other sections, before card 16"
    for section, card, told in (
            ("BOUNDS", " FR X", SAME), ("BOUNDS", " FR B X", SAME), ("BOUNDS", " UP X 1", SAME), ("BOUNDS", " UP B X 1", SAME),
            ("BOUNDS", " UP X", fault(25, 17)), ("BOUNDS", " MI B X 1", fault(25, 17)), ("BOUNDS", " FR B X 1", fault(25, 17)),
            ("BOUNDS", " BV", fault(10, 17)), ("BOUNDS", " BV B X 1", fault(10, 17)), ("BOUNDS", " FX B X 12345678901E1", fault(27, 17)),
            ("BOUNDS", " UP B Y 1", fault(11, 17)), ("BOUNDS", " UP LONGNAME9 X 1", fault(26, 17)),
            ("RANGES", " LOW 1", SAME), ("RANGES", " R LOW 1", SAME), ("RANGES", " COST 1 LOW 1", fault(9, 17)), ("RANGES", " R", fault(25, 17)),
            ("RANGES", " LOW 1 LOW 1", fault(7, 17)), ("RANGES", " R LOW 1 LOW 1 X", fault(25, 17))):
        yield with_card(16, section, card, adds=True), told


def name_cases():
    "a NAME card in the place of card 8: the deck is fixed where FREE stands elsewhere, or something else stands behind the name"
    for card in ("NAME          ONE      FREE", "NAME          ONE      XFREE", "NAME          ONE     X FREE", "NAME          ONE       FREE X",
                 f"{'NAME          ONE       FREE':<79}X", "NAME          ONE       FREED", "NAME ONE FREE", "NAME          ONE       free"):
        yield with_card(8, card), fault(20, 10)
    yield with_card(8, "NAME          A NAME  FREE"), fault(20, 10)
    yield with_card(8, "NAME          A NAME    FREE"), "CONVERT A NAME   ROWS 2 COLUMNS 1 ENTRIES 2"
    yield with_card(8, "NAME                    FREE"), "CONVERT          ROWS 2 COLUMNS 1 ENTRIES 2"
    yield with_card(9, " N COST"), fault(1, 9)


def revision_cases():
    "the cards from card 23 on"
    def of(rows=2, columns=1, entries=2):
        return f"REVISE  NEXT     ROWS {rows} COLUMNS {columns} ENTRIES {entries}"

    for cards, told in (
            (("ROWS", " MODIFY", " L LOW"), of()), (("ROWS", " MODIFY", " N LOW"), fault(9, 25)), (("ROWS", " MODIFY", " L NOROW"), fault(24, 25)),
            (("ROWS", " MODIFY", " Q NOROW"), fault(3, 25)), (("ROWS", " MODIFY", " DL LOW COST 1"), fault(3, 25)), (("ROWS", " MODIFY", " LOW"), fault(3, 25)),
            (("ROWS", " MODIFY", " DL NOROW"), fault(24, 25)), (("ROWS", " AFTER", " DN SUM COST 1 LOW 2"), of(3)),
            (("ROWS", " AFTER", " DN SUM COST 1", " DN SUM LOW 2"), of(3)), (("ROWS", " AFTER", " DN SUM COST 1", " AFTER", " DN SUM LOW 2"), fault(4, 27)),
            (("ROWS", " BEFORE LOW", " DN SUM COST 1"), of(3)), (("ROWS", " BEFORE LOW", " DN SUM LOW 1"), fault(6, 25)),
            (("ROWS", " BEFORE", " DN SUM COST 1"), fault(6, 25)), (("ROWS", " BEFORE LOW", " L CAP", " DN SUM CAP 1"), of(4)),
            (("ROWS", " BEFORE LOW", " DN SUM COST 1", " L CAP", " DN SUM CAP 1"), fault(4, 27)),
            (("ROWS", " AFTER", " DL SUM COST 1", " MODIFY", " DG SUM LOW 2"), of(3)), (("ROWS", " AFTER", " DL SUM COST 1", " MODIFY", " G SUM"), fault(3, 27)),
            (("ROWS", " AFTER", " DL SUM COST 1", "COLUMNS", " MODIFY", " X SUM 1"), fault(28, 28)),
            (("ROWS", " AFTER", " DL SUM COST 1", "COLUMNS", " DELETE", " X SUM"), fault(23, 28)),
            (("ROWS", " AFTER", " DL SUM COST 1", " MODIFY", " DL SUM COST -1 SUM 1"), fault(6, 27)),
            (("ROWS", " AFTER", " DL SUM COST 1", " MODIFY", " DL SUM COST 1 COST 2"), of(3)),
            (("ROWS", " MODIFY LONGNAME9", " L LOW"), of()), (("ROWS", " DELETE", " LOW"), of(1, 1, 1)), (("ROWS", " DELETE", " NOROW"), fault(23, 25)),
            (("ROWS", " DELETE", " G LOW"), fault(25, 25)), (("ROWS", " DELETE", " DN"), fault(23, 25)), (("ROWS", " DELETE", " LONGNAME9"), fault(26, 25)),
            (("ROWS", " BEFORE LOW", " L CAP"), of(3)), (("ROWS", "   AFTER", " L CAP"), of(3)), (("ROWS", " AFTER LOW", " G LOW"), fault(4, 25)),
            (("ROWS", " AFTER LONGNAME9", " L CAP"), fault(22, 24)), (("ROWS", " AFTER NOROW", " L CAP"), fault(22, 24)),
            (("ROWS", " BEFORE LOW CAP", " L CAP"), fault(21, 24)), (("ROWS", " Q R X Y"), fault(21, 24)), (("ROWS", " BEFOR LOW"), fault(21, 24)),
            (("COLUMNS", " MODIFY", " X COST 2"), of()), (("COLUMNS", " MODIFY", " Y COST 2"), fault(24, 25)), (("COLUMNS", " DELETE", " X"), of(2, 0, 0)),
            (("COLUMNS", " DELETE", " X LOW"), of(2, 1, 1)), (("COLUMNS", " DELETE", " X LOW 1"), fault(25, 25)), (("COLUMNS", " DELETE", " Y"), fault(23, 25)),
            (("COLUMNS", " AFTER", " Y COST 1", " Y LOW 2"), of(2, 2, 4)), (("COLUMNS", " BEFORE X", " X COST 1"), fault(5, 25)),
            (("RHS", " MODIFY", " LOW 3"), of()), (("RHS", " MODIFY", " B LOW 3 COST 1"), of()), (("RHS", " DELETE", " LOW"), fault(23, 25)),
            (("RHS", " BEFORE", " LOW 3"), fault(21, 24)), (("RANGES", " MODIFY", " R LOW 3"), of()), (("RANGES", " MODIFY", " COST 3"), fault(9, 25)),
            (("RANGES", " DELETE", " R"), of()), (("RANGES", " DELETE", " R LOW"), of()), (("RANGES", " DELETE", " R COST"), fault(23, 25)),
            (("RANGES", " DELETE", " R NOROW"), fault(6, 25)), (("BOUNDS", " MODIFY", " LO BND X 1"), of()), (("BOUNDS", " MODIFY", " FR X"), of()),
            (("BOUNDS", " MODIFY", " BV BND X"), fault(10, 25)), (("BOUNDS", " DELETE", " BND"), of()), (("BOUNDS", " DELETE", " BND X"), of()),
            (("BOUNDS", " DELETE", " X"), fault(23, 25)), (("BOUNDS", " DELETE", " BND Y"), fault(11, 25)), (("BOUNDS", " DELETE", " UP BND X"), fault(25, 25)),
            ((" MODIFY", " L LOW"), fault(1, 23)), ((" X COST 1",), fault(1, 23)), (("RHS", " MODIFY 3"), of()), (("RHS", " MODIFY", " MODIFY 3"), of())):
        yield [*REVISED, *cards, "ENDATA"], told


def listing_of(text):
    run = listing.Run(text)
    run.run()
    return ("\n".join(run.lines) + "\n").encode(), "".join(card + "\n" for card in run.punched).encode() or None


@functools.cache
def proved_program():
    return programs.proved_program()


@pytest.mark.parametrize("cases", (entry_cases, row_cases, combination_cases, set_cases, name_cases, revision_cases))
def test_decks_by_hand(cases):
    "each deck has the answer that was worked out, by the reading apart and, where it is there, by the proved program"
    count = 0
    for cards, told in cases():
        text = "\n".join(cards) + "\n"
        listings = {"oracle/decks.py": listing_of(text)[0]}
        if proved_program():
            listings["the program"] = programs.run_proved(proved_program(), text.encode())[1]
        for who, listing in listings.items():
            lines = listing.decode().splitlines()
            assert told in lines and (lines[-1] == told or not told.startswith("STOP")), f"{who}: {told} isn't in {lines} of\n{text}"
        count += 1
    assert count > 10


def turned(text, is_free, said):
    "the status, the text and what is said, as free_deck.py has them"
    try:
        return 0, free_deck.turned(text, is_free, said.append), said
    except free_deck.Refused as cause:
        return 65, "", [str(cause)]


@pytest.mark.parametrize("name", sorted(path.name for path in places.EXAMPLES.glob("*.job")))
def test_an_example_in_the_other_form(name):
    path = places.EXAMPLES / name
    punch = path.with_suffix(".punch")
    wanted = path.with_suffix(".listing").read_bytes(), punch.read_bytes() if punch.exists() else None
    said = []
    free = turned(path.read_text(), True, said)[1]
    fixed = turned(free, False, said)[1]
    assert "  FREE\n" in free and "  FREE\n" not in fixed and not said, said
    assert turned(free, True, said)[1] == free and turned(turned(fixed, True, said)[1], False, said)[1] == fixed, "turned twice"
    for form, text in (("free", free), ("fixed again", fixed)):
        assert listing_of(text) == wanted, f"{form}: its listing or punched deck is another"
        if proved_program():
            assert programs.run_proved(proved_program(), text.encode())[1:] == wanted, f"{form}: the program answers otherwise"
    if punch.exists():
        alone = turned(punch.read_text(), True, said)[1]
        assert not said and turned(alone, False, said)[1] == punch.read_text(), f"a deck alone: {said}"


HEAD = "NAME          T\nROWS\n N  COST\n L  A B\n L  LOW\nCOLUMNS\n    X         COST      1\n"
# a deck, the words of the call, the status, what is said
TURNED = (
    (HEAD.replace("A B", "AB") + "ENDATA\n", (), 0, ""),
    (HEAD + "ENDATA\n", (), 65, "card 4: field 2 is 'A B': a word has no blanks"),
    ("NAME          T         today\nROWS\n L  LOW\nCOLUMNS\nENDATA\n", (), 0, "card 1: what stands behind the name, which isn't read, is left out: today"),
    ("NAME          T\nROWS\nCOLUMNS\n    X         LOW       1" + " " * 40 + "note\nENDATA\n", (), 0, "card 4: what stands behind column 61"),
    ("NAME          T\nROWS\nCOLUMNS\nBOUNDS\n FR B         X         5\nENDATA\n", (), 0, "card 5: field 4, which isn't read, is left out: 5"),
    ("NAME          T\nROWS\n L   LOW\nCOLUMNS\nENDATA\n", (), 65, "card 3: field 2 is ' LOW'"),
    ("NAME          T\nROWS\nCOLUMNS\n    X         LOW\nENDATA\n", (), 65, "card 4: its fields are none that such a card can have"),
    ("NAME          T\nROWS\n DL LOW\nCOLUMNS\nENDATA\n", (), 0, ""),
    ("NAME          T\nROWS\n LX LOW\nCOLUMNS\nENDATA\n", (), 65, "card 3: its fields are none that such a card can have: as 'LX LOW' it would have deck fault 3"),
    ("NAME          T\nROWS\n L  A\n DL S         A\nCOLUMNS\nENDATA\n", (), 65, "card 4: its fields are none that such a card can have"),
    ("NAME          T\nROWS\n L  A\n DL S                                  A         1\nCOLUMNS\nENDATA\n", (), 65, "card 4: as 'DL S A 1' it would have"),
    ("NAME          T         FREE\nROWS\n LX LOW\nENDATA\n", ("--fixed",), 65, "card 3: deck fault 3: an unknown row type"),
    ("NAME          T         FREE\nROWS\n L A\n DL S A 1 B -2\nENDATA\n", ("--fixed",), 0, ""),
    ("NAME          T\nROWS\n LXXLOW\nCOLUMNS\nENDATA\n", (), 65, "card 3: LXXLOW is no action"),
    ("NAME          T\nRHS\n DELETE\n              LOW\nENDATA\n", (), 65, "card 4: what is to be deleted has the empty name"),
    ("NAME          T\nRHS\n MODIFY\n              AFTER     1\nENDATA\n", (), 65, "card 4: AFTER would begin an action card"),
    ("NAME          T\nROWS\n AFTER        A B\n L  C\nENDATA\n", (), 65, "card 3: the name 'A B' has blanks"),
    ("NAME          T         FREE\nROWS\n AFTER LONGNAME9\n L C\nENDATA\n", ("--fixed",), 65, "card 3: LONGNAME9 has more than 8 bytes"),
    ("NAME          T         FREE\nROWS\n L C D\nENDATA\n", ("--fixed",), 65, "card 3: deck fault 25: no card of this section has so many words"),
    ("NAME          T         FREE\nROWS\n L LONGNAME9\nENDATA\n", ("--fixed",), 65, "card 3: deck fault 26: "),
    ("NAME          T\n XU X         LOW\nENDATA\n", (), 0, ""),
    ("ROWS\n", (), 65, "the file is no job"), ("", (), 65, "the file is no job"), ("\tX\n", (), 65, "card 1: it has more than 80 bytes, or one that"),
    (f"NAME{' ' * 80}X\n", (), 65, "card 1: "), ("         PROGRAM\n         PEND\nROWS\n", (), 65, "card 3: a deck begins with NAME"),
)


@pytest.mark.parametrize("deck, words, status, said", TURNED)
def test_what_is_turned_and_what_is_refused(deck, words, status, said):
    told = turned(deck, not words, [])
    assert told[0] == status and said in "\n".join(told[2]) and bool(told[1]) == (status == 0), told


@pytest.mark.parametrize("words, status, end", (
    ((), 0, b"\r\n X COST 1\r\nENDATA  \r\n"), (("--fixed",), 0, b"1\r\nENDATA  \r\n"), (("--free",), 64, b""), (("a", "b"), 64, b""),
    (("/",), 66, b""), (("/none",), 66, b""), (("/dev/null",), 65, b"")))
def test_the_command(words, status, end):
    "line ends stay as they were; wrong use and what can't be read have their statuses"
    carried = (HEAD.replace("A B", "AB").replace("\n", "\r\n") + "ENDATA  \r\n").encode()
    told = subprocess.run([sys.executable, SCRIPT, *words], input=carried, capture_output=True, timeout=60, check=False)
    assert told.returncode == status and told.stdout.endswith(end) and bool(told.stdout) == bool(end), told
