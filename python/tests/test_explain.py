"""What scripts/explain says of listings: rays, directions, parametric runs, faults with their cards, and mistakes that are easily made. What is
expected was worked out by hand."""
import re
import time

import places
import pytest
from book_models import TESTPROB
from calls import call
from mps360 import programs
from oracle import listing as expected_listing

EXPLAIN, EXAMPLES = places.SCRIPTS / "explain", places.EXAMPLES

# A job, a listing, and what scripts/explain says of them; a listing of another job is explained by itself.
EXPLAINED = (
    ("examples/pararhs", "examples/pararhs", (
        "Theta from 0 to 10: the objective is 90 + 3 theta, from 90 to 120.\nTheta from 10 to 15: the objective is 70 + 5 theta, from 120 to 145.\n"
        "  FARM     BS, now UL: it has left the basis, and stands at its upper limit\n  COOP     LL, now BS: it has entered the basis\n"
        "XPARMAX is reached, and XPARAM is left at 15:", "Theta from 15 to 18: the objective is 70 + 5 theta, from 145 to 160.\nPast theta = 18 no plan",
        "-1 x NEED     which is at least 30 + theta: at most -30 - theta\n", "1/2 x FARM     which is at most 40: at most 20\n",
        "together 0, and at most 18 - theta, which is less than 0 past 18:", "moves that end by its factor at most.")),
    ("examples/paraobj", "examples/paraobj", (
        "Theta from 0 to 2: the objective is 0.\nTheta from 2 to 15: the objective is -32 + 16 theta, from 0 to 208.\n  HOURS    BS, now UL:",
        "  MAKE     LL, now BS:", "Past theta = 15 the objective has no bound.", "  BUY      changes by 1 a unit of the way\n\n"
        "Each time the objective changes by -15 + theta, which is more than 0 past 15.")),
    ("examples/first", "examples/pararhs", ("1/2 x FARM     which is at most its upper limit\n",)),
    ("examples/first", "examples/paraobj", ("PROFIT   changes by -15 a unit of the way\n",)),
    ("python/tests/data/pararhs-point-interval", "python/tests/data/pararhs-point-interval", ("At theta = 0 alone: the objective is 1.\n",)),
    ("python/tests/data/paraobj-unbounded-opening", "python/tests/data/paraobj-unbounded-opening", (
        "At XPARAM, where PARAOBJ begins, there is no best plan, so there are no intervals.\nThe objective has no bound.",)),
    ("python/tests/data/dual-infeasible", "python/tests/data/dual-infeasible", (
        "-1 x LOW      which is at least 3: at most -3\n", "together 0, and at most -1: so these limits conflict")),
    ("python/tests/data/insert-dependency", "python/tests/data/insert-dependency", (
        "      -2 x P\n         1 x Q\n\nThat changes COST by -1, D by 1, and no row that the deck takes out of the basis.", "What to do: leave out the card of one of the columns")),
    ("python/tests/data/dual-wrong-prices", "python/tests/data/dual-wrong-prices", ("\nVariable 2 is X.\n", "PRIMAL in place of DUAL")),
    ("python/tests/data/combination-overflow", "python/tests/data/combination-overflow", (
        "S is a combination: in the column X it has the sum of its parts", "the product 999999999000000000000000000 x 999999999000000000000000000 doesn't fit (0 parts")),
    ("python/tests/data/combination-overflow-sum", "python/tests/data/combination-overflow-sum", (
        "and of 169999999830000000000000000000000000000, the sum of the first 1 parts that count, and the next, 1699",)),
    ("examples/faults/deck-28", "python/tests/data/combination-overflow", ("variable 3 is a combination",)),
    ("examples/replan", "examples/replan", ("SETUP, card 7: problem 'NEXTWEEK', MAX\n", "The plan of SOLUTION is best: 1200, after 1 steps")),
)
# A card of the basis deck of examples/replan.job and another in its place, the fault, and what explain says.
BASIS_MISTAKES = (
    (" XU TABLE     BOARDS", " XU TABELS    BOARDS", 11, ("Known columns: 'TABLE', 'CHAIR', 'SHELF'\nNear to 'TABELS': 'TABLE'",)),
    (" XU TABLE     BOARDS", " XU TABLE     BORDS", 6, ("Known rows: 'PROFIT', 'BOARDS', 'HOURS'\nNear to 'BORDS': 'BOARDS'",)),
    (" XU TABLE     BOARDS", " XX TABLE     BOARDS", 30, ("It means: ", "XU, XL, UL or LL")),
    (" XU TABLE     BOARDS", " UL TABLE     BOARDS", 32, ("It means: ",)),
    (" UL SHELF", " UL SHELF     HOURS", 20, ("Column 15 is to be blank, which belongs to field 3, and a UL card has no field 3; here it has 'H'.",)),
)


def test_a_ray_is_read_as_a_sum():
    told = call(EXPLAIN, EXAMPLES / "conflict.job", EXAMPLES / "conflict.listing").stdout.decode()
    assert "together 0, and at most -10" in told


def test_the_rows_that_are_known(tmp_path):
    listing = tmp_path / "deck-06.listing"
    listing.write_text("STOP 12 DECK FAULT 6 CARD 12\n")
    told = call(EXPLAIN, EXAMPLES / "faults/deck-06.job", listing).stdout.decode()
    assert "Known rows: 'COST'" in told and "PROFIT    1" in told


@pytest.mark.parametrize("job, name, wanted", EXPLAINED)
def test_what_is_explained(job, name, wanted):
    told = call(EXPLAIN, programs.TOP / f"{job}.job", programs.TOP / f"{name}.listing").stdout.decode()
    for text in wanted:
        assert text in told, f"no {text!r} in {told}"


@pytest.mark.parametrize("card, other, fault, wanted", BASIS_MISTAKES)
def test_mistakes_in_a_basis_deck(tmp_path, card, other, fault, wanted):
    replan, begun = (EXAMPLES / "replan.job").read_text(), "".join((EXAMPLES / "replan.listing").read_text().splitlines(True)[:3])
    job, listing = tmp_path / "basis.job", tmp_path / "basis.listing"
    job.write_text(replan.replace(card + "\n", other + "\n"))
    listing.write_text(f"{begun}STOP 12 DECK FAULT {fault} CARD {replan.splitlines().index(card) + 1}\n")
    told = call(EXPLAIN, job, listing).stdout.decode()
    for text in wanted:
        assert text in told, f"no {text!r} in {told}"


@pytest.mark.parametrize("old", ("TO 10", "BS 90", "1/2\nEND"))
@pytest.mark.parametrize("word", ("NONE", "1/0"))
def test_a_number_that_is_none(tmp_path, old, word):
    broken = tmp_path / "broken.listing"
    broken.write_text((EXAMPLES / "pararhs.listing").read_text().replace(old, re.sub(r"\d+(/\d+)?", word, old), 1))
    assert call(EXPLAIN, EXAMPLES / "pararhs.job", broken).returncode == 65


def test_no_plan_at_the_beginning_of_a_parametric_run(tmp_path):
    "at 20 the dairy needs 50, and has 28 trips and half of 40 churns: 48"
    late, listing = tmp_path / "late.job", tmp_path / "late.listing"
    late.write_text((EXAMPLES / "pararhs.job").read_text().replace("MOVE(XPARMAX,15)", "MOVE(XPARAM,20)\n         MOVE(XPARMAX,25)"))
    listing.write_bytes(call(places.ORACLE, "listing", late).stdout)
    told = call(EXPLAIN, late, listing).stdout.decode()
    for text in ("At XPARAM, where PARARHS begins", "which is at least 50: at most -50\n", "together 0, and at most -2: so"):
        assert text in told, f"no {text!r} in {told}"


# A job made of the joiner's week, the line on which its listing stops by the rules of cards, what explain says, what it doesn't.
MISTAKES = (
    ("an option of SETUP with an S", ("'BOUND'", "'BOUNDS'"), "STOP 8 CONTROL FAULT 7 CARD 6",
     ("'BOUNDS' is no option of SETUP; near to it: 'BOUND'.", "SETUP is written SETUP('MIN' or 'MAX'"), ("quotes are missing", "has no quotes")),
    ("a name without quotes", ("SETUP('MAX'", "MOVE(XOBJ,PROFIT) SETUP('MAX'"), "STOP 8 CONTROL FAULT 7 CARD 6", ("PROFIT has no quotes",), ("no option",)),
    ("a number two columns off", ("PROFIT    45 ", "PROFIT  45   "), "STOP 12 DECK FAULT 20 CARD 17",
     ("    " + " " * 22 + "^\n     11 |  2   |  |  3   |  |    4     |   |  5   |  |    6     |", "Column 23 is to be blank",
      "45, which stands in columns 23 to 24, into field 4, columns 25 to 36"), ("8 characters",)),
    ("a long name", ("    TABLE     PROFIT ", "    TABLETOPS PROFIT "), "STOP 12 DECK FAULT 20 CARD 17",
     ("Column 13 is to be blank", "TABLETOPS runs over its field, and a name has 8"), ()),
    ("no PEND", ("         PEND\n", ""), "STOP 8 CONTROL FAULT 3 CARD 10", ("A card NAME begins a deck: PEND is missing",), ()),
    ("a byte order mark", ("* A week", "\xef\xbb\xbf* A week"), "STOP 13 CARD FAULT 4 CARD 1", ("byte order mark (BOM) of UTF-8", "    ???* A week"), ("\xef",)),
)
# the same of the two plants
COMBINATION_MISTAKES = (
    ("a later row as a part", (" DL HOURS     NORTH     1              SOUTH     1", " DL HOURS     NORTH     1              SHARE     1"),
     "STOP 12 DECK FAULT 6 CARD 17", ("Known earlier rows: 'PROFIT', 'NORTH', 'SOUTH'\n",), ("Near to 'NORTH'",)),
    ("a part that is misspelt", (" DG SHARE     NORTH     1 ", " DG SHARE     NORHT     1 "), "STOP 12 DECK FAULT 6 CARD 18",
     ("Known earlier rows: 'PROFIT', 'NORTH', 'SOUTH', 'HOURS'\nNear to 'NORHT': 'NORTH'\n",), ()),
    ("parts on a plain row", (" DL HOURS", " L  HOURS"), "STOP 12 DECK FAULT 20 CARD 17",
     ("Column 15 is to be blank, which belongs to field 3, and a plain row has no field 3",), ()),
    ("a multiplier two columns off", ("NORTH     1              SOUTH", "NORTH   1                SOUTH"), "STOP 12 DECK FAULT 20 CARD 17",
     ("Column 23 is to be blank", "move the number 1, which stands in columns 23 to 23, into field 4, columns 25 to 36"), ()),
    ("an entry on a combination", ("    CHAIRN    PROFIT    20             NORTH     2", "    CHAIRN    PROFIT    20             HOURS     2"),
     "STOP 12 DECK FAULT 28 CARD 20", ("It means: an entry of a column on a combination",), ()),
    ("a combination in words", ("NAME          CHAIRS\nROWS\n N  PROFIT\n L  NORTH\n L  SOUTH\n DL HOURS     NORTH     1              SOUTH     1",
                                "NAME          CHAIRS    FREE\nROWS\n N  PROFIT\n L  NORTH\n L  SOUTH\n DL HOURS     NORTH"), "STOP 12 DECK FAULT 25 CARD 17",
     ("The card has 3 words, and a card of ROWS with DL has 2 (type, name) or 4 (type, name, row, multiplier) or 6 (type, name, row, multiplier, row, multiplier).",),
     ()),
)
# the same of the store's free deck
FREE_MISTAKES = (
    ("an unknown row of a free deck", (" FLOUR  MONEY 3", " FLOUR  MONY 3"), "STOP 12 DECK FAULT 6 CARD 21",
     ("     FLOUR  MONY 3\n     2      3    4  (fields)\n", "It is read as column 'FLOUR', row 'MONY', entry '3'.", "Near to 'MONY': 'MONEY'"), ("(fields 1 to 6)",)),
    ("a remark on a free card", (" FLOUR  MONEY 3", " FLOUR  MONEY 3 a remark"), "STOP 12 DECK FAULT 6 CARD 21", ("row 'a', entry 'remark'",), ()),
    ("a missing word", (" FLOUR  MONEY 3", " FLOUR  MONEY"), "STOP 12 DECK FAULT 25 CARD 21",
     ("The card has 2 words, and a card of COLUMNS has 3 (column, row, entry) or 5 (column, row, entry, row, entry).",), ("It is read as",)),
    ("a long name of a free deck", (" FLOUR  MONEY 3", " FLOURSACKS MONEY 3"), "STOP 12 DECK FAULT 26 CARD 21",
     ("FLOURSACKS MONEY 3\n     ^\n", "FLOURSACKS has 10 characters, and a name has 8 at most."), ()),
    ("a long number of a free deck", (" FLOUR  MONEY 3", " FLOUR  MONEY 3.00000000000"), "STOP 12 DECK FAULT 27 CARD 21",
     ("\n                  ^\n", "3.00000000000 has 13 characters, and a number has 12 at most: 3 is the same number."), ()),
    ("FREE in other columns", ("STORE     FREE", "STORE FREE"), "STOP 12 DECK FAULT 20 CARD 16",
     ("(fields 1 to 6)", "The deck is fixed: FREE counts in columns 25 to 28 of the NAME card", "and it stands in 21 to 24."), ("It is read as",)),
    ("FREE with a remark", ("STORE     FREE", "STORE     FREE  again"), "STOP 12 DECK FAULT 20 CARD 16", ("and something else stands behind the name.",), ()),
)
# the same of a free revision of the joiner's week
REVISE_MISTAKES = (
    ("a column that isn't there", (" WEEK SHELF\n", " WEEK SHELVES\n"), "STOP 12 DECK FAULT 11 CARD 44",
     ("It is read as set 'WEEK', column 'SHELVES'.", "Known columns: 'TABLE', 'CHAIR', 'SHELF', 'STOOL'\n", "Near to 'SHELVES': 'SHELF'"), ()),
    ("an action at nothing", (" AFTER CHAIR\n", " AFTER CHAIRS\n"), "STOP 12 DECK FAULT 22 CARD 36", ("It is read as action 'AFTER', name 'CHAIRS'.",), ()),
    ("too many words under DELETE", (" WEEK SHELF\n", " UP WEEK SHELF\n"), "STOP 12 DECK FAULT 25 CARD 44",
     ("The card has 3 words, and a card of BOUNDS under DELETE has 1 (set) or 2 (set, column).",), ()),
    ("a part behind the place of its combination", ("  FREE\nCOLUMNS\n MODIFY", "  FREE\nROWS\n BEFORE HOURS\n DL SUM HOURS 1\nCOLUMNS\n MODIFY"),
     "STOP 12 DECK FAULT 6 CARD 35", ("It is read as type 'DL', name 'SUM', row 'HOURS', multiplier '1'.", "Known earlier rows: 'PROFIT', 'BOARDS'\n"), ()),
)
# what a SETUP took, and what was perhaps forgotten: a job, its rows, what explain says; each best plan is worth 0
FORGOTTEN = """         PROGRAM
         CONVERT
         SETUP
         PRIMAL
         EXIT
         PEND
NAME          SHOP
ROWS
 N  COUNT
 N  PROFIT
 L  BOARDS
COLUMNS
    TABLE     PROFIT    45             BOARDS    8
    CHAIR     PROFIT    20             BOARDS    3
RHS
    FIRST     COUNT     7
    SECOND    BOARDS    240
RANGES
    SPAN      BOARDS    10
BOUNDS
 UP WEEK      TABLE     4
 UP MONTH     TABLE     16
ENDATA
"""
TAKEN = (
    (FORGOTTEN, 3, ("SETUP, card 3: problem 'SHOP', MIN, since SETUP names neither MIN nor MAX",
                    "objective: 'COUNT', the first of 2 (the others: 'PROFIT'); MOVE(XOBJ,'PROFIT') before SETUP takes another",
                    "LOOK: the objective 'COUNT' has no entry", "right-hand side: 'FIRST', the first of 2 (the others: 'SECOND')",
                    "LOOK: the number 7 on the objective in RHS is used in SLACK alone",
                    "LOOK: the deck's sets 'WEEK', 'MONTH' of bounds don't count; SETUP('BOUND','WEEK') takes the first",
                    "LOOK: the deck's set 'SPAN' of ranges doesn't count; SETUP('RANGE','SPAN') takes it")),
    (FORGOTTEN.replace(" N  COUNT\n", "").replace("    FIRST     COUNT     7\n", ""), 2,
     ("objective: 'PROFIT', the only one", "right-hand side: 'SECOND', the only one",
      "LOOK: every cost is 0 or more and no limit forces anything, so under MIN doing nothing is best; is MAX meant?")),
    (FORGOTTEN.replace("SETUP\n", "SETUP('MAX','BOUND','MONTH')\n").replace("CONVERT\n", "CONVERT\n         MOVE(XOBJ,'PROFIT')\n"), 3,
     ("SETUP, card 4: problem 'SHOP', MAX\n", "objective: 'PROFIT', as XOBJ says\n", "bounds: the set 'MONTH'; of no account: 'WEEK'")),
)


def mistakes():
    "the job that each mistake is made in, beside it"
    free = call(places.SCRIPTS / "free_deck.py", EXAMPLES / "revise.job").stdout.decode()
    for base, cases in (((EXAMPLES / "first.job").read_text(), MISTAKES), ((EXAMPLES / "free.job").read_text(), FREE_MISTAKES),
                        ((EXAMPLES / "combination.job").read_text(), COMBINATION_MISTAKES), (free, REVISE_MISTAKES)):
        for what, change, stop, wanted, unwanted in cases:
            yield base, what, change, stop, wanted, unwanted


@pytest.mark.parametrize("base, what, change, stop, wanted, unwanted", list(mistakes()))
def test_mistakes_that_are_easily_made(tmp_path, base, what, change, stop, wanted, unwanted):
    job, listing = tmp_path / "mistake.job", tmp_path / "mistake.listing"
    job.write_text(base.replace(*change, 1), encoding="latin-1")
    listing.write_text(stop + "\n")
    told = call(EXPLAIN, job, listing).stdout.decode()
    for text in wanted:
        assert text in told, f"{what}: no {text!r} in {told}"
    assert not any(text in told for text in unwanted), f"{what}: {told}"


def test_an_mps_file_that_was_run_as_a_job(tmp_path):
    job, listing = tmp_path / "mistake.job", tmp_path / "mistake.listing"
    job.write_text(TESTPROB)
    listing.write_text("STOP 8 CONTROL FAULT 1 CARD 1\n")
    assert b"mps2job.py makes a job of it" in call(EXPLAIN, job, listing).stdout


@pytest.mark.parametrize("text, rows, wanted", TAKEN)
def test_what_a_setup_took(tmp_path, text, rows, wanted):
    job, listing = tmp_path / "taken.job", tmp_path / "taken.listing"
    job.write_text(text)
    sense = "MAX" if "'MAX'" in text else "MIN"
    listing.write_text(f"CONVERT SHOP     ROWS {rows} COLUMNS 2 ENTRIES 4\nSETUP   SHOP     {sense}\nPRIMAL OPTIMAL STEPS 0 OBJECTIVE 0 CHECKED\nEND 0\n")
    told = call(EXPLAIN, job, listing).stdout.decode()
    for line in wanted:
        assert line in told, f"no {line!r} in {told}"


def test_nothing_is_solved(tmp_path):
    "the least-cost plan of 40 by 40 takes Python minutes"
    job, listing = tmp_path / "large.job", tmp_path / "large.listing"
    job.write_bytes(expected_listing.made_job(40).encode())
    listing.write_text("CONVERT TRANSP   ROWS 81 COLUMNS 1600 ENTRIES 4800\nSETUP   TRANSP   MIN\nPRIMAL OPTIMAL STEPS 9 OBJECTIVE 400 CHECKED\nEND 0\n")
    begun = time.process_time()
    told = call(EXPLAIN, job, listing, timeout=60).stdout.decode()
    assert "The plan of SOLUTION is best: 400" in told and time.process_time() - begun < 20
    listing.write_text(listing.read_text().replace("1600", "1601"))
    told = call(EXPLAIN, job, listing).stdout.decode()
    assert "The listing isn't of this job (where the job has CONVERT on card 4" in told


def test_pipes():
    job, listing = (EXAMPLES / f"first.{ending}" for ending in ("job", "listing"))
    wanted = call(EXPLAIN, job, listing).stdout
    assert call(EXPLAIN, "-", listing, input=job.read_bytes()).stdout == wanted, "the job from standard input"
    assert call(EXPLAIN, job, "-", input=listing.read_bytes()).stdout == wanted, "the listing from standard input"
    assert call(EXPLAIN, "-", "-").returncode == 64
    assert call("bash", "-c", f"exec {EXPLAIN} <(cat {job}) <(cat {listing})").stdout == wanted, "pipes"


def test_escapes_of_a_terminal(tmp_path):
    bad = tmp_path / "escapes.listing"
    bad.write_bytes((EXAMPLES / "endless.listing").read_bytes().replace(b"PROFIT  ", b"\x1b[2J\x9bX\x07 "))
    told = call(EXPLAIN, EXAMPLES / "first.job", bad).stdout
    assert b"\\x1b[2J\\x9bX" in told and not re.search(rb"[\x00-\x09\x0b-\x1f\x7f]|\xc2[\x80-\x9f]", told), told
