"mps2job.py, mps360/mps.py and the names and constants of listing2json.py: on files whose answers were worked out by hand, and on files that are refused."
import gzip
import os
import re
from fractions import Fraction

import places
import pytest
from calls import call
from mps360 import errors
from mps360 import mps
from mps360.jobs.write import job_of
from mps_house import House, verdict_of

SCRIPTS = places.SCRIPTS


def joined(*parts):
    return "\n".join(parts) + "\n"


def small(columns, rhs="", ranges="", bounds="", rows=" N COST\n G R1", before=""):
    "a file of these lines of each section"
    return "".join(["NAME SMALL\n", before, "ROWS\n", rows, "\n", "COLUMNS\n", columns, "\n", *(f"{section}\n{lines}\n" for section, lines in (
        ("RHS", rhs), ("RANGES", ranges), ("BOUNDS", bounds)) if lines), "ENDATA\n"])


MORE = " X COST 1 R1 1\n Y COST 2 R1 1"                 # at least R1's right-hand side is wanted, of X at 1 or of Y at 2
LESS = " X COST -1 R1 1"
L = " N COST\n L R1"
FIXED = "    {:<10}{:<10}{:>12}".format
LONG = "1234567890123456789012345678.5"
# two rows, and the limit of their sum
SUM = " N COST\n L R1\n L R2\n DL S R1 1 R2 1"
TWO = " X COST -1 R1 1\n Y COST -1 R2 1"
MARKED = " M1 'MARKER' 'INTORG'\n X COST -1 R1 2\n M2 'MARKER' 'INTEND'"   # at most 7 for two of X
# what is tried, the words of the call, the file; the verdict, the objective, the objective with its constant, worked out by hand
BY_HAND = [
    ("a constant on another N row", (), small(" X COST 2 R1 1", " B R1 4 OTHER -10", rows=" N COST\n N OTHER\n G R1"), ("optimal", "8", None)),
    ("the first RHS set has the constant alone", (), small(MORE, " A COST -3\n B R1 5"), ("optimal", "0", "3")),
    ("the second RHS set", ("--rhs", "B"), small(MORE, " A COST -3\n B R1 5"), ("optimal", "5", None)),
    ("the first BOUNDS set has no limit", (), small(LESS, " B R1 4", bounds=" UP A X 1e30\n UP B X 1", rows=L), ("optimal", "-4", None)),
    ("the second BOUNDS set", ("--bounds", "B"), small(LESS, " B R1 4", bounds=" UP A X 1e30\n UP B X 1", rows=L), ("optimal", "-1", None)),
    ("the first RANGES set has no limit", (), small(" X COST 1 R1 1", " B R1 4", " A R1 1e30\n B R1 1", rows=L), ("optimal", "0", None)),
    ("the second RANGES set", ("--ranges", "B"), small(" X COST 1 R1 1", " B R1 4", " A R1 1e30\n B R1 1", rows=L), ("optimal", "3", None)),
    ("a constant of 29 digits", (), small(MORE, f" B R1 4 COST -{LONG}"), ("optimal", "4", "2469135780246913578024691365/2")),
    ("a constant of 1e30", (), small(MORE, " B R1 4\n B COST -1e30"), ("optimal", "4", "1" + 29 * "0" + "4")),
    ("a constant that is its number", ("--constant", "plus"), small(MORE, " B R1 4 COST -10"), ("optimal", "4", "-6")),
    ("a constant that is the negative", (), small(MORE, " B R1 4 COST -10"), ("optimal", "4", "14")),
    ("a blank RHS set that is the same", ("--blank-set", "same"), small(MORE, " B COST 0\n R1 4"), ("optimal", "4", None)),
    ("a blank RHS set of its own", ("--blank-set", "own"), small(MORE, " B COST 0\n R1 4"), ("optimal", "0", None)),
    ("a blank RHS set before a named one", ("--blank-set", "same"), small(MORE, " COST 0\n B R1 4"), ("optimal", "4", None)),
    ("a blank BOUNDS set that is the same", ("--blank-set", "same"), small(MORE, " B R1 4", bounds=" LO B Y 1\n LO X 5"), ("optimal", "7", None)),
    ("a blank BOUNDS set of its own", ("--blank-set", "own"), small(MORE, " B R1 4", bounds=" LO B Y 1\n LO X 5"), ("optimal", "5", None)),
    ("a negative UP, no lower limit", ("--negative-up", "free"), small(MORE, " B R1 4", bounds=" UP B X -1"), ("optimal", "9", None)),
    ("a negative UP, lower limit 0", ("--negative-up", "keep"), small(MORE, " B R1 4", bounds=" UP B X -1"), ("infeasible", None, None)),
    ("a negative UP with a lower limit", (), small(MORE, " B R1 4", bounds=" UP B X -1\n LO B X -7"), ("optimal", "9", None)),
    ("a negative UI", ("--relax", "--negative-up", "free"), small(MORE, " B R1 4", bounds=" UI B X -1"), ("optimal", "9", None)),
    ("a range on E, at least 0", (), small(" X COST 1 R1 1", " B R1 4", " R R1 2", rows=" N COST\n E R1"), ("optimal", "4", None)),
    ("a range on E, below 0", (), small(" X COST 1 R1 1", " B R1 4", " R R1 -2", rows=" N COST\n E R1"), ("optimal", "2", None)),
    ("a range below 0 on L", (), small(" X COST 1 R1 1", " B R1 4", " R R1 -3", rows=L), ("optimal", "1", None)),
    ("a range on an N row", (), small(MORE, " B R1 4", " R COST 3"), ("optimal", "4", None)),
    ("MI leaves the upper limit", (), small(" X COST -1 R1 1\n Y COST 2 R1 1", " B R1 4", bounds=" MI B X", rows=L), ("optimal", "-4", None)),
    ("columns between markers up to 1", ("--relax", "--marker-upper", "1"), small(MARKED, " B R1 7", rows=L), ("optimal", "-1", None)),
    ("columns between markers without a limit", ("--relax", "--marker-upper", "none"), small(MARKED, " B R1 7", rows=L), ("optimal", "-7/2", None)),
    ("a column between markers with PL", ("--relax",), small(MARKED, " B R1 7", bounds=" PL B X", rows=L), ("optimal", "-7/2", None)),
    ("BV", ("--relax",), small(" X COST -1 R1 2", " B R1 1", bounds=" BV B X", rows=L), ("optimal", "-1/2", None)),
    ("LI", ("--relax",), small(" X COST 1 R1 2", " B R1 1", bounds=" LI B X 1"), ("optimal", "1", None)),
    ("OBJNAME", (), small(MORE, " B R1 4", rows=" N FIRST\n N COST\n G R1", before="OBJNAME\n    COST\n"), ("optimal", "4", None)),
    ("OBJNAME on one line", (), small(MORE, " B R1 4", rows=" N FIRST\n N COST\n G R1", before="OBJNAME COST\n"), ("optimal", "4", None)),
    ("no OBJNAME", (), small(MORE, " B R1 4", rows=" N FIRST\n N COST\n G R1"), ("optimal", "0", None)),
    ("--objective", ("--objective", "COST"), small(MORE, " B R1 4", rows=" N FIRST\n N COST\n G R1"), ("optimal", "4", None)),
    *((f"OBJSENSE as {form!r}", (), small(" X COST 1 R1 1", " B R1 4", rows=L, before=form), ("optimal", "4", None)) for form in (
        "OBJSENSE MAX\n", "OBJSENSE\n    MAX\n", "OBJSENSE\n MAXIMIZE\n", "OBJSENSE\n    Maximise\n", "OBJSENSEMAX\n", "OBJSENSE MAXIMUM\n")),
    ("OBJSENSE MIN and --max", ("--max",), small(" X COST 1 R1 1", " B R1 4", rows=L, before="OBJSENSE MIN\n"), ("optimal", "4", None)),
    ("a limit of 1e20", (), small(" X COST -1 R1 1\n Y COST -1", " B R1 4", bounds=" UP B Y 1e20", rows=L), ("unbounded", None, None)),
    ("a limit below --infinity", ("--infinity", "1e25"), small(LESS, " B R1 1e20", bounds=" UP B X 1e20", rows=L),
     ("optimal", "-1" + 20 * "0", None)),
    ("a column alone", (), small(" Z\n" + MORE, " B R1 4"), ("optimal", "4", None)),
    ("remarks", (), small(" X COST 1 $ R1 7\n X R1 1\n X $ more\n Y COST 2 R1 1 $", " R1 4 $ COST 2", bounds=" UP B X 3 $ Y",
                          rows=" N COST $ money\n G R1"), ("optimal", "5", None)),
    ("a number rounded up", ("--round",), small(" X COST 1 R1 1", " B R1 .123456789016"), ("optimal", "6172839451/50000000000", None)),
    ("a number rounded down", ("--round",), small(" X COST 1 R1 1", " B R1 .123456789014"), ("optimal", "12345678901/100000000000", None)),
    ("a combination", (), small(TWO, " B R1 3 R2 3\n B S 4", rows=SUM), ("optimal", "-4", None)),
    ("a combination on two lines", (), small(TWO, " B R1 3 R2 3\n B S 4", rows=" N COST\n L R1\n L R2\n DL S R1 1\n* a remark\n dl S R2 1 $ more"),
     ("optimal", "-4", None)),
    ("a range on a combination", (), small(TWO.replace("-1", "1"), " B R1 3 R2 3\n B S 4", " R S 3", rows=SUM), ("optimal", "1", None)),
    ("a combination of a combination", (), small(TWO, " B R1 3 R2 3\n B S 4\n B U -2", rows=SUM + "\n DG U S -.5 R1 -0"), ("optimal", "-4", None)),
    ("a combination as objective", (), small(" X R1 1 R2 -1\n Y R1 1", " B R1 3 S -7", rows=" G R1\n L R2\n DN S R1 2 R2 1"), ("optimal", "3", "10")),
    ("a combination without parts", (), small(MORE, " B R1 4", rows=" N COST\n G R1\n DE S"), ("optimal", "4", None)),
    ("a column alone behind a combination", (), small(" Z\n X R1 1", " B R1 4", rows=" DN COST\n G R1"), ("optimal", "0", None)),
    ("combinations of names with blanks", ("--fixed",), joined("NAME", "ROWS", " N  A COST", " G  THE ROW", f" DL {'THE SUM':<10}{'':<25}{'THE ROW':<10}2", "COLUMNS",
                                                            FIXED("A X", "A COST", "-2"), FIXED("", "THE ROW", "1"), "RHS", FIXED("B 1", "THE SUM", "8"), "ENDATA"),
     ("optimal", "-8", None)),
    ("names with blanks", ("--fixed",), joined("NAME", "ROWS", " N  A COST", " G  THE ROW", "COLUMNS", FIXED("A X", "A COST", "2"),
                                            FIXED("", "THE ROW", "1"), "RHS", FIXED("B 1", "THE ROW", "4"), "ENDATA"), ("optimal", "8", None)),
    ("a blank name repeats the column", (), joined("NAME", "ROWS", " N  COST", " G  R1", "COLUMNS", FIXED("X", "COST", "2"), FIXED("", "R1", "1"),
                                                "RHS", FIXED("", "R1", "4"), "ENDATA"), ("optimal", "8", None)),
]
F = joined("NAME", "ROWS", " N  COST", " G  R1", "COLUMNS")
# what is tried, the words of the call, the file; the line that is named, a part of what is said, the text over the carets
REFUSED = [
    ("an infinite constant", (), small(MORE, " B R1 4\n B COST Inf"), 10, "infinite", "Inf"),
    ("an RHS of 1e30 on a row", (), small(MORE, " B R1 1e30"), 9, "infinite", "1e30"),
    ("a blank RHS set after a named one", (), small(MORE, " B R1 4\n COST 1"), 10, "--blank-set", "COST"),
    ("a blank RHS set before a named one", (), small(MORE, " R1 4\n B COST 1"), 10, "--blank-set", "B"),
    ("a blank BOUNDS set after a named one", (), small(MORE, " B R1 4", bounds=" LO B X 1\n LO Y 1"), 12, "--blank-set", "Y"),
    ("a blank RANGES set after a named one", (), small(MORE, " B R1 4", " B R1 4\n COST 1"), 12, "--blank-set", "COST"),
    ("a negative UP", (), small(MORE, " B R1 4", bounds=" UP B X -1"), 11, "--negative-up", "X"),
    ("a second upper bound", (), small(MORE, " B R1 4", bounds=" UP B X 3\n UP B X 5"), 12, "line 11", "X"),
    ("a lower limit after MI", (), small(MORE, " B R1 4", bounds=" MI B X\n LO B X 1"), 12, "some programs take the first", "X"),
    ("UP after FX", (), small(MORE, " B R1 4", bounds=" FX B X 3\n UP B X 5"), 12, "line 11", "X"),
    ("a MARKER", (), small(MARKED, " B R1 7"), 6, "--relax", "'MARKER'"),
    ("markers without an upper limit", ("--relax",), small(MARKED, " B R1 7"), 7, "--marker-upper", "X"),
    ("markers with a lower limit", ("--relax", "--marker-upper", "1"), small(MARKED, " B R1 7", bounds=" LO B X 1"), 7, "PL or UP", "X"),
    ("BV", (), small(MORE, " B R1 4", bounds=" BV B X"), 11, "--relax", "BV"),
    ("SC", ("--relax",), small(MORE, " B R1 4", bounds=" SC B X 5"), 11, "gap", "SC"),
    ("a number of 39 digits", (), small(" X COST 0.123456789123456789123456789123456789123"), 6, "more than 38 digits", "0.123456789123456789123456789123456789123"),
    ("1e28", ("--round",), small(" X COST 1.5e28"), 6, "too large", "1.5e28"),
    ("an infinite entry", (), small(" X COST Inf"), 6, "infinite", "Inf"),
    ("an infinite lower bound", (), small(MORE, " B R1 4", bounds=" LO B X 1e30"), 11, "infinite", "1e30"),
    ("an infinite range on E", (), small(MORE, " B R1 4", " B R1 Inf", rows=" N COST\n E R1"), 11, "infinite", "Inf"),
    ("no number", (), small(" X COST 1,5"), 6, "isn't a number", "1,5"),
    ("Arabic digits", (), small(" X COST ١"), 6, "isn't a number", "١"),
    ("a number of a million digits", (), small(" X COST " + 10 ** 6 * "1"), 6, "isn't a number", None),
    ("an exponent past all", (), small(" X COST 1e5000"), 6, "exponent", "1e5000"),
    ("an unknown row", (), small(" X PROFIT 1"), 6, "PROFIT", "PROFIT"),
    ("an unknown column", (), small(MORE, " B R1 4", bounds=" UP B Z 1"), 11, "no column", "Z"),
    ("a second row", (), small(MORE, rows=" N COST\n G R1\n L R1"), 5, "second row", "R1"),
    ("an unknown type of row", (), small(MORE, rows=" N COST\n G R1\n D S R1 1"), 5, "DN, DL, DG or DE", "D"),
    ("an entry on a combination", (), small(" X COST 1 S 1", rows=SUM), 8, "no column has an entry on it", "S"),
    ("a later row as a part", (), small(MORE, rows=" N COST\n DL S R1 1\n G R1"), 4, "no row before it is named R1", "R1"),
    ("a combination as its own part", (), small(MORE, rows=" N COST\n G R1\n DL S S 1"), 5, "no row before it", "S"),
    ("a part twice", (), small(MORE, rows=" N COST\n G R1\n DL S R1 1\n DL S R1 2"), 6, "a second part on row R1", "R1"),
    ("a combination in two places", (), small(MORE, rows=" N COST\n G R1\n DL S R1 1\n L R2\n DL S R2 1"), 7, "second row", "S"),
    ("a combination of two types", (), small(MORE, rows=" N COST\n G R1\n DL S R1 1\n DG S COST 1"), 6, "second row", "S"),
    ("a part without a multiplier", (), small(MORE, rows=" N COST\n G R1\n DL S R1"), 5, "pairs of a row and a multiplier", "R1"),
    ("an infinite multiplier", (), small(MORE, rows=" N COST\n G R1\n DL S R1 Inf"), 5, "infinite", "Inf"),
    ("a multiplier of 39 digits", (), small(MORE, rows=" N COST\n G R1\n DL S R1 0.123456789123456789123456789123456789123"), 5, "more than 38 digits", "0.123456789123456789123456789123456789123"),
    ("a combination whose words and columns differ", (), joined(F[:-9], f" DL {'A COST 3':<10}{'COST':<10}5", "COLUMNS", "ENDATA"), 5, "--fixed", None),
    ("nothing but combinations", (), small(" Z", rows=" DN COST\n DG R1 COST 1"), None, "has no entry", None),
    ("a second entry", (), small(" X COST 1 COST 1"), 6, "second entry", "COST"),
    ("a second value", (), small(MORE, " B R1 4\n B R1 5"), 10, "second value", "R1"),
    ("a column in two places", (), small(" X COST 1\n Y COST 1\n X R1 1"), 8, "together", "X"),
    ("OBJSENSE of another word", (), small(MORE, before="OBJSENSE\n    BEST\n"), 3, "MAX or MIN", "BEST"),
    ("OBJSENSE without a word", (), small(MORE, before="OBJSENSE\n"), 3, "says nothing", "ROWS"),
    ("OBJNAME of a row with limits", (), small(MORE, before="OBJNAME\n    R1\n"), 3, "N row", "R1"),
    ("a quadratic section", (), small(MORE).replace("ENDATA", "QUADOBJ\n X X 1\nENDATA"), 8, "QUADOBJ", "QUADOBJ"),
    ("no ENDATA", (), small(MORE).replace("ENDATA\n", ""), 8, "before ENDATA", None),
    ("a name that begins as a remark", (), small(" X $R 1", rows=" N COST\n G $R"), 6, "begins a remark", "$R"),
    ("a blank name that isn't the column's", (), small(" X COST 1\n R1 1"), 7, "missing", "R1"),
    ("words and columns that differ", (), joined(F[:-1], FIXED("X", "COST", "1"), FIXED("A COST 3", "R1", "5"), "ENDATA"), 7, "--fixed", None),
    ("a name of nine letters in 8 columns", ("--fixed",), joined(F[:-1], "    NINECHARS COST                 1", "ENDATA"), 6, "columns 13 to 14", "S"),
    ("a number past its columns", ("--fixed",), joined(F[:-1], FIXED("X", "COST", "1") + "   R1        " + "0.1234567890123", "ENDATA"), 6, "61", "123"),
    ("a job", (), "         PROGRAM\n         PEND\n", 1, "scripts/mps360", "PROGRAM"),
    ("a tab among columns", ("--fixed",), joined(F[:-1], "    X\tCOST 1", "ENDATA"), 6, "tab", "\t"),
    ("a bound of another number of words", (), small(MORE, " B R1 4", bounds=" UP B X 4 5"), 11, "wants", "5"),
    ("no name of a column", (), small(" COST 1"), 6, "name", "COST"),
    ("an early data line", (), "NAME X\n N COST\n", 2, "no section", "N"),
    ("a second NAME", (), "NAME X\nNAME Y\n", 2, "second NAME", "NAME"),
    ("UTF-16", (), small(MORE).encode("utf-16"), None, "UTF-16", None),
    ("a BOM before another encoding", (), b"\xef\xbb\xbf" + small(" Zürich COST 1").encode("latin-1"), 6, "begins as UTF-8", None),
    ("a file cut short, gzipped", (), gzip.compress(small(MORE).encode())[:40], None, "gzipped", None),
    ("no N row", (), small(" X R1 1", rows=" G R1"), None, "no objective", None),
    ("1,001 rows", (), small(MORE, rows="\n".join([" N COST", *(f" G R{k}" for k in range(1, 1001))])), 1003, "1,000 rows", None),
    ("5,001 columns", (), small("\n".join(f" X{k} COST 1" for k in range(5001))), 5006, "5,000 columns", None),
]
# what is tried, the words, the file, and what is said of it
SAID = [
    ("an infinite bound", (), small(MORE, " B R1 4", bounds=" UP B X 1e20\n UP B Y 1e30"), "lines 11, 12: a bound of 1e+20 and more is no limit"),
    ("an infinite range", (), small(MORE, " B R1 4", " B R1 1e30"), "line 11: a range of 1e+20 and more is none"),
    ("a range on an N row", (), small(MORE, " B R1 4", " B COST 1"), "line 11: a range on an N row"),
    ("two sets", (), small(MORE, " A R1 4\n B R1 5"), "RHS has 2 sets; A is taken"),
    ("a constant", (), small(MORE, " A R1 4 COST 3"), "constant is -3, the negative of its number"),
    ("whole numbers", ("--relax",), small(MORE, " B R1 4", bounds=" BV B X"), "1 column should have whole numbers (X)"),
    ("rounding", ("--round",), small(" X COST 1 R1 1", " B R1 .123456789016\n B COST 1.23456789015"),
     "1 number was rounded to 12 columns; the greatest change is 4e-12, of .123456789016 in line 8"),
    ("a number that isn't read", (), small(MORE, " B R1 4", bounds=" FR B X 1"), "line 11: a number on FR is not read"),
    ("text behind", (), small(MORE) + "NAME\n", "line 9: what follows ENDATA"),
    ("PuLP's remark", (), "*SENSE:Maximize\n" + small(MORE), "line 1: a remark speaks of maximizing"),
    ("a negative UP", ("--negative-up", "free"), small(MORE, " B R1 4", bounds=" UP B X -1"), "line 11: a negative UP alone: the lower"),
    ("a column alone", (), small(" Z\n" + MORE), "1 column has no entry (Z)"),
    ("the N rows", (), small(MORE, rows=" N COST\n N MORE\n G R1"), "2 N rows; the objective is COST"),
    ("another name", (), small(MORE, rows=" N COST\n G R1\n L A_LONG_NAME"), "1 row has another name"),
    ("the problem's name", (), small(MORE).replace("SMALL", "A long name"), "name is PROBLEM"),
    ("a free deck of a job", (), small(MORE, " B R1 4").replace("NAME SMALL", "NAME          SMALL     FREE"), "the file is a free deck"),
    ("what old cards have past column 72", ("--fixed",), joined(F[:-1], f"{FIXED('X', 'COST', '1'):<72}00010", "ENDATA"),
     "line 6: what stands past column 61"),
    ("Latin-1", (), small(" Zürich COST 1").encode("latin-1"), "isn't UTF-8"),
]


def as_bytes(text):
    return text if isinstance(text, bytes) else text.encode()


# (by numbers: pytest puts a test's name into the environment, which holds no text of a million letters)
@pytest.mark.parametrize("number", range(len(BY_HAND)))
def test_answers_by_hand(tmp_path, number):
    what, words, text, wanted = BY_HAND[number]
    house = House(tmp_path)
    status, job, _, said = house.convert(text.encode(), words)
    assert status == 0, f"{what}: refused: {said}"
    assert verdict_of(house.solved(job)) == wanted, what


WITH_FIRST = small(MORE, " B R1 4", bounds=" UP B X 3").encode()


@pytest.mark.parametrize("form", (gzip.compress(WITH_FIRST), b"\xef\xbb\xbf" + WITH_FIRST, WITH_FIRST.replace(b"\n", b"\r\n"), WITH_FIRST.replace(b" ", b"\t")))
def test_gzipped_with_a_mark_with_returns_with_tabs(tmp_path, form):
    house = House(tmp_path)
    status, job, _, said = house.convert(form, ())
    assert status == 0 and verdict_of(house.solved(job)) == ("optimal", "5", None), said


@pytest.mark.parametrize("number", range(len(REFUSED)))
def test_what_is_refused(tmp_path, number):
    what, words, text, line, part, over = REFUSED[number]
    status, _, _, said = House(tmp_path).convert(as_bytes(text), words)
    lines = said.split("\n")
    assert status == 65 and part in said and (line is None or f": line {line}: " in lines[0]), f"{what}: {said}"
    if over is not None and over.isascii():
        carets = lines[2].rstrip() if len(lines) > 2 else ""
        shown = lines[1][carets.find("^"):len(carets)] if "^" in carets else None
        assert shown == over.replace("\t", " "), "what the carets are below"
    assert all(letter.isprintable() or letter == "\n" for letter in said), "a control character is said"


@pytest.mark.parametrize("number", range(len(SAID)))
def test_what_is_said(tmp_path, number):
    "on standard error, in the table of names and in the job"
    what, words, text, part = SAID[number]
    status, job, names, said = House(tmp_path).convert(as_bytes(text), words)
    assert status == 0 and part in said, f"{what}: {said}"
    assert any(part in sentence for sentence in names.get("said", [])), f"{what}: in the table of names: {names.get('said')}"
    remarks = " ".join(card.lstrip("* ") for card in job.split("\n") if card.startswith("*"))
    assert part[:40] in remarks, f"{what}: in the job: {remarks}"


def test_the_name_of_a_free_deck(tmp_path):
    _, job, _, _ = House(tmp_path).convert(small(MORE, " B R1 4").replace("NAME SMALL", "NAME          SMALL     FREE").encode(), ())
    assert "\nNAME          SMALL\n" in job


def test_the_table_of_rounded_numbers(tmp_path):
    _, _, names, _ = House(tmp_path).convert(small(" X COST 1 R1 1", " B R1 .123456789016", rows=" N COST\n G R1").encode(), ("--round",))
    assert names.get("rounded") == [{"line": 8, "from": ".123456789016", "to": ".12345678902"}]


def test_the_model(tmp_path):
    "what mps360/mps.py gives to other scripts: exact numbers of any length, the limits under the sets that are taken"
    text = small(" X COST 1 R1 0.33333333333333333333\n Y COST 2 E1 1", " B R1 4 COST 5\n B E1 2\n C R1 9", " R E1 -3 R1 7",
                 " LO B X 1\n MI B Y\n UP B Y 3", rows=" N COST\n G R1\n E E1", before="OBJSENSE MAX\n")
    model = mps.read_text(text, mps.Reading(numbers="exact"))
    assert model.columns["X"] == {"COST": 1, "R1": Fraction((10 ** 20 - 1) // 3, 10 ** 20)}, f"an exact entry: {model.columns}"
    limits = [model.row_limits(row) for row in model.rows] + [model.column_limits(column) for column in model.columns]
    assert limits == [(None, None), (4, 11), (-1, 2), (1, None), (None, 3)], f"limits: {limits}"
    taken = model.sense, model.objective, model.rhs_set, model.range_set, model.bound_set, model.constant
    assert taken == ("MAX", "COST", "B", "R", "B", -5), f"what is taken: {taken}"
    with pytest.raises(errors.Refused, match="12 columns"):
        job_of(model)
    sums = mps.read_text(small(" X COST 1 R1 0.5\n Y R2 1", rows=" N COST\n G R1\n L R2\n DL S R1 3 R2 .2\n DN U S 2 COST -3\n DN V S 0"))
    numbers = [sums.numbers_of(column) for column in sums.columns]
    assert (numbers == [{"COST": 1, "R1": Fraction(1, 2), "S": Fraction(3, 2), "U": 0, "V": 0},
                                          {"R2": 1, "S": Fraction(1, 5), "U": Fraction(2, 5), "V": 0}]), f"sums: {numbers}"
    path = tmp_path / "model.gz"
    path.write_bytes(gzip.compress(text.encode()))
    assert mps.read_file(path, mps.Reading(numbers="exact")) == model, "a model read from a gzipped file"


def test_names_that_arent_ascii(tmp_path):
    "they come back whole in JSON and CSV"
    house = House(tmp_path)
    cities = small(" Zürich Kosten 1 Straße 2\n 東京 Kosten 3 Straße 1", " Straße 8", rows=" N Kosten\n G Straße").encode()
    _, job, _, _ = house.convert(cities, ())
    solution = next(report for report in house.solved(job) if report["report"] == "solution")
    lines = {line["name"]: line["activity"] for line in solution["rows"] + solution["columns"]}
    assert lines == {"Kosten": "4", "Straße": "8", "Zürich": "4", "東京": "0"}, f"names that aren't ASCII: {lines}"
    listing, names = house.folder / "cities.listing", house.folder / "model.names"
    listing.write_text(house.listing(job))
    for locale in ("C.UTF-8", "C"):
        told = call(SCRIPTS / "listing2json.py", "--csv", "--names", names, listing, env={**os.environ, "LC_ALL": locale, "PYTHONIOENCODING": ""})
        assert ",Zürich,BS,4,".encode() in told.stdout and ",東京,LL,0,".encode() in told.stdout, f"CSV of such names: {told}"


@pytest.mark.parametrize("text", (
    *('{"objective": "COST", "constant": ' + constant + "}" for constant in ('{"value": "-Infinity"}', '{"value": "1/0"}', '{"value": []}', '"x"', '{"value": "nan"}')),
    "[]", '{"rows": []}', '{"rows": {}, "constants": {"COST": "1"}}'))
def test_what_is_no_table_of_names(tmp_path, text):
    names = tmp_path / "names"
    names.write_text(text)
    told = call(SCRIPTS / "listing2json.py", "--names", names, places.EXAMPLES / "first.listing")
    assert told.returncode == 65 and b"Traceback" not in told.stderr, told


def test_the_constant_of_another_right_hand_side(tmp_path):
    house, listing, names = House(tmp_path), tmp_path / "listing", tmp_path / "model.names"
    _, job, _, _ = house.convert(small(MORE, " B R1 4 COST -10\n C R1 5").encode(), ())
    moved = job.replace("         CONVERT", "         MOVE(XRHS,'C')\n         CONVERT")
    listing.write_text(house.listing(moved))
    told = call(SCRIPTS / "listing2json.py", "--names", names, listing)
    assert b"no constant is added" in told.stderr and b"with_constant" not in told.stdout, f"a constant of another right-hand side: {told}"
    for what, other in (("OBJECTIVE 4", "OBJECTIVE 4/0"), ("BS 4 -14", "BS NONE -14"), ("BS 4 -14", "BS 4 NONE")):
        assert what in house.listing(job), f"the listing has {what}"
        listing.write_text(house.listing(job).replace(what, other, 1))
        told = call(SCRIPTS / "listing2json.py", "--names", names, listing)
        assert told.returncode == 65 and b"Traceback" not in told.stderr, f"{other}: {told}"
    listing.write_text(house.listing(job).replace("OBJECTIVE 4", "OBJECTIVE 4" + 400 * "0"))
    told = call(SCRIPTS / "listing2json.py", "--decimal", listing)
    assert told.returncode == 0 and b'"objective_decimal": null' in told.stdout, "an objective past all decimals"


@pytest.mark.parametrize("words, status", (
    (("-o", "NONE"), 73), (("--names", "NONE"), 73), (("-o", "MODEL"), 64), (("-o", "JOB", "--names", "JOB"), 64), (("-o", "FOLDER"), 73),
    (("-o", "JOB", "--infinity", "x"), 64), (("-o", "JOB", "--rhs", "Z"), 65), (("--max", "--min"), 64), (("--free", "--fixed"), 64), (("--wrong",), 64),
    (("NONE",), 64)))
def test_places_and_wrong_use(tmp_path, words, status):
    paths = {"NONE": tmp_path / "none/file", "MODEL": tmp_path / "places.mps", "JOB": tmp_path / "places.job", "FOLDER": tmp_path}
    paths["MODEL"].write_text(small(MORE, " B R1 4"))
    told = call(SCRIPTS / "mps2job.py", *(paths.get(word, word) for word in words), paths["MODEL"])
    assert told.returncode == status and told.stderr.startswith(b"mps2job.py: "), told
    assert paths["MODEL"].read_text() == small(MORE, " B R1 4"), "the model stands as it was"


def test_standard_input(tmp_path):
    model = tmp_path / "model.mps"
    model.write_text(small(MORE, " B R1 4"))
    told = call(SCRIPTS / "mps2job.py", "-", input=gzip.compress(model.read_bytes()))
    assert told.returncode == 0 and told.stdout == call(SCRIPTS / "mps2job.py", model).stdout and told.stdout
