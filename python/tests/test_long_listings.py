"""Listings with numbers that don't fit 127 bits: answers that came with them from outside, forms of numbers by the rules of mps360long, and which of the two
checkers is asked for what."""
import dataclasses
import json
import pathlib

import given_answers
import places
import programs_at_hand
import pytest
from calls import called
from mps360 import at_hand, checkers, text
from mps360.cli import attest, listing2html, listing2json, listing2vipr, solution2listing, vipr2listing
from oracle import attesting, vipr
from oracle.claims import OF_128_BITS, OF_ANY_LENGTH

GIVEN = places.DATA / "long_listings.jsonl"
GREATEST = 2 ** 127 - 1
MOST = 100_000
# one column: x is at least its limit, and costs 1; the job's listing for a limit, a price and an activity
JOB = """         PROGRAM
         CONVERT
         SETUP
         PRIMAL
         SOLUTION
         PEND
NAME          ONE
ROWS
 N  COST
 G  LOW
COLUMNS
    X         COST      1              LOW       3
RHS
    B         LOW       3
ENDATA
"""
LISTING = """CONVERT ONE      ROWS 2 COLUMNS 1 ENTRIES 2
SETUP   ONE      MIN
PRIMAL OPTIMAL STEPS 1 OBJECTIVE 1 CHECKED
SOLUTION OPTIMAL
SECTION 1 - ROWS
NUMBER ROW AT ACTIVITY SLACK LOWER UPPER DUAL
    1 COST     BS 1 -1 NONE NONE 0
    2 LOW      LL 3 0 3 NONE 1/3
SECTION 2 - COLUMNS
NUMBER COLUMN AT ACTIVITY COST LOWER UPPER REDUCED
    3 X        BS 1 1 0 NONE 0
END 0
"""
# the same with a second column, which costs nothing and counts for nothing: it may be anything from 0 on
FREE = JOB.replace("    X         COST      1              LOW       3\n", "    X         COST      1              LOW       3\n    Z         LOW       0\n")
FREE_LISTING = LISTING.replace("COLUMNS 1 ENTRIES 2", "COLUMNS 2 ENTRIES 3").replace("END 0", "    4 Z        BS {} 0 0 NONE 0\nEND 0")


def test_answers_that_came_with_listings():
    "by the rules of mps360long each is right; by those of mps360check none of these is attested"
    assert called(given_answers, GIVEN)[:2] == (0, "20 cases, 0 answers differ\n")
    assert all(attesting.attest(job, listing, OF_128_BITS)[0] in (40, 42) for job, listing, _ in given_answers.cases(GIVEN))


def test_a_program_is_compared_with_them(tmp_path):
    right, wrong = programs_at_hand.checker(tmp_path, "--long"), programs_at_hand.script(tmp_path, "none", "echo OPEN LINE 1; exit 41\n")
    assert called(given_answers, "--program", right, GIVEN)[0] == 0
    status, out, told = called(given_answers, "--program", wrong, GIVEN)
    assert (status, out) == (1, "20 cases, 20 answers differ\n") and told.count("by the program 'OPEN LINE 1', status 41") == 20


@pytest.mark.parametrize("words, status", (((), 64), (("--checker", "mps360", GIVEN), 64), (("--program",), 64), (("-x",), 64), (("none",), 65), ((places.DATA / "testprob-primal.job",), 65),
                                           (("--program", "/none", GIVEN), 65)))
def test_wrong_use_of_given_answers(words, status):
    assert called(given_answers, *words)[0] == status


@pytest.mark.parametrize("number, wanted", (
    ("5", "ATTESTED 4 REPORTS"), (str(GREATEST + 1), "ATTESTED 4 REPORTS"), (f"{GREATEST + 2}/{GREATEST + 1}", "ATTESTED 4 REPORTS"), ("9" * MOST, "ATTESTED 4 REPORTS"),
    (f"1/1{'0' * (MOST - 1)}", "ATTESTED 4 REPORTS"), ("9" * (MOST + 1), "UNCHECKED LINE 4"), (f"1/1{'0' * MOST}", "UNCHECKED LINE 4"), (f"-{'9' * (MOST + 1)}", "UNCHECKED LINE 4"),
    (f"2/{'4' * (MOST + 1)}", "UNCHECKED LINE 4"), (f"{'9' * (MOST + 1)}/0", "WRONG LINE 4"), (f"0{'9' * (MOST + 1)}", "WRONG LINE 4"), (f"+{'9' * 60}", "WRONG LINE 4"),
    (f"{'2' * 60}/{'4' * 60}", "WRONG LINE 4"), (f"{'3' * 60}/1", "WRONG LINE 4"), (f"0{'3' * 60}", "WRONG LINE 4"), ("-0", "WRONG LINE 4"), (f"{'3' * 60}/0", "WRONG LINE 4"),
    (f"-{'9' * 60}", "WRONG LINE 4"), (f"{'9' * 60} ", "WRONG LINE 4")))
def test_the_form_of_a_number(number, wanted):
    "z may be anything from 0 on: its number is read, or it isn't of its form, or it is too long"
    assert attesting.attest(FREE.encode(), FREE_LISTING.format(number).encode(), OF_ANY_LENGTH)[1] == wanted


def test_a_number_that_is_too_long_counts_only_where_all_else_is_of_its_form():
    listing = FREE_LISTING.format("9" * (MOST + 1))
    for changed, wanted in ((listing.replace("LL 3 0", "LL 4 0"), "UNCHECKED LINE 4"), (listing.replace("LL 3 0", "ZZ 3 0"), "WRONG LINE 4"),
                            (listing.replace("OBJECTIVE 1 ", f"OBJECTIVE {'9' * (MOST + 1)} "), "UNCHECKED LINE 3")):
        assert attesting.attest(FREE.encode(), changed.encode(), OF_ANY_LENGTH)[1] == wanted


# ---- which checker is asked

def tool(name, kind="proved"):
    return at_hand.Tool((f"/{name}",), kind, name=name)


SHORT, LONG = tool("mps360check"), tool("mps360long")
LONG_LISTING = FREE_LISTING.format(GREATEST + 1).encode()


@pytest.mark.parametrize("said, listing, wanted", (
    ((0, "ATTESTED 4 REPORTS\n"), LONG_LISTING, ["mps360check"]), ((42, "UNCHECKED LINE 4\n"), FREE_LISTING.format(1).encode(), ["mps360check", "mps360long"]),
    ((40, "WRONG LINE 4\n"), LONG_LISTING, ["mps360check", "mps360long"]), ((40, "WRONG LINE 4\n"), FREE_LISTING.format(GREATEST).encode(), ["mps360check"]),
    ((40, "WRONG LINE 13\n"), LONG_LISTING, ["mps360check"]), ((40, "WRONG LINE 99\n"), LONG_LISTING, ["mps360check"]), ((41, "OPEN LINE 4\n"), LONG_LISTING, ["mps360check"]),
    ((28, ""), LONG_LISTING, ["mps360check"])))
def test_which_checker_has_the_last_word(said, listing, wanted):
    asked = []

    def ask(one):
        asked.append(one.name)
        return checkers.Said(*said) if one is SHORT else checkers.Said(0, "ATTESTED 4 REPORTS\n")
    found = checkers.in_turn(at_hand.Checkers(lambda: SHORT, lambda: LONG), listing, ask)
    assert asked == wanted and found[0].name == wanted[-1]


def test_checkers_that_are_not_at_hand():
    "the answer of the one stands where the other isn't there"
    unchecked = checkers.Said(42, "UNCHECKED LINE 4\n")
    assert checkers.in_turn(at_hand.Checkers(lambda: SHORT), LONG_LISTING, lambda one: unchecked) == (SHORT, unchecked)
    assert checkers.in_turn(at_hand.Checkers(find_long=lambda: LONG), LONG_LISTING, lambda one: unchecked) == (LONG, unchecked)
    assert checkers.in_turn(at_hand.Checkers(), LONG_LISTING, lambda one: unchecked) is None


@pytest.mark.parametrize("listing, wanted", [(LONG_LISTING, LONG), (b"TITLE SHORT\n", SHORT)])
def test_the_checker_of_127_bits_is_not_compiled_for_a_long_number(listing, wanted):
    "which it can't read; a listing without one goes to it, compiled or not"
    to_compile = dataclasses.replace(SHORT, prepare=("compiles",))
    found = checkers.in_turn(at_hand.Checkers(lambda: to_compile, lambda: LONG), listing, lambda one: checkers.Said(0, "ATTESTED 4 REPORTS\n"))
    assert found is not None and found[0].name == wanted.name


def test_why_a_long_number_is_not_attested():
    wrong = checkers.Said(40, "WRONG LINE 4\n")
    assert "mps360long" in checkers.limit_met(SHORT, wrong, LONG_LISTING) and checkers.limit_met(LONG, wrong, LONG_LISTING) is None
    assert checkers.limit_met(tool("mps360check", "other"), wrong, LONG_LISTING) is None
    assert checkers.limit_met(LONG, checkers.Said(42, "UNCHECKED LINE 4\n"), LONG_LISTING).startswith("a number in it has more than 100,000 digits")


# ---- from the answer to the certificate

MODEL = """NAME LONG
ROWS
 N COST
 G LOW
 G ALSO
COLUMNS
 x COST 1.1 LOW 3.000000000000000000000000000001
 x ALSO .7
 y COST 1.3 LOW .000000000000000000000000000000000007
 y ALSO 3.00000000000000000000000000000007
RHS
 B LOW 1 ALSO 1.3
ENDATA
"""


def solution_of(model):
    "the plan at which both rows are at their limits, and its prices, by Cramer's rule"
    from fractions import Fraction as F
    a, b = F("3.000000000000000000000000000001"), F(".000000000000000000000000000000000007")
    c, d = F(".7"), F("3.00000000000000000000000000000007")
    determinant = a * d - b * c
    plan = {"x": (F(1) * d - b * F("1.3")) / determinant, "y": (a * F("1.3") - F(1) * c) / determinant}
    prices = {"LOW": (F("1.1") * d - F("1.3") * c) / determinant, "ALSO": (a * F("1.3") - b * F("1.1")) / determinant}
    assert min(*plan.values(), *prices.values()) > 0
    model.write_text(MODEL)
    return {"answer": "optimal", **{key: {name: str(value) for name, value in table.items()} for key, table in (("columns", plan), ("prices", prices))}}


@pytest.fixture
def files(tmp_path):
    "the model and its exact solution"
    solution = tmp_path / "model.json"
    solution.write_text(json.dumps(solution_of(tmp_path / "model.mps")))
    return tmp_path / "model.mps", solution


def test_an_answer_with_long_numbers_is_attested_by_the_checker_of_any_length(files, tmp_path, monkeypatch):
    found = {name: at_hand.Tool((programs_at_hand.checker(tmp_path, words),), "proved", name=name) for name, words in (("mps360check", ""), ("mps360long", "--long"))}
    monkeypatch.setattr(at_hand, "listing_checker", found.get)
    monkeypatch.setenv("MPS360_PROVED", "1")   # (nothing is compiled)
    status, out, told = called(attest, *files)
    assert status == 0 and out.startswith("attested by mps360long: OPTIMAL, objective ") and " digits)" in out, (out, told)
    del found["mps360long"]
    status, out, told = called(attest, *files)
    assert status == 40 and out.startswith("not attested: a number in it doesn't fit 127 bits, and the checker mps360long"), (out, told)
    files[1].write_text(files[1].read_text().replace('"x": "', '"x": "1'))
    found["mps360long"] = at_hand.Tool((programs_at_hand.checker(tmp_path, "--long"),), "unproved", name="mps360long")
    status, out, told = called(attest, *files)
    assert status == 40 and out.startswith("not attested: its numbers don't prove it: ") and "mps360long: running UNPROVED" in told, (out, told)


def test_long_numbers_go_through_every_form(files, tmp_path):
    "the listing, JSON, a page, and a certificate, which is checked"
    job, listing, names, certificate = (tmp_path / name for name in ("a.job", "a.listing", "a.names", "a.vipr"))
    assert called(solution2listing, "-o", job, "--listing", listing, "--names", names, *files)[0] == 0
    assert attesting.attest(job.read_bytes(), listing.read_bytes(), OF_ANY_LENGTH)[1] == "ATTESTED 5 REPORTS"
    status, out, told = called(listing2json, "--decimal", "--names", names, listing)
    assert status == 0 and json.loads(out)["result"]["verdict"] == "optimal", told
    status, out, told = called(listing2html, "--names", names, job, listing)
    assert status == 0 and " digits)" in out, told
    assert called(listing2vipr, "-o", certificate, job, listing)[0] == 0
    assert vipr.check(vipr.parse(certificate.read_text())).startswith("optimal")


def test_a_certificate_with_long_numbers_and_its_listing(tmp_path):
    "of the first listing that came with its answer: a certificate, and of that a job and a listing, which is attested"
    job, listing, names, certificate = (tmp_path / name for name in ("a.job", "a.listing", "a.names", "a.vipr"))
    given = next((one, text) for one, text, answer in given_answers.cases(GIVEN) if answer[0] == 0)
    for path, content in zip((job, listing), given):
        path.write_bytes(content)
    assert called(listing2vipr, "-o", certificate, job, listing)[0] == 0
    assert vipr.check(vipr.parse(certificate.read_text())).startswith("optimal")
    status, _, told = called(vipr2listing, "-o", job, "--listing", listing, "--names", names, certificate)
    assert status == 0, told
    assert attesting.attest(job.read_bytes(), listing.read_bytes(), OF_ANY_LENGTH)[0] == 0


def test_numbers_at_the_limit_are_read_and_written(tmp_path):
    "of 100,000 digits, past the limit that Python has"
    listing = tmp_path / "a.listing"
    listing.write_text(FREE_LISTING.format("9" * MOST))
    for command, words in ((listing2json, ("--decimal", listing)), (listing2vipr, (tmp_path / "a.job", listing))):
        pathlib.Path(tmp_path, "a.job").write_text(FREE)
        status, out, told = called(command, *words)
        assert status == 0 and "9" * MOST in out, told[:300]
    listing.write_text(FREE_LISTING.format("9" * (MOST + 1)))
    status, out, told = called(listing2json, listing)
    assert status == 65 and told.startswith(f"listing2json.py: {listing}: not a listing: not a table line: ") and len(told) < 200 + len(str(listing))


def test_a_long_number_in_a_sentence():
    from fractions import Fraction
    assert text.short_text(Fraction(-7, 3)) == "-7/3"
    assert text.short_text(Fraction(-(10 ** 40), 3)) == "-100000000000… (41 digits)/3"
