"Bases of other solvers: those that were kept, fresh ones of solvers that are installed, and files worked out by hand, with what is refused and where."
import collections
import shutil

import places  # pylint: disable=unused-import  (the packages are known from here on)
import pytest
from mps360 import bases as basis_file
from mps360 import errors
from mps360 import mps
from mps360.jobs.write import job_of
from solver_bases import FRESH, KEPT, KEPT_MODELS, SOLVERS, check_basis, check_fresh, model_of, parts_of

FILES = sorted(KEPT.glob("made-*.txt"))


def has_cut_names(solver, model):
    "lp_solve cuts names at 8 characters"
    return solver == "lp_solve" and any(len(name) > 8 for name in model.columns)


@pytest.mark.parametrize("path", FILES)
@pytest.mark.parametrize("solver", SOLVERS)
def test_a_kept_basis(path, solver):
    parts = parts_of(path)
    model = model_of(parts["model"])
    if has_cut_names(solver, model):
        # what may be several names is refused
        with pytest.raises(errors.Refused, match="cuts names") as refused:
            basis_file.read_text(parts["lp_solve basis"], model)
        assert refused.value.line == 2
    else:
        check_basis(path.name, solver, model, parts[f"{solver} basis"], parts.get(f"{solver} solution", ""), collections.Counter())


def test_what_is_kept():
    "ten models at least; each solver has rows of each kind at each of their limits, and columns at both"
    assert len(FILES) >= KEPT_MODELS
    tally = collections.Counter()
    for path in FILES:
        parts = parts_of(path)
        model = model_of(parts["model"])
        for solver in SOLVERS:
            if not has_cut_names(solver, model):
                check_basis(path.name, solver, model, parts[f"{solver} basis"], parts.get(f"{solver} solution", ""), tally)
    for solver in SOLVERS:
        for kind in ("Lr", "Gr", "E+", "E-"):
            assert tally[solver, kind, "LL"] and tally[solver, kind, "UL"], f"no kept basis of {solver} has a row {kind} at each limit"
        assert tally[solver, "L", "UL"] and tally[solver, "G", "LL"] and tally[solver, "E", "LL"], f"no kept basis of {solver} has a row L, G and E"
        assert tally[solver, "column", "LL"] and tally[solver, "column", "UL"], f"no kept basis of {solver} has columns at both limits"


@pytest.mark.parametrize("solver", SOLVERS)
@pytest.mark.parametrize("number", range(FRESH[1], FRESH[1] + FRESH[0]))
def test_a_fresh_basis(solver, number):
    if not shutil.which(solver):
        pytest.skip(f"{solver} isn't installed")
    check_fresh(solver, number)


# ---- files worked out by hand

HAND = """NAME HAND
ROWS
 N COST
 L TOP
 G LOW
 E EVEN
 L BAND
 N OTHER
COLUMNS
 A COST 1
 A TOP 1
 A BAND 1
 B COST 1
 B LOW 1
 B OTHER 1
 C COST 1
 C EVEN 1
 D COST 1
 D BAND 1
 F COST 1
 F TOP 1
RHS
 R TOP 5
 R LOW 2
 R BAND 9
RANGES
 S BAND 4
BOUNDS
 UP W A 3
 MI W C
 UP W C 7
 FR W D
 FX W F 2
ENDATA
"""
CARDS = "NAME {}\n{}\nENDATA\n"
# a basis, its writer, and the cards of its deck
DECKS = ((" XL A TOP", None, " XU A         TOP"), (" XU B LOW", None, " XL B         LOW"), (" XU C EVEN", None, " XL C         EVEN"),
         (" XU D BAND", "activity", " XU D         BAND"), (" XL D BAND", "clp", " XL D         BAND"), (" XL D BAND", "esolver", " XL D         BAND"),
         (" XL D BAND", "lp_solve", " XU D         BAND"), (" XU D BAND", "lp_solve", " XL D         BAND"), (" UL A", None, " UL A"),
         (" LL A", None, ""), (" UL C", None, ""), (" LL C", None, ""), (" UL B", None, ""), (" UL F", None, ""), ("* a remark\n\n XU\tB\tLOW\n", None, " XL B         LOW"),
         (" XL D TOP\n XL A LOW", None, " XU A         TOP\n XL D         LOW"))
# a basis that is refused, the line and a part of what is said
REFUSED = ((" XX A TOP", 2, "XX isn't XU, XL, UL or LL"), (" XL Z TOP", 2, "no column Z"), (" XL A NONE", 2, "no row NONE"), (" UL Z", 2, "no column Z"),
           (" XL A OTHER", 2, "row OTHER has no limit"), (" XL A", 2, "wants a column and a row"), (" UL", 2, "wants a column"),
           (" XL A TOP LOW", 2, "more than a column and a row"), (" XL A TOP\n XL A LOW", 3, "line 2 has named column A"),
           (" XL A TOP\n XL B TOP", 3, "line 2 has named row TOP"), (" UL A\n LL A", 3, "line 2 has named column A"), (" XL D BAND", 2, "say --from"),
           ("ROWS", 2, "ROWS has no place here"), ("NAME X", 2, "NAME has no place here"))


@pytest.mark.parametrize("cards, writer, expected", DECKS)
def test_decks_by_hand(cards, writer, expected):
    model = model_of(HAND)
    deck = basis_file.deck_of(basis_file.read_text(CARDS.format("HAND", cards), model, writer), job_of(model))
    assert deck == CARDS.format("         HAND", expected).replace("\n\n", "\n")


def refused(text, line, words, model):
    "a basis is refused at this line, with these words"
    with pytest.raises(errors.Refused) as cause:
        basis_file.read_text(text, model)
    assert cause.value.line == line and words in str(cause.value), cause.value


@pytest.mark.parametrize("cards, line, words", REFUSED)
def test_cards_that_are_refused(cards, line, words):
    refused(CARDS.format("HAND", cards), line, words, model_of(HAND))


@pytest.mark.parametrize("text, line, words", (
    ("", 1, "ends before ENDATA"), (" XL A TOP\nENDATA\n", 1, "before NAME"), ("NAME\n XL A TOP\n", 2, "ends before ENDATA"),
    ("c x\ns bas 3 4 f f 0\n", 2, "the model has 4 and 5"), ("c x\ns ipt 4 5 o 0\n", 2, "isn't the solution of a basis"),
    ("s bas 4 5 f f 0\ni 1 q 0 0\n", 2, "b, l, u, f or s"), ("s bas 4 5 f f 0\ni 1 b 0 0\ne o f\n", 3, "are missing"),
    ("s bas 4 5 f f 0\ni 5 b 0 0\n", 2, "b, l, u, f or s"), ("s bas 4 5 f f 0\ni 1 b 0 0\ni 1 b 0 0\n", 3, "an earlier line")))
def test_files_that_are_refused(text, line, words):
    refused(text, line, words, model_of(HAND))


def test_a_limit_that_isnt_there():
    said = basis_file.read_text(CARDS.format("HAND", " UL B"), model_of(HAND)).said
    assert said == ["line 2: column B has no upper limit; it stands at its lower one"]


def test_names_with_blanks():
    text = "NAME\nROWS\n N  COST\n L  A B\n L  B\nCOLUMNS\n    X         COST      1              A B       1\n    X A       B         1\nRHS\nENDATA\n"
    blanks = mps.read_text(text, mps.Reading(form="fixed"))
    assert basis_file.read_text("NAME\n XU X A       B\nENDATA\n", blanks).columns == {"X": "LL", "X A": "BS"}
    refused("NAME\n XU X A B\nENDATA\n", 2, "in two ways", blanks)
