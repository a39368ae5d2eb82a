"""What is said of a model before it is solved: each case worked out by hand, none of a model without it, and what is said of the models of the
repository and of those that come with glpsol, where they are installed."""
import pathlib
import subprocess
import shutil

import pytest

import places
from mps360 import mps

GLPK_MODELS = pathlib.Path("/usr/share/doc/glpk-utils/examples")
GLPSOL = shutil.which("glpsol")


def warned(text, **words):
    model = mps.read_text(text, mps.Reading(numbers="exact", **words))
    assert all(sentence in model.said for sentence in model.warned)
    return model.warned


def file_of(objective="COST", more_rows="", columns=" X {0} 3\n X CAP 1\n", rest="", head=""):
    return f"NAME T\n{head}ROWS\n N {objective}\n L CAP\n{more_rows}COLUMNS\n{columns.format(objective)}RHS\n B CAP 4\n{rest}ENDATA\n"


def test_nothing_is_said_of_a_plain_model():
    assert warned(file_of()) == []


@pytest.mark.parametrize("name", ["PROFIT", "profit", "Revenue", "TOTPROF", "Total_Profit", "netMargin", "REVENUES", "z_profit_2026", "maximize", "CONTRIB", "GAIN"])
def test_an_objective_that_is_to_be_great(name):
    said = f"{name} is made as small as can be, since the file says no sense: --max makes it great"
    assert warned(file_of(name)) == [said]
    assert warned(file_of(name, head="OBJSENSE\n    MAX\n")) == warned(file_of(name, head="OBJSENSE\n    MIN\n")) == []
    assert warned(file_of(name), sense="MAX") == warned(file_of(name), sense="MIN") == []
    # costs below 0 alone: whoever wrote the file has turned it
    assert warned(file_of(name, columns=" X {0} -3\n X CAP 1\n")) == []
    assert warned(f"Minimize\n {name}: 3 x\nSubject To\n cap: x <= 4\nEnd\n") == []


@pytest.mark.parametrize("name", ["COST", "OBJ", "z", "TOTAL", "AGAINST", "PROFILE", "obj_1", "LOSS", "MAXLOAD", "max_cost"])
def test_objectives_that_say_nothing(name):
    assert warned(file_of(name)) == []


def test_sets_that_are_not_named():
    two = file_of(rest=" C CAP 5\nBOUNDS\n UP LOW X 2\n UP HIGH X 3\n")
    assert warned(two) == ["RHS has 2 sets; B is taken: --rhs names another", "BOUNDS has 2 sets; LOW is taken: --bounds names another"]
    assert warned(two, rhs_set="B", bound_set="HIGH") == []
    ranges = file_of(rest="RANGES\n R CAP 1\n Q CAP 2\n")
    assert warned(ranges) == ["RANGES has 2 sets; R is taken: --ranges names another"] and warned(ranges, range_set="Q") == []


def test_two_n_rows():
    two = file_of(more_rows=" N HOURS\n", columns=" X COST 3\n X HOURS 1\n X CAP 1\n")
    assert warned(two) == ["there are 2 N rows; the objective is COST: --objective names another"]
    assert warned(two, objective="HOURS") == [] and warned(two.replace("ROWS", "OBJNAME\n    COST\nROWS", 1)) == []


def test_rows_and_columns_without_entries():
    assert warned(file_of(more_rows=" G NEED\n")) == ["1 row has no entry (NEED): is a column missing?"]
    # (an entry that is 0 is none)
    assert warned(file_of(more_rows=" G NEED\n", columns=" X {0} 3 CAP 1\n X NEED 0\n Y {0} 0\n")) == [
        "1 row has no entry (NEED): is a column missing?", "1 column has no entry (Y): only bounds limit it"]
    assert warned(file_of(more_rows=" G NEED\n E SUM\n")) == ["2 rows have no entry (NEED, SUM): is a column missing?"]
    assert warned("min\nobj: x\nst\nc: x >= 1\nbounds\n y <= 4\nend\n") == ["1 column has no entry (y): only bounds limit it"]
    # a combination has its parts
    assert warned(file_of(more_rows=" DG BOTH CAP 2\n")) == []


def test_bounds_that_cross():
    assert warned(file_of(rest="BOUNDS\n LO B X 5\n UP B X 3\n")) == ["no plan keeps the bounds of X: X is at least 5 and at most 3"]
    assert warned(file_of(rest="BOUNDS\n LO B X 3\n UP B X 3\n")) == []


@pytest.mark.parametrize("small, great, apart", [("1", "999999999", False), ("1", "1E9", True), (".001", "1E6", True), (".001", "999999", False),
                                                 ("-3E-9", "4", True), ("1E-5", "5000", False), ("3", "3E9", True)])
def test_magnitudes(small, great, apart):
    sizes = [f"{float(word.strip('-')):.3g}" for word in (small, great)]
    said = warned(file_of(columns=f" X CAP {small}\n Y CAP {great}\n"))
    assert said == ([f"the entries of row CAP go from {sizes[0]} to {sizes[1]}: are the units meant so?"] if apart else [])
    said = warned(file_of(more_rows=" L SIZE\n", columns=f" X CAP {small}\n X SIZE {great}\n"))
    assert said == ([f"the entries of column X go from {sizes[0]} to {sizes[1]}: are the units meant so?"] if apart else [])


def test_several_rows_are_said_at_once():
    columns = "".join(f" {column} COST 1\n" + "".join(f" {column} {row} {value}\n" for row in ("CAP", "SIZE")) for column, value in (("X", "1"), ("Y", "1E10")))
    said = warned(file_of(more_rows=" L SIZE\n", columns=columns))
    assert said[0] == "the entries of row CAP (and of SIZE) go from 1 to 1e+10: are the units meant so?"


def test_no_false_alarm_on_the_examples():
    assert mps.read_file(places.EXAMPLES / "glass.mps", mps.Reading(numbers="exact")).warned == []


# what is true of models that come with glpsol, and is said: the remarks of murtagh.mps say that its problem is maximization, and food.mod maximizes,
# which glpsol leaves out of the MPS files that it writes
SAID_OF_GLPK = {"murtagh": ["PROFIT is made as small as can be"], "food": ["totalprofit is made as small as can be"], "food2": ["totalprofit is made as small as can be"],
                "dist": ["24 rows have no entry"], "egypt": ["71 rows have no entry"], "shiftcov": ["22 rows have no entry"],
                "train": ["there are 2 N rows"]}
QUICK = "assign bpp cf12a cf12b cflsq color cpp diet dist egypt fctp food food2 gap maxcut plan prod shiftcov spp stigler train transp trick xyacfs zebra"


def test_what_is_said_of_the_models_of_glpsol(tmp_path):
    if not GLPSOL or not GLPK_MODELS.exists():
        pytest.skip("glpsol or its models aren't installed")
    for name in QUICK.split():
        subprocess.run([GLPSOL, "-m", GLPK_MODELS / f"{name}.mod", "--check", "--wfreemps", f"{name}.mps"], capture_output=True, timeout=60, cwd=tmp_path)
    for path in [*sorted(tmp_path.glob("*.mps")), *sorted(GLPK_MODELS.glob("*.mps"))]:
        if path.stem != "plan" or path.parent == tmp_path:    # (that of the package has a blank name of a set beside a named one)
            said = mps.read_file(path, mps.Reading(numbers="exact", relax=True, marker_upper="none", negative_up="keep")).warned
            begun = SAID_OF_GLPK.get(path.stem, [])
            assert len(said) == len(begun) and all(sentence.startswith(begin) for sentence, begin in zip(said, begun)), (path.name, said)
