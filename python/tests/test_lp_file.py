"""CPLEX LP files: what is read of hand-written ones, worked out by hand; the same as glpsol reads, of these and of files that glpsol writes; what is
refused, with its line and word; and that no small change of a file ends otherwise than in a model or a refusal. Where glpsol isn't installed, what it
says is left out."""
import gzip
import pathlib
import random
import shutil
import subprocess
import tracemalloc
from fractions import Fraction

import pytest

import places
from mps360 import mps
from mps360.errors import Refused

GLPSOL = shutil.which("glpsol")
GLPK_MODELS = pathlib.Path("/usr/share/doc/glpk-utils/examples")
# those of them that glpsol makes in a moment
QUICK = "assign bpp cf12a cf12b cflsq color cpp diet egypt fctp food food2 gap maxcut plan prod qfit shiftcov spp stigler todd train transp trick xyacfs zebra"
ANY = {"numbers": "exact", "relax": True, "marker_upper": "none", "negative_up": "keep"}


def read(text, **words):
    return mps.read_text(text, mps.Reading(**{"numbers": "exact", **words}))


def limits_of(model):
    return {column: model.column_limits(column) for column in model.columns}


# ---- which form a file has

@pytest.mark.parametrize("text, word", (
    ("", ""), (" \n\n", ""), ("min: x", "min"), ("* a remark\n*another\n  NAME X", "NAME"), (r"\ a comment" + "\n \\ another\n\tMaximize x", "Maximize"),
    ("* a remark", ""), ("\\ a comment", ""), (" * NAME", "*"), (" NAME* x", "NAME*"), ("min\\x", "min"), ("\\ a comment\n* a remark\nST", "ST")))
def test_the_first_word(text, word):
    assert mps.first_word(text) == word


def test_the_first_word_behind_a_million_blanks():
    "no memory goes into them"
    text = 500_000 * " \n"
    tracemalloc.start()
    try:
        assert mps.first_word(text) == ""
        assert tracemalloc.get_traced_memory()[1] < 100_000
    finally:
        tracemalloc.stop()


# ---- hand-written files

PLAN = r"""\ a plan of three products
Maximize
 profit: 5 x1 + 4.5 x2
   - .25x3 + 10   \ a constant
Subject To
 steel: 2 x1 + x2 <= 100
 labour:
   x1 + 3 x2 +
   x3 => 12.5
 mix: -2 <= x1 - x2 <= 7
 12 >= x2 + x3
 even: x1 - 2x3 = -1e1
Bounds
 x1 <= 40
 -5 <= x2 <= 1e2
 x3 free
End
"""


def test_a_plan():
    model = read(PLAN)
    one = Fraction(1)
    assert (model.sense, model.objective, model.constant) == ("MAX", "profit", 10)
    assert model.rows == {"profit": "N", "steel": "L", "labour": "G", "mix": "L", "c4": "L", "even": "E"}
    assert model.columns == {"x1": {"profit": 5 * one, "steel": 2 * one, "labour": one, "mix": one, "even": one},
                             "x2": {"profit": Fraction(9, 2), "steel": one, "labour": 3 * one, "mix": -one, "c4": one},
                             "x3": {"profit": Fraction(-1, 4), "labour": one, "c4": one, "even": Fraction(-2)}}
    assert {row: model.row_limits(row) for row in model.rows} == {
        "profit": (None, None), "steel": (None, 100), "labour": (Fraction(25, 2), None), "mix": (-2, 7), "c4": (None, 12), "even": (-10, -10)}
    assert limits_of(model) == {"x1": (0, 40), "x2": (-5, 100), "x3": (None, None)}
    assert model.said == ["1 row has no name: c4"]


@pytest.mark.parametrize("bounds, limits", [
    (["x >= 3"], (3, None)), (["3 <= x"], (3, None)), (["x <= 3"], (0, 3)), (["3 >= x"], (0, 3)), (["x = 3"], (3, 3)), (["-3 <= x <= 4"], (-3, 4)),
    (["4 >= x >= -3"], (-3, 4)), (["x free"], (None, None)), (["x FREE"], (None, None)), (["-inf <= x <= 3"], (None, 3)), (["x >= -Infinity"], (None, None)),
    (["x <= +inf"], (0, None)), (["x >= -1e30"], (None, None)), (["x >= 1", "x <= 2"], (1, 2)), (["x >= 1", "x >= 1"], (1, None)), (["x < 3"], (0, 3)),
    (["x =< 3"], (0, 3)), (["x => 3"], (3, None)), (["x <-3", "x >= -4"], (-4, -3)), (["+ 3 <= x"], (3, None)), ([], (0, None))])
def test_bounds(bounds, limits):
    model = read("min\nobj: x\nst\nc: x + y >= 1\nbounds\n" + "".join(f" {bound}\n" for bound in bounds) + "end\n")
    assert limits_of(model) == {"x": limits, "y": (0, None)}


@pytest.mark.parametrize("head", ["Subject To", "subject to", "SUBJECT  TO", "such that", "st", "s.t.", "ST.", " st", "  Subject To"])
def test_heads(head):
    "the words of a section, at the beginning of a line, indented or not"
    for objective in ("obj: 2 x + 3", "2 x + 3", "obj: 2 x +\n 3", "obj: + 2 x - -3"):
        model = read(f"minimize\n{objective}\n{head}\n c1: x >= 1\n End\n")
        assert model.columns == {"x": {"obj": 2, "c1": 1}} and model.constant == 3
    assert list(read("max obj: x\nst c1: x <= 1\nend").rows) == ["obj", "c1"]
    assert list(read("max x st\nc1: x <= 1\nend").rows) == ["obj", "c1"]


def test_words_of_sections_as_names():
    "a word that stands where no section can begin is a name"
    model = read("min\n obj: 3 st + 2 free + bounds\nst\n c1: st + free >= 2\n c2: bounds - end\n >= 0\n st: st >= 1\nend\n")
    assert list(model.columns) == ["st", "free", "bounds", "end"] and list(model.rows) == ["obj", "c1", "c2", "st"]


def test_names_of_rows_without_names():
    "the second constraint is c2, unless another one is named so"
    assert list(read("min\nx\nst\n x >= 1\n c2: x >= 2\n x >= 3\n x >= 4\nend\n").rows) == ["obj", "c1", "c2", "c3", "c4"]
    assert list(read("min\nx\nst\n c2: x >= 1\n x >= 2\nend\n").rows) == ["obj", "c2", "c3"]


# as these programs write a model: least 2 x + 3 y - 1, x + y at least 4, x - y from -2 to 5 or equal to 1, x at most 3
WRITTEN = {
    "PuLP": "\\* Plan *\\\nMinimize\nOBJ: 2 x + 3 y - 1\nSubject To\nneed: x + y >= 4\nmix: x - y = 1\nBounds\nx <= 3\nEnd\n",
    "Pyomo": "\\* Source Pyomo model name=unknown *\\\n\nmin \nOBJ:\n-1 ONE\n+2 x\n+3 y\n\ns.t.\n\nneed:\n+1 x\n+1 y\n>= 4\n\n"
             "mix:\n+1 x\n-1 y\n= 1\n\nc_e_ONE: \nONE = 1.0\n\nbounds\n   0 <= x <= 3\n   0 <= y <= +inf\nend\n",
    "Gurobi": "\\ Model plan\n\\ LP format - for model browsing. Use MPS format to capture full model detail.\nMinimize\n  OBJ: 2 x + 3 y - 1 Constant\n"
              "Subject To\n need: x + y >= 4\n mix: x - y = 1\nBounds\n x <= 3\n Constant = 1\nEnd\n",
    "HiGHS": "\\ File written by HiGHS .lp file handler\nmin\n OBJ: +2 x +3 y  -1\nst\n need: +1 x +1 y >= +4\n mix: +1 x -1 y = +1\nbounds\n x <= 3\n"
             " -inf <= y <= +inf\n y >= -inf\nend\n"}


@pytest.mark.parametrize("program", WRITTEN)
def test_what_modelling_tools_write(program):
    model = read(WRITTEN[program])
    assert model.columns["x"] == {"OBJ": 2, "need": 1, "mix": 1} and model.columns["y"] == {"OBJ": 3, "need": 1, "mix": -1}
    assert model.row_limits("need") == (4, None) and model.row_limits("mix") == (1, 1) and limits_of(model)["x"] == (0, 3)
    ones = [column for column in model.columns if column not in "xy"]
    assert model.constant + sum(model.columns[column]["OBJ"] for column in ones) == -1 and (model.sense, model.warned) == ("MIN", [])


def test_names_of_all_letters():
    model = read("min\nobj: !\"#$%&(),.;?@_`'{}|~ + é_ü + a/b.c[1]\nst\nc: é_ü >= 1\nend\n".replace("[1]", ""))
    assert list(model.columns) == ["!\"#$%&(),.;?@_`'{}|~", "é_ü", "a/b.c"]


def test_whole_numbers():
    text = "max\nobj: x + y + z\nst\nc: x + y + z <= 9\nbounds\n y <= 3\nGenerals\n x\n y\nBinary\n z\nend\n"
    with pytest.raises(Refused) as refused:
        read(text)
    assert str(refused.value) == "line 7: columns of whole numbers (Generals); --relax takes them as columns of any numbers\n    Generals\n    ^^^^^^^^"
    model = read(text, relax=True)
    assert model.relaxed == ["x", "y", "z"] and limits_of(model) == {"x": (0, None), "y": (0, 3), "z": (0, 1)}
    assert model.said == ["3 columns should have whole numbers (x, y, z): any numbers are allowed here"]


def test_negative_upper_limit():
    text = "min\nobj: x\nst\nc: x >= -9\nbounds\n x <= -4\nend\n"
    with pytest.raises(Refused) as refused:
        read(text)
    assert str(refused.value).startswith("line 6: a negative upper limit alone on column x: say --negative-up keep")
    assert limits_of(read(text, negative_up="keep")) == {"x": (0, -4)}
    assert limits_of(read(text, negative_up="free")) == {"x": (None, -4)}


def test_long_numbers_and_rounding():
    text = "min\nobj: 1.23456789012345678 x\nst\nc: x >= 2.0000000000000001\nend\n"
    model = read(text)
    assert model.columns["x"]["obj"] == Fraction("1.23456789012345678") and len(model.long) == 2
    with pytest.raises(Refused) as refused:
        read(text, numbers="job")
    assert str(refused.value).split("\n")[0] == "line 2: 1.23456789012345678 has no exact form of 12 columns; --round takes the nearest, 1.2345678901"
    model = read(text, numbers="round")
    assert model.columns["x"]["obj"] == Fraction("1.2345678901") and [line for line, _, _ in model.rounded] == [2, 4]
    assert read("min\nobj: 0.10000000000000001 x\nst\nc: x >= 2\nend\n", doubles=True).columns["x"]["obj"] == Fraction(1, 10)


def test_options():
    text = "min\ncost: x\nst\nc: x >= 1\nend\nmore"
    assert read(text, sense="MAX").sense == "MAX" and read(text, objective="cost").objective == "cost"
    assert read(text).said == ["line 6: what follows End isn't read"]
    for words in ({"rhs_set": "B"}, {"bound_set": "B"}, {"range_set": "B"}, {"objective": "c"}):
        with pytest.raises(Refused):
            read(text, **words)


# ---- what is refused

@pytest.mark.parametrize("text, line, word, cause", [
    ("min\nobj: [ x ^ 2 ] / 2\nst\nc: x >= 1\nend", 2, "[", "quadratic"),
    ("min\nobj: x\nst\nq: x + [ y * z ] >= 1\nend", 4, "[", "quadratic"),
    ("min\nobj: x^2\nst\nc: x >= 1\nend", 2, "^", "raises to a power"),
    ("min\nobj: x\nst\ni: y = 1 -> x >= 2\nend", 4, "->", "more than a linear program"),
    ("min\nobj: x\nst\nc: x >= 1\nSOS\ns1: S1:: x:1\nend", 5, "SOS", "more than a linear program"),
    ("min\nobj: x\nst\nc: x >= 1\nSOS2\ns1: x:1\nend", 5, "SOS2", "more than a linear program"),
    ("min\nobj: x\nst\nc: x >= 1\nSemi-Continuous\nx\nend", 5, "Semi-Continuous", "more than a linear program"),
    ("min\nobj: x\nst\nc: x >= 1\nsemis\nx\nend", 5, "semis", "more than a linear program"),
    ("min\nobj: x\nst\nc: x >= 1\nLazy Constraints\nd: x >= 2\nend", 5, "Lazy Constraints", "more than a linear program"),
    ("min\nobj: x\nst\nc: x >= 1\nUser Cuts\nd: x >= 2\nend", 5, "User Cuts", "more than a linear program"),
    ("min\nobj: x\nst\nc: x >= 1\nGeneral Constraints\nd: x = MAX ( y )\nend", 5, "General Constraints", "more than a linear program"),
    ("min\nobj: x\nst\nc: x + y + x >= 1\nend", 4, "x", "a second time"),
    ("min\nobj: x\nst\nc: x + 3 >= 1\nend", 4, "3", "right-hand side"),
    ("min\nobj: x\nst\nc: x >= y\nend", 4, "y", "a number alone at its right"),
    ("min\nobj: x\nst\nc: x >= 3 y\nend", 4, "y", "a number alone"),
    ("min\nobj: x\nst\nc: x >= 3 + 2\nend", 4, "+", "a number alone"),
    ("min\nobj: x\nst\nc: x 3 >= 3\nend", 4, "3", "wanted in row c"),
    ("min\nobj: x\nst\nc: x >=\nend", 5, "end", "a number is wanted"),
    ("min\nobj: x\nst\nc: 3 <= x >= 1\nend", 4, "3", "the same sense twice"),
    ("min\nobj: x\nst\nc: 3 <= x <= 1\nend", 4, "3", "above its upper one"),
    ("min\nobj: x\nst\nc: x >= -inf\nend", 4, "inf", "infinite"),
    ("min\nobj: x\nst\nc: x <= 1e30\nend", 4, "1e30", "infinite"),
    ("min\nobj: x\nst\nc: x >= 1\nc: x >= 2\nend", 5, "c", "a second row c"),
    ("min\nobj: x\nst\nobj: x >= 1\nend", 4, "obj", "a second row obj"),
    ("min\nobj: 2e x\nst\nc: x >= 1\nend", 2, "2", "without its exponent"),
    ("min\nobj: x\nst\nc: x >= 1\nbounds\n 2 x <= 3\nend", 6, "2", "a bound is a number"),
    ("min\nobj: x\nst\nc: x >= 1\nbounds\n x <= 3\n x <= 4\nend", 7, "4", "line 6 has set"),
    ("min\nobj: x\nst\nc: x >= 1\nbounds\n x\nend", 7, "end", "a sense or free"),
    ("min\nobj: x\nst\nc: x >= 1\nbounds\n x = inf\nend", 6, "inf", "infinite"),
    ("min\nobj: x\nst\nc: x >= 1\nbounds\n x <= -inf\nend", 6, "inf", "infinite"),
    ("min\nobj: x\nst\nc: x >= 1\n", 5, "", "the file ends"),
    ("min\nobj: x\n", 3, "", "Subject To is wanted"),
    ("min\nobj: x y\nst\nc: x >= 1\nend", 2, "y", "Subject To is wanted"),
    ("max: 3x+2y;\nc1: x<=4;\n", 1, ":", "lp_solve"),
    ("min\nobj: x\nst\nc: x >= 1\nst\nd: x >= 1\nend", 5, "st", "has no place here"),
    ("min\nobj: x\nst\nc: x >= 1\nmax\nd: x\nend", 5, "max", "has no place here"),
    ("min\nobj: x\nst\nc: x >= 1" + "0" * 1001 + "\nend", 4, "1" + "0" * 1001, "isn't a number")])
def test_refused(text, line, word, cause):
    with pytest.raises(Refused) as refused:
        read(text, relax=True)
    fault = refused.value
    assert fault.line == line and cause in fault.cause, str(fault)
    assert fault.text[slice(*fault.span)] == word


def test_more_than_a_job_holds():
    text = "min\nobj: x\nst\n" + "".join(f" r{k}: x >= {k}\n" for k in range(1000)) + "end\n"
    with pytest.raises(Refused) as refused:
        read(text)
    assert str(refused.value).startswith("line 1003: a job holds at most 1,000 rows")


# ---- which form a file has

@pytest.mark.parametrize("name", ["m.lp", "m.mps", "m.txt", "m.lp.gz"])
def test_forms_by_content(tmp_path, name):
    path = tmp_path / name
    for content in (PLAN, (places.EXAMPLES / "glass.mps").read_text()):
        path.write_bytes(gzip.compress(content.encode()) if name.endswith(".gz") else content.encode())
        assert mps.read_file(path, mps.Reading(numbers="exact")) == read(content)


def test_forms_by_name(tmp_path):
    "a file of that name whose first word tells nothing is taken as an LP file, and refused as one"
    path = tmp_path / "m.lp"
    path.write_text("obj: x\nst\nc: x >= 1\nend\n")
    with pytest.raises(Refused) as refused:
        mps.read_file(path)
    assert "an LP file begins with Minimize or Maximize" in str(refused.value)


# ---- as glpsol reads

def near(a, b):
    "the same, as far as the digits go that glpsol writes in an MPS file"
    return a == b or None not in (a, b) and abs(a - b) <= abs(a) / 10 ** 8


def shape(model):
    "the model by the places of its rows, without zeros"
    place = {row: k for k, row in enumerate(row for row in model.rows if row != model.objective)} | {model.objective: None}
    entries = {column: {place[row]: value for row, value in numbers.items() if value} for column, numbers in model.columns.items()}
    return [model.row_limits(row) for row in place if row != model.objective], entries, limits_of(model)


def glpsol_reads(path, folder):
    written = pathlib.Path(folder, "written.mps")
    subprocess.run([GLPSOL, "--lp", path, "--check", "--wfreemps", written], capture_output=True, timeout=60)
    return mps.read_file(written, mps.Reading(**ANY)) if written.exists() else None


def check_same(ours, theirs):
    (rows, entries, limits), (other_rows, other_entries, other_limits) = shape(ours), shape(theirs)
    assert len(rows) == len(other_rows) and list(entries) == list(other_entries)
    assert all(near(a, b) for ours, theirs in zip(rows, other_rows) for a, b in zip(ours, theirs))
    for column, numbers in entries.items():
        assert set(numbers) == set(other_entries[column]), column
        assert all(near(value, other_entries[column][row]) for row, value in numbers.items()), column
        assert all(near(a, b) for a, b in zip(limits[column], other_limits[column])), column


HAND_WRITTEN = [
    "Minimize\nobj: 2 x + 3.5 y\n - 1e1 z\nSubject To\nc1: x + 2y>=1\nc2: 3x - z =< 4.25\nx+y+z=2\nBounds\nx <= 4\n-1<=y<=1e1\nz free\nEnd\n",
    "maximize\n3 a1 + b.2\nsuch that\n a1 < 3\n b.2 > -2\nbounds\n 2 <= a1\n -inf <= b.2 <= 7\ngeneral\n a1\nend\n",
    "max x\nst\n c: + x + 0 y \\ a comment\n <= 3\n\\ another\nbounds\n y = 2.5\n w >= -3\nbinary\n v\nend\n",
    "min\n 0 q\nst\n r_1: q - q2 + 3q3\n + 4\n q4 >= -1\nbounds\n q2 >= -infinity\n q3 <= +inf\nend\n"]


@pytest.mark.parametrize("text", HAND_WRITTEN)
def test_hand_written_as_glpsol_reads(tmp_path, text):
    if not GLPSOL:
        pytest.skip("glpsol isn't installed")
    path = tmp_path / "hand.lp"
    path.write_text(text)
    check_same(mps.read_file(path, mps.Reading(**ANY)), glpsol_reads(path, tmp_path))


def models_to_write():
    "models of the repository, and those that come with glpsol where they are installed"
    yield "--freemps", places.EXAMPLES / "glass.mps"
    for name in QUICK.split():
        if (GLPK_MODELS / f"{name}.mod").exists():
            yield "-m", GLPK_MODELS / f"{name}.mod"
    for name in ("alloy", "furnace", "icecream", "murtagh", "samp1"):
        if (GLPK_MODELS / f"{name}.mps").exists():
            yield "--mps", GLPK_MODELS / f"{name}.mps"


def test_what_glpsol_writes_is_read_as_glpsol_reads_it(tmp_path):
    if not GLPSOL:
        pytest.skip("glpsol isn't installed")
    count = 0
    for form, model in models_to_write():
        path = tmp_path / f"{model.stem}.lp"
        subprocess.run([GLPSOL, form, model, "--check", "--wlp", path], capture_output=True, timeout=60, cwd=tmp_path)
        if path.exists() and "\nSubject To" in path.read_text():    # (glpsol writes no sections of a model without rows, and doesn't read such a file)
            check_same(mps.read_file(path, mps.Reading(**ANY)), glpsol_reads(path, tmp_path))
            count += 1
    assert count >= 1


# ---- small changes

PIECES = ["", "+", "-", "<=", ">=", "=", ":", "[", "->", "::", "x", "1", "1e", ".", "\\", "\n", "end\n", "st", "inf", "free", "bounds\n", "general", "sos", "\t", "é", "\0", "9" * 40]


def test_small_changes_never_end_otherwise():
    r = random.Random(7)
    taken = refused = 0
    for _ in range(3000):
        text = r.choice([PLAN, *HAND_WRITTEN])
        for _ in range(r.randint(1, 3)):
            at = r.randrange(len(text))
            text = text[:at] + r.choice(PIECES) + text[at + r.choice([0, 1, 1, 3, 10]):]
        try:
            model = mps.read_text(text, mps.Reading(**ANY), "changed.lp")
            assert model.objective in model.rows
            taken += 1
        except Refused as cause:
            assert cause.line is None or 1 <= cause.line <= text.count("\n") + text.count("\r") + 1
            assert str(cause)
            refused += 1
    assert taken > 200 and refused > 1000, (taken, refused)
