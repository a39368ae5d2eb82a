"What was changed, left out or chosen of a file stands in every form of its answer."
import csv
import io
import json
import re
import subprocess
import sys

import places
import programs_at_hand
import pytest
from mps360 import notes
from mps360.mps import Reading, read_text

# more x is better, x is at most 3.5 and its limits are in one of two sets
FILE = """NAME  SHOP
OBJSENSE
 MAX
ROWS
 N GAIN
 L LIMIT
COLUMNS
 X GAIN 3 LIMIT 1
RHS
 B LIMIT 3.5
 B GAIN -7
BOUNDS
 UI ONE X 3
 UP TWO X 2
ENDATA
"""
WHOLE = "1 column should have whole numbers (X): any numbers are allowed here"
SETS = "BOUNDS has 2 sets; ONE is taken: --bounds names another"
CONSTANT = "the objective's constant is 7, the negative of its number in RHS"
OF_LISTING = "the objective's constant isn't in OBJECTIVE and ACTIVITY of the listing: add it there (listing2json.py --names does)"
SHORT = ", whole numbers not demanded, with ONE of 2 sets of BOUNDS"
ALL = [WHOLE, SETS, CONSTANT]


def run(*words, status=0):
    ended = subprocess.run([sys.executable, places.SCRIPTS / words[0], *words[1:]], stdout=subprocess.PIPE, stderr=subprocess.PIPE, timeout=120, check=False)
    assert ended.returncode == status, ended
    return ended.stdout.decode(), ended.stderr.decode()


@pytest.fixture
def model(tmp_path):
    path = tmp_path / "shop.mps"
    path.write_text(FILE, encoding="ascii")
    return path


def solved(tmp_path, model, *words):
    "what solve prints of the file by the reading of the rules in Python"
    return run("solve", "--with", "none", "--program", programs_at_hand.solver(tmp_path), *words, "--relax", model)


def notes_of_page(page):
    "the lines of the box, which comes right behind the verdict's"
    box = re.search(r'class="verdict [^"]*"[^>]*>(?:(?!<div).)*?</div><div class="notes" role="note">.*?<ul>(.*?)</ul></div>', page)
    return [line.replace("&#x27;", "'") for line in re.findall("<li>(.*?)</li>", box[1])]


def test_the_text(tmp_path, model):
    lines = solved(tmp_path, model)[0].split("\n")
    assert lines[0] == f"OPTIMAL{SHORT}: the greatest GAIN is 16 (9 and the constant 7); no plan that keeps all limits has more."
    assert [line for line in lines if line.startswith("note: ")] == [f"note: {note}" for note in ALL]


@pytest.mark.parametrize("change, word", (((" B LIMIT 3.5", " B LIMIT -1"), "INFEASIBLE"), ((" UI ONE X 3", " BV ONE X"), "OPTIMAL")))
def test_other_verdicts(tmp_path, model, change, word):
    model.write_text(FILE.replace(*change), encoding="ascii")
    assert solved(tmp_path, model)[0].startswith(word + SHORT) if word == "OPTIMAL" else run(
        "solve", "--with", "none", "--program", programs_at_hand.solver(tmp_path), "--relax", model, status=1)[0].startswith(word + SHORT)


def test_csv(tmp_path, model):
    lines = list(csv.DictReader(io.StringIO(solved(tmp_path, model, "--csv")[0])))
    assert len(lines) == 3 and all(line[notes.COLUMN] == "; ".join(ALL) for line in lines)


def test_json(tmp_path, model):
    assert json.loads(solved(tmp_path, model, "--json")[0])["run"]["notes"] == ALL


def test_the_page(tmp_path, model):
    solved(tmp_path, model, "--html", tmp_path / "page")
    assert notes_of_page((tmp_path / "page").read_text(encoding="utf-8")) == ALL


def test_the_parts_of_solve(tmp_path, model):
    "listing2json.py and listing2html.py have the notes of the table of names"
    job, names, listing = tmp_path / "job", tmp_path / "names", tmp_path / "listing"
    assert run("mps2job.py", "--relax", "-o", job, "--names", names, model)[1] == "".join(f"mps2job.py: {note}\n" for note in (*ALL, OF_LISTING))
    with open(job, "rb") as given:
        listing.write_bytes(subprocess.run([programs_at_hand.solver(tmp_path)], stdin=given, stdout=subprocess.PIPE, check=True).stdout)
    assert json.loads(run("listing2json.py", "--names", names, listing)[0])["notes"] == [*ALL, OF_LISTING]
    for words in (("--csv",), ("--table", "verdicts")):
        lines = list(csv.DictReader(io.StringIO(run("listing2json.py", *words, "--names", names, listing)[0])))
        assert lines and all(line[notes.COLUMN] == "; ".join((*ALL, OF_LISTING)) for line in lines)
    assert notes_of_page(run("listing2html.py", "--names", names, job, listing)[0]) == [*ALL, OF_LISTING]
    assert "notes" not in json.loads(run("listing2json.py", listing)[0])


def test_prove_and_attest(tmp_path, model):
    last = run("prove", "--program", programs_at_hand.solver(tmp_path), "--relax", model)[1].rstrip("\n").split("\n")[-1]
    assert f": OPTIMAL{SHORT}, objective 9, 16 with the file's constant, " in last
    solution = tmp_path / "solution"
    solution.write_text('{"answer": "optimal", "columns": {"X": 3}, "reduced": {"X": 3}, "prices": {}}', encoding="ascii")
    told = run("attest", "--program", programs_at_hand.checker(tmp_path), "--relax", model, solution)[0]
    assert told == f"not proved, since another program ran; it attests: OPTIMAL{SHORT}, objective 9, 16 with the file's constant\n"


def test_names_that_nobody_keeps(tmp_path, model):
    "that the table has the longer names is said where there is a table"
    model.write_text(FILE.replace("GAIN", "GAIN_OF_ALL"), encoding="ascii")
    said = "1 row has another name in the job; the table of names has them"
    assert said not in solved(tmp_path, model)[0]
    assert said in solved(tmp_path, model, "--keep", tmp_path / "kept")[0]


@pytest.mark.parametrize("number, reading, words", (
    ("0.10000000000000001", Reading(doubles=True), ["1 number read as a double"]),
    ("0.123456789012345", Reading(numbers="round"), ["1 number rounded"]),
    ("1", Reading(), [])))
def test_numbers(number, reading, words):
    text = FILE.replace("GAIN 3", f"GAIN {number}").replace(" UI ONE X 3\n UP TWO X 2", " UP ONE X 3")
    assert list(notes.short_words(read_text(text, reading))) == words


def test_no_formula():
    assert notes.as_cell(["=1+1", "b"]) == "'=1+1; b"
