"An answer that isn't attested: which row or column it is, and the two numbers that differ."
import json
import subprocess
import sys
from typing import Any

import places
import programs_at_hand
import pytest
from mps360 import solution_checks, solutions
from mps360.mps import Reading, read_text

# 3 X + 2 Y is greatest, where X + Y is at most 4, X + 3 Y at least 1, X at most 3
FILE = ("NAME  SHOP\nOBJSENSE\n MAX\nROWS\n N GAIN\n L HOURS\n G ORDER\nCOLUMNS\n X GAIN 3 HOURS 1\n X ORDER 1\n Y GAIN 2 HOURS 1\n Y ORDER 3\n"
        "RHS\n B HOURS 4 ORDER 1\nBOUNDS\n UP BND X 3\nENDATA\n")
BEST = {"answer": "optimal", "columns": {"X": 3, "Y": 1}, "prices": {"HOURS": 2}, "reduced": {"X": 1}}
ENDLESS = FILE.replace(" L HOURS", " G HOURS").replace(" UP BND X 3", " UP BND Y 3")
WAY = {"answer": "unbounded", "columns": {"X": 4}, "direction": {"X": 1}}
NONE = FILE.replace("HOURS 4 ORDER 1", "HOURS 4 ORDER 13")
RAY = {"answer": "infeasible", "ray": {"HOURS": 3, "ORDER": -1}, "column_ray": {"X": -2}}
CROSSED = FILE.replace(" UP BND X 3", " UP BND X 3\n LO BND X 5")

CASES: tuple[tuple[Any, ...], ...] = (
    (FILE, BEST, {}, None),
    (FILE, BEST, {"columns": {"X": 3, "Y": 2}}, "the row HOURS has the activity 5, above its upper limit 4"),
    (FILE, BEST, {"columns": {}}, "the row ORDER has the activity 0, below its lower limit 1"),
    (FILE, BEST, {"columns": {"X": 4, "Y": "-1/7"}}, "the column X has the activity 4, above its upper limit 3"),
    (FILE, BEST, {"reduced": {"X": "1/2"}}, "the column X has the reduced cost 1/2, and by the prices it is 1"),
    (FILE, BEST, {"columns": {"X": 3, "Y": "1/2"}}, "the row HOURS has the shadow price 2, which is for its upper limit 4, and its activity is 7/2"),
    (FILE, BEST, {"prices": {"HOURS": -2}, "reduced": {"X": 5, "Y": 4}}, "the row HOURS has the shadow price -2, which is for its lower limit, and it has none"),
    (FILE, BEST, {"prices": {"HOURS": 3}, "reduced": {"Y": -1}}, "the column Y has the reduced cost -1, which is for its lower limit 0, and its activity is 1"),
    (ENDLESS, WAY, {}, None),
    (ENDLESS, WAY, {"columns": {}}, "the row HOURS has the activity 0, below its lower limit 4"),
    (ENDLESS, WAY, {"direction": {"X": 1, "Y": 1}}, "the column Y changes by 1 along the direction, and has the upper limit 3"),
    (ENDLESS, WAY, {"direction": {}}, "the objective GAIN changes by 0 along the direction, which isn't more than 0"),
    (NONE, RAY, {}, None),
    (NONE, RAY, {"column_ray": {"X": -3}}, "the column X has the factor -3, and by the factors of the rows it is -2"),
    (NONE, RAY, {"ray": {"HOURS": 1, "ORDER": 1}, "column_ray": {"X": -2, "Y": -4}}, "the row ORDER has the factor 1, which is for its upper limit, and it has none"),
    (FILE, RAY, {}, "the limits, each times its factor, add up to 11, which isn't less than 0"),
    (CROSSED, {"answer": "infeasible"}, {"crossed": {"column": "X"}}, None),
    (FILE, {"answer": "infeasible"}, {"crossed": {"column": "X"}}, "the column X has the lower limit 0, which isn't above its upper limit 3"),
    (FILE, {"answer": "infeasible"}, {"crossed": {"row": "HOURS"}}, "the row HOURS has the lower limit none, which isn't above its upper limit 4"))


@pytest.mark.parametrize("text, answer, changes, fault", CASES)
def test_the_first_fault(text, answer, changes, fault):
    model = read_text(text, Reading())
    found = solutions.read_bytes(json.dumps({**answer, **changes}).encode(), model)
    assert solution_checks.first_fault(model, found) == fault


@pytest.mark.parametrize("place", (0, 1, 4, 6, 8, 10, 12, 13, 15, 16, 17))
def test_attest_says_it(tmp_path, place):
    "what is attested has no fault here, and what isn't has one"
    text, answer, changes, fault = CASES[place]
    model, solution = tmp_path / "model.mps", tmp_path / "solution"
    model.write_text(text, encoding="ascii")
    solution.write_text(json.dumps({**answer, **changes}), encoding="ascii")
    ended = subprocess.run([sys.executable, places.SCRIPTS / "attest", "--program", programs_at_hand.checker(tmp_path), model, solution],
                           stdout=subprocess.PIPE, stderr=subprocess.PIPE, check=False)
    assert ended.returncode == (40 if fault else 0), ended
    told = ended.stdout.decode()
    assert told.startswith(f"not attested: its numbers don't prove it: {fault} (line " if fault else "not proved, since another program ran; it attests: ")
