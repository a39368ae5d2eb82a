"""Certificates straight from exact answers, of which the checker in oracle/vipr.py, which shares nothing with the writer, has the last word."""
import json
import random
import shutil
import subprocess
import sys
from typing import Any

import places
import pytest
from test_solvers import GLASS

BEST: dict[str, Any] = {"answer": "optimal", "columns": {"doors": 2, "windows": 6}, "prices": {"P2": "3/2", "P3": 1}}
CROSSED = GLASS.replace("ENDATA", "BOUNDS\n LO U doors 3\n UP U doors 2\nENDATA")
NO_PLAN = GLASS.replace("B P1 4", "B P1 -4")


def certified(folder, model, answer, *words):
    "the status and standard error of solution2listing.py --vipr, and what the checker prints of the certificate"
    (folder / "m.mps").write_text(model)
    (folder / "m.json").write_text(answer if isinstance(answer, str) else json.dumps(answer))
    ended = subprocess.run([sys.executable, places.SCRIPTS / "solution2listing.py", *words, "--vipr", "m.vipr", "m.mps", "m.json"], cwd=folder, capture_output=True,
                           timeout=120, check=False)
    if ended.returncode:
        return ended.returncode, ended.stderr.decode(), ""
    checked = subprocess.run([sys.executable, places.SCRIPTS / "check_vipr.py", "m.vipr"], cwd=folder, capture_output=True, timeout=120, check=False)
    assert checked.returncode == 0, checked
    return 0, ended.stderr.decode(), checked.stdout.decode().strip()


@pytest.mark.parametrize("model, answer, said", [
    (GLASS, BEST, "optimal, the objective is 36"), (NO_PLAN, {"answer": "infeasible", "ray": {"P1": 1}}, "infeasible"),
    (CROSSED, {"answer": "infeasible", "crossed": {"column": "doors"}}, "infeasible"),
    (GLASS, {**BEST, "reduced": {"doors": 0}}, "optimal, the objective is 36")])
def test_what_is_proved(tmp_path, model, answer, said):
    status, _, checked = certified(tmp_path, model, answer)
    assert (status, checked) == (0, said)


@pytest.mark.parametrize("model, answer, cause", [
    (GLASS, {**BEST, "columns": {"doors": 3, "windows": 6}}, "breaks P3"), (GLASS, {**BEST, "prices": {"P2": 1, "P3": 1}}, "the column windows has the factor 1, which is for its upper limit"),
    (GLASS, {**BEST, "columns": {"doors": 1, "windows": 6}}, "isn't"), (GLASS, {**BEST, "prices": {"P2": "5/2"}}, "the column doors has the factor 3"),
    (NO_PLAN, {"answer": "infeasible", "ray": {"P1": -1}}, "the row P1 has the factor -1, which is for its lower limit, and it has none"),
    (GLASS, {"answer": "infeasible", "ray": {"P1": 1}}, "can be kept"), (GLASS, {"answer": "unbounded", "columns": {}, "direction": {}}, "UNBOUNDED, for which VIPR has no form")])
def test_what_is_not_proved_is_refused(tmp_path, model, answer, cause):
    status, said, _ = certified(tmp_path, model, answer)
    assert status == 65 and cause in said and not (tmp_path / "m.vipr").exists(), said


def test_a_constant_is_said(tmp_path):
    status, said, checked = certified(tmp_path, GLASS.replace("RHS\n", "RHS\n B PROFIT -5\n"), BEST)
    assert status == 0 and "the objective's constant 5 isn't in the certificate" in said and checked == "optimal, the objective is 36"


def test_words_that_dont_go_together(tmp_path):
    assert certified(tmp_path, GLASS, BEST, "-o", "m.job")[0] == 64


def long_model(chance):
    "a model of 17 digits in each number, with a plan"
    def number():
        return f"{chance.randint(1, 9)}.{chance.randint(10 ** 15, 10 ** 16 - 1)}"
    rows, columns = 8, 12
    lines = [f" C{j} COST {number()}\n" + "".join(f" C{j} R{i} {number()}\n" for i in range(rows)) for j in range(columns)]
    return "NAME LONG\nROWS\n N COST\n" + "".join(f" G R{i}\n" for i in range(rows)) + "COLUMNS\n" + "".join(lines) + "RHS\n" + "".join(
        f" B R{i} {number()}\n" for i in range(rows)) + "ENDATA\n"


@pytest.mark.parametrize("seed", range(10))
def test_numbers_of_any_length(tmp_path, seed):
    "esolver's exact answers, whose numbers have hundreds of digits: its objective is that of the certificate"
    if not shutil.which("esolver"):
        pytest.skip("esolver isn't installed")
    model = long_model(random.Random(seed))
    (tmp_path / "m.mps").write_text(model)
    subprocess.run(["esolver", "-O", "m.sol", "m.mps"], cwd=tmp_path, capture_output=True, stdin=subprocess.DEVNULL, timeout=60, check=False)
    solution = (tmp_path / "m.sol").read_text()
    objective = solution.split("Value = ")[1].split("\n")[0]
    assert max(map(len, solution.replace("/", " ").split())) > 39
    assert certified(tmp_path, model, solution) == (0, "", f"optimal, the objective is {objective}")
