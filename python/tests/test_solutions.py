"Solutions of other programs as listings, and attest: what is taken, what is refused and why, and what the checker says of it."
import json
import os
import shutil
import subprocess
from typing import Any

import places
import programs_at_hand
import pytest
from calls import call, called
from mps360 import programs
from mps360.cli import solution2listing
from oracle import attesting as expected_attesting

SCRIPTS = places.SCRIPTS

# ---- solutions of other programs

MODEL = """NAME glass_products
OBJSENSE MAX
ROWS
 N total_profit
 L plant_1
 L plant_2
 L plant_3
COLUMNS
 doors total_profit 3 plant_1 1
 doors plant_3 3
 windows total_profit 5 plant_2 2
 windows plant_3 2
RHS
 plant_1 4 plant_2 12
 plant_3 18
BOUNDS
 UP doors 1e30
ENDATA
"""
ESOLVER = "status = OPTIMAL\nstatus OPTIMAL\n\tValue = 36\nVARS:\ndoors = 2\nwindows = 6\nREDUCED COST:\nPI:\nplant_2 = 3/2\nplant_3 = 1\nSLACK:\nplant_1 = 2\n"
PLAN: dict[str, Any] = {"answer": "optimal", "objective": "36", "columns": {"doors": 2, "windows": "6"}, "prices": {"plant_2": "3/2", "plant_3": 1}}
# a model without a plan, and one without a bound
TIGHT = MODEL.replace(" plant_3 18\n", " plant_3 18\n").replace(" L plant_1\n", " G plant_1\n").replace("plant_1 4 ", "plant_1 7 ")
LOOSE = MODEL.replace(" L plant_", " N plant_")
CROSSED = MODEL.replace(" UP doors 1e30\n", " UP doors -1\n LO doors 0\n")
RAYS: dict[str, Any] = {"answer": "infeasible", "ray": {"plant_1": -3, "plant_3": 1}}
# three times plant_1 at least 21, and plant_3 at most 18: 2 windows at most -3, and windows at least 0
RAYS_WHOLE = {**RAYS, "column_ray": {"windows": -2}}
DIRECTION: dict[str, Any] = {"answer": "unbounded", "columns": {"doors": 1}, "direction": {"windows": "1/2"}}
TAKEN: tuple[tuple[Any, ...], ...] = (
    (MODEL, ESOLVER, "ATTESTED 5 REPORTS"),
    (MODEL, PLAN, "ATTESTED 5 REPORTS"),
    (MODEL, {**PLAN, "reduced": {}}, "ATTESTED 5 REPORTS"),
    (MODEL, {**PLAN, "reduced": {"doors": 1}}, "WRONG LINE 5"),
    (MODEL, {"answer": "optimal", "columns": {"doors": 4, "windows": 3}, "prices": {"plant_2": "3/2", "plant_3": 1}}, "WRONG LINE 5"),
    (MODEL, {**PLAN, "prices": {}}, "WRONG LINE 5"),
    (TIGHT, RAYS, "ATTESTED 4 REPORTS"),
    (TIGHT, RAYS_WHOLE, "ATTESTED 4 REPORTS"),
    (TIGHT, {**RAYS, "ray": {"plant_1": 3, "plant_3": -1}}, "WRONG LINE 4"),
    (MODEL, RAYS, "WRONG LINE 4"),
    (CROSSED, {"answer": "infeasible", "crossed": {"column": "doors"}}, "ATTESTED 4 REPORTS"),
    (CROSSED, {"answer": "infeasible", "crossed": {"row": "plant_1"}}, "WRONG LINE 4"),
    (LOOSE, DIRECTION, "ATTESTED 4 REPORTS"),
    (MODEL, DIRECTION, "WRONG LINE 4"),
)
NOT_TAKEN: tuple[tuple[Any, ...], ...] = (
    (ESOLVER.replace("doors = 2", "doors = 2.0"), "line 5: 2.0 is a decimal number"),
    (ESOLVER.replace("doors = 2", "door = 2"), "line 5: the model has no column 'door'"),
    (ESOLVER.replace("windows = 6", "doors = 6"), "line 6: the column 'doors' stands twice"),
    (ESOLVER.replace("windows = 6", "windows 6"), "line 6: 'windows 6' isn't a name and its number"),
    (ESOLVER.replace("plant_3 = 1", "plant_3 = 1/0"), "line 10: '1/0' isn't a number"),
    (ESOLVER[:ESOLVER.index("PI:")], "the section PI: is missing, and it isn't made up"),
    (ESOLVER.replace("Value = 36", "Value = 35"), "the objective is said to be 35, and by the activities it is 36"),
    ("status = INFEASIBLE\n", "scripts/solve --basis"),
    ("Optimal - objective value 36\n", "it is neither what esolver -O writes"),
    ({**PLAN, "columns": {"doors": 2.0, "windows": 6}}, "2.0 is a decimal number"),
    ({**PLAN, "columns": {"doors": "2.0", "windows": 6}}, "columns: doors: 2.0 is a decimal number"),
    ({**PLAN, "columns": {"doors": True}}, "columns: doors: True isn't a number"),
    ({**PLAN, "columns": {"gates": 1}}, "columns: the model has no column 'gates'"),
    ({**PLAN, "prices": {"doors": 1}}, "prices: the model has no row 'doors'"),
    ({"answer": "optimal", "columns": {}}, "'prices' is missing, and it isn't made up"),
    ({**PLAN, "objective": 35}, "the objective is said to be 35"),
    ({**PLAN, "ray": {}}, "an answer optimal has no 'ray'"),
    ({**PLAN, "columns": {"doors": "9" * 100_001, "windows": 0}}, "columns: doors: " + "9" * 40 + ".. has more than 100,000 digits above or below the line"),
    ({"answer": "optimal", "columns": {"doors": "9" * 100_000}, "prices": {}}, "a number of R0000001 has more than 100,000 digits above or below the line"),
    ({"answer": "infeasible"}, "has a 'ray', or the variable that is 'crossed'"),
    ({"answer": "infeasible", "crossed": {"row": "doors"}}, "the model has no row 'doors'"),
    ({"answer": "best"}, '"answer" is to be'),
    ('{"answer": "optimal", "columns": {"doors": 1, "doors": 2}}', "'doors' stands twice"),
    ('{"answer": NaN}', "NaN is a decimal number"),
    ("{" * 100_000, "it isn't JSON"),
    ('{"answer": "optimal", "columns": {"doors": ' + "9" * 5000 + "}}", "'prices' is missing"),
)


def text_of(solution):
    return solution if isinstance(solution, str) else json.dumps(solution)


def made(tmp_path, model, solution):
    "the status, what is said, and the files of a model and its solution"
    paths = [tmp_path / name for name in ("model.mps", "solution", "model.job", "model.listing", "model.names")]
    for path, text in zip(paths, (model, text_of(solution))):
        path.write_text(text)
    mps, solved, job, listing, names = paths
    status, _, told = called(solution2listing, "-o", job, "--listing", listing, "--names", names, mps, solved)
    return status, told, job, listing


@pytest.mark.parametrize("number", range(len(TAKEN)))
def test_what_is_taken(tmp_path, number):
    model, solution, wanted = TAKEN[number]
    status, told, job, listing = made(tmp_path, model, solution)
    assert status == 0, told
    assert expected_attesting.attest(job.read_bytes(), listing.read_bytes())[1] == wanted


@pytest.mark.parametrize("number", range(len(NOT_TAKEN)))
def test_what_is_refused(tmp_path, number):
    solution, wanted = NOT_TAKEN[number]
    status, told, *_ = made(tmp_path, MODEL, solution)
    assert status == 65 and wanted in told, told[:300]


def test_names_in_latin_1(tmp_path):
    "of a model and of its exact answer, neither of which is UTF-8: the names are the same. JSON is UTF-8, or its line is named"
    model, solution, job, listing = (tmp_path / name for name in ("m.mps", "s", "m.job", "m.listing"))
    model.write_bytes(MODEL.replace("plant_1", "Fabrik_für_Türen").replace("doors", "Türen").encode("latin-1"))
    solution.write_bytes(ESOLVER.replace("plant_1", "Fabrik_für_Türen").replace("doors", "Türen").encode("latin-1"))
    words = ("-o", job, "--listing", listing, "--names", tmp_path / "names", model, solution)
    assert called(solution2listing, *words)[0] == 0
    assert expected_attesting.attest(job.read_bytes(), listing.read_bytes())[1] == "ATTESTED 5 REPORTS"
    solution.write_bytes(json.dumps(PLAN, indent=1, ensure_ascii=False).replace("doors", "Türen").encode("latin-1"))
    status, _, told = called(solution2listing, *words)
    assert (status, told) == (65, f"solution2listing.py: {solution}: line 5: it isn't UTF-8, as JSON is\n")


def test_a_model_that_is_refused(tmp_path):
    status, told, *_ = made(tmp_path, MODEL.replace("doors plant_3 3", "doors plant_3 x"), PLAN)
    assert status == 65 and "line 10:" in told, told


@pytest.mark.parametrize("words, wanted", (
    ((), 64), (("-o", "a"), 64), (("-o", "a", "--listing", "a", "model.mps", "solution"), 64), (("-o", "a", "model.mps", "none"), 66),
    (("-o", "a", "none", "solution"), 66)))
def test_wrong_use_of_solution2listing(tmp_path, words, wanted):
    made(tmp_path, MODEL, PLAN)
    status, _, told = called(solution2listing, *(word if word.startswith("-") else tmp_path / word for word in words))
    assert status == wanted and told.startswith("solution2listing.py: "), told


def test_models_that_esolver_solves(tmp_path):
    "models that esolver solves, where it is installed: examples/, and small ones"
    if not shutil.which("esolver"):
        pytest.skip("esolver isn't installed")
    small = ("NAME T\nROWS\n N C\n L A\n G B\n E D\nCOLUMNS\n x C 1 A 1\n x B 1\n y C 4 A 1\n y D -1\n z C 9 B 1\n z D 1\nRHS\n R A 5 B 10\n R D 7\n"
             "RANGES\n R A 2.5 B 4\nBOUNDS\n UP B x 4\n LO B y -1\n UP B y 1\nENDATA\n")
    for model in (MODEL.replace("OBJSENSE MAX", "OBJSENSE\n MAX").replace("BOUNDS\n UP doors 1e30\n", ""), small):
        (tmp_path / "asked.mps").write_text(model)
        subprocess.run(["esolver", "-O", "asked.sol", "asked.mps"], cwd=tmp_path, stdout=subprocess.DEVNULL, stderr=subprocess.DEVNULL, timeout=60)
        status, told, job, listing = made(tmp_path, model, (tmp_path / "asked.sol").read_text())
        said = expected_attesting.attest(job.read_bytes(), listing.read_bytes())[1] if status == 0 else told
        assert said == "ATTESTED 5 REPORTS", f"esolver: {said}"


OTHER, REFUSED = "not proved, since another program ran; it attests: ", "not attested: its numbers don't prove it: {} (line {})\n"
CONSTANT = MODEL.replace(" plant_3 18\n", " plant_3 18 total_profit -5\n")
# with plant_3 at 2 the cost of doors is 3 - 6 less than its price; in MODEL plant_1 is at most 4, and has no lower limit
ATTESTED = (
    (MODEL, ESOLVER, 0, OTHER + "OPTIMAL, objective 36\n"), (CONSTANT, ESOLVER, 0, OTHER + "OPTIMAL, objective 36, 41 with the file's constant\n"),
    (MODEL, ESOLVER.replace("plant_3 = 1", "plant_3 = 2"), 40,
     REFUSED.format("the column doors has the reduced cost 0, and by the prices it is -3", "5 of the listing, SOLUTION OPTIMAL")),
    (TIGHT, text_of(RAYS), 0, OTHER + "INFEASIBLE, no plan keeps all limits\n"),
    (MODEL, text_of(RAYS), 40, REFUSED.format("the row plant_1 has the factor -3, which is for its lower limit, and it has none",
                                              "4 of the listing, PRIMAL INFEASIBLE STEPS 0 RAY CHECKED")),
    (LOOSE, text_of(DIRECTION), 0, OTHER + "UNBOUNDED, the objective has no bound\n"))


@pytest.mark.parametrize("text, answer, status, wanted", ATTESTED)
def test_what_attest_says(tmp_path, text, answer, status, wanted):
    model, solution = tmp_path / "a.mps", tmp_path / "a.sol"
    model.write_text(text)
    solution.write_text(answer)
    ended = call(SCRIPTS / "attest", "--program", programs_at_hand.checker(tmp_path), "--keep", tmp_path / "kept", model, solution, text=True)
    assert (ended.returncode, ended.stdout) == (status, wanted), ended
    assert "bound of 1e+20 and more is no limit" in ended.stderr and all(line.startswith("attest: ") for line in ended.stderr.splitlines()), "what is changed"
    assert {path.name for path in (tmp_path / "kept").iterdir()} == {"model.job", "model.listing", "model.names"}


@pytest.mark.parametrize("words, status", (
    (("--program", "/bin/true", "MODEL", "SOLUTION"), 70), (("--program", "NONE", "MODEL", "SOLUTION"), 70), (("MODEL",), 64), ((), 64),
    (("MODEL", "--keep"), 64), (("--names", "N", "--program", "CHECKER", "MODEL", "SOLUTION"), 64), (("--program", "CHECKER", "MODEL", "NONE"), 66),
    (("--program", "CHECKER", "NONE", "SOLUTION"), 66), (("--program", "CHECKER", "SOLUTION", "MODEL"), 65), (("--program", "CHECKER", "MODEL", "MODEL"), 65),
    (("--program", "CHECKER", "--keep", "MODEL", "MODEL", "SOLUTION"), 73), (("--program", "CHECKER", "--keep", "KEPT", "MODEL", "IN_KEPT"), 64)))
def test_the_ends_of_attest(tmp_path, words, status):
    paths = {"MODEL": tmp_path / "a.mps", "SOLUTION": tmp_path / "a.sol", "NONE": tmp_path / "none", "N": tmp_path / "n", "KEPT": tmp_path / "kept",
             "IN_KEPT": tmp_path / "kept/model.listing", "CHECKER": programs_at_hand.checker(tmp_path)}
    paths["KEPT"].mkdir()
    paths["MODEL"].write_text(MODEL)
    for name in ("SOLUTION", "IN_KEPT"):
        paths[name].write_text(ESOLVER)
    ended = call(SCRIPTS / "attest", *(paths.get(word, word) for word in words), text=True)
    assert ended.returncode == status and ended.stderr.startswith("attest: ") and not ended.stdout and "Traceback" not in ended.stderr, ended
    assert paths["IN_KEPT"].read_text() == ESOLVER, "it overwrites no file that it reads"


def test_attest_by_the_proved_checker(tmp_path):
    model, solution = tmp_path / "a.mps", tmp_path / "a.sol"
    model.write_text(MODEL)
    solution.write_text(ESOLVER)
    ended = call(SCRIPTS / "attest", model, solution, text=True, env={**os.environ, "MPS360_PROVED": "1"})
    wanted = (0, "attested: OPTIMAL, objective 36\n") if programs.proved_program("mps360check") else (70, "")
    assert (ended.returncode, ended.stdout) == wanted, ended
