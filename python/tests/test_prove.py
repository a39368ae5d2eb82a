"""basis2deck.py and prove: a basis of another solver as a deck, and each route of prove. The program that prove runs is MPS360_PROGRAM, the proved one, or
oracle/listing.py, which works INSERT and PRIMAL out apart from the program."""
import os
import re
import shutil
import subprocess
import sys

import places
import pytest
from calls import call
from mps360 import programs
from solver_bases import KEPT, SOLVERS, parts_of

SCRIPTS = places.SCRIPTS
STUB = """#!{python}
import subprocess, sys
job, mode = sys.stdin.read(), {mode!r}
if mode == "slow":
    import time
    time.sleep(60)
if mode == "overflow" or mode == "overflow at INSERT" and "         INSERT\\n" in job:
    print("STOP 20 OVERFLOW F5 MUL 1 1 P 0 Q 0 I 0 J 0 TERM 0 THETA 0 CARD 1\\nBASIS B\\nWAY B")
    sys.exit(20)
if mode == "overflow at SOLUTION":
    job = job.replace("         SOLUTION\\n", "")
ended = subprocess.run([{listing!r}, "listing"], input=job, text=True, capture_output=True)
sys.stdout.write(ended.stdout if mode != "overflow at SOLUTION" else ended.stdout.replace("END 0\\n", "STOP 20 OVERFLOW F9\\n"))
sys.exit(ended.returncode if mode != "overflow at SOLUTION" else 20)
"""


def stub(folder, mode):
    path = folder / f"program of {mode}"
    path.write_text(STUB.format(python=sys.executable, mode=mode, listing=str(places.ORACLE)))
    path.chmod(0o755)
    return path


def program_of(folder):
    return os.environ.get("MPS360_PROGRAM") or programs.proved_program() or stub(folder, "right")


def called(name, *words):
    "the status, standard output, and the lines of standard error of a command"
    ended = call(SCRIPTS / name, *words, text=True, stdin=subprocess.DEVNULL)
    return ended.returncode, ended.stdout, ended.stderr.rstrip("\n").split("\n")


PARTS = parts_of(KEPT / "made-09.txt")
# as QSopt_ex prints it
OBJECTIVE = re.findall(r"Value = (\S+)", PARTS["esolver solution"])[0]
OPENING = f"OPTIMAL, objective {OBJECTIVE}, by PRIMAL from the opening basis in "


def files(folder):
    "the model, and a basis of each solver"
    paths = {"MODEL": folder / "model.mps", **{solver: folder / solver for solver in ("clp", "esolver", "glpsol")}}
    paths["MODEL"].write_text(PARTS["model"])
    for solver in ("clp", "esolver", "glpsol"):
        paths[solver].write_text(PARTS[f"{solver} basis"])
    return paths


@pytest.mark.parametrize("solver", ("clp", "esolver", "glpsol"))
def test_a_basis_takes_no_step(tmp_path, solver):
    paths = files(tmp_path)
    ended = called("prove", "--program", program_of(tmp_path), "--basis", paths[solver], "--keep", tmp_path / "kept", paths["MODEL"])
    line = f"OPTIMAL, objective {OBJECTIVE}, by INSERT of {solver} and PRIMAL in 0 steps"
    assert ended[0] == 0 and ended[2][-1].endswith(line) and ended[1] == (tmp_path / "kept/model.listing").read_text(), ended


@pytest.mark.parametrize("mode, words, status, said", (
    ("right", (), 0, OPENING), ("overflow at INSERT", ("--basis", "clp"), 0, OPENING),
    ("overflow", ("--basis", "clp"), 20, "prove: not proved: a number doesn't fit (INSERT of clp and PRIMAL: a number doesn't fit)"),
    ("overflow at SOLUTION", (), 20, "the rest of the listing isn't there: a number doesn't fit"),
    ("slow", ("--seconds", "1"), 124, "prove: not proved: no end in 1 seconds")))
def test_the_routes_of_prove(tmp_path, mode, words, status, said):
    paths = files(tmp_path)
    ended = called("prove", "--program", stub(tmp_path, mode), *(paths.get(word, word) for word in words), paths["MODEL"])
    assert ended[0] == status and said in ended[2][-1], ended


@pytest.mark.parametrize("words, status, said", (
    (("-o", "DECK", "--names", "NAMES"), 0, ""), (("-o", "DECK", "--names", "OTHER"), 65, "isn't the table of names"), (("-o", "MODEL"), 64, "a file of its own"),
    (("-o", "/none/deck"), 73, "can't write"), (("--from", "nobody"), 64, "invalid choice"), (("--objective=NONE",), 65, "isn't an N row")))
def test_basis2deck(tmp_path, words, status, said):
    paths = files(tmp_path) | {"DECK": tmp_path / "deck", "NAMES": tmp_path / "names", "OTHER": tmp_path / "other"}
    call(SCRIPTS / "mps2job.py", "-o", tmp_path / "job", "--names", paths["NAMES"], paths["MODEL"])
    paths["OTHER"].write_text(paths["NAMES"].read_text().replace("column_0", "column_9"))
    ended = called("basis2deck.py", *(paths.get(word, word) for word in words), paths["MODEL"], paths["esolver"])
    assert ended[0] == status and said in ended[2][-1], ended
    if status == 0:
        assert re.search(r"^ X[UL] C0000001  R000000\d$", paths["DECK"].read_text(), re.M), "the deck has short names"


@pytest.mark.parametrize("words, status", ((("MODEL", "NONE"), 66), (("NONE", "esolver"), 66), (("MODEL", "MODEL"), 65), (("MODEL",), 64)))
def test_the_ends_of_basis2deck(tmp_path, words, status):
    paths = files(tmp_path) | {"NONE": tmp_path / "none"}
    assert called("basis2deck.py", *(paths[word] for word in words))[0] == status


def test_a_singular_basis(tmp_path):
    model, basis = tmp_path / "two.mps", tmp_path / "two.bas"
    model.write_text("NAME TWO\nROWS\n N COST\n G A\n G B\nCOLUMNS\n X COST 1\n X A 1\n X B 1\n Y COST 2\n Y A 1\n Y B 1\nRHS\n R A 1\n R B 3\nENDATA\n")
    basis.write_text("NAME TWO\n XL X A\n XL Y B\nENDATA\n")
    ended = called("prove", "--program", program_of(tmp_path), "--basis", basis, model)
    assert ended[0] == 0 and "OPTIMAL, objective 3, by PRIMAL from the opening basis" in ended[2][-1], ended
    assert ended[2][-1].endswith("(INSERT of two.bas and PRIMAL: the basis is singular)"), ended


MOST = """NAME MOST
OBJSENSE
 MAX
ROWS
 N COST
 L A
 E B
 G D
COLUMNS
 X COST 3
 X A 2
 Y COST 1
 Y B 1
 Y D 1
 Z COST -1
 Z D 1
RHS
 R A 1
 R B 4
 R D 1
 R COST 4
RANGES
 S A .5
 S B -2
 S D 2
BOUNDS
 MI W Z
 UP W Z -1
ENDATA
"""


@pytest.mark.parametrize("solver", SOLVERS)
def test_a_solver_that_is_asked(tmp_path, solver):
    "of a model to maximize whose objective has a constant: X is 1/2, Y 4 and Z -3"
    if not shutil.which(solver):
        pytest.skip(f"{solver} isn't installed")
    model = tmp_path / "most.mps"
    model.write_text(MOST)
    ended = called("prove", "--program", program_of(tmp_path), "--with", solver, model)
    line = f"OPTIMAL, objective 17/2, 9/2 with the file's constant, by INSERT of {solver}'s basis and PRIMAL in 0 steps"
    assert ended[0] == 0 and ended[2][-1].endswith(line), ended


def test_the_next_solver(tmp_path):
    "QSopt_ex writes no basis of a model without a plan"
    if not shutil.which("esolver") or not shutil.which("clp"):
        pytest.skip("esolver or clp isn't installed")
    model = tmp_path / "most.mps"
    model.write_text(MOST.replace(" UP W Z -1\n", " UP W Z -1\n UP W Y 1\n"))
    ended = called("prove", "--program", program_of(tmp_path), "--with", "esolver,clp", model)
    assert ended[0] == 1 and "INFEASIBLE, by INSERT of clp's basis" in ended[2][-1], ended
