"""The command solve over the routes: each form says which route led to the answer and the checksums, the answer itself is the same by every route, and
each end has its exit code."""
import csv
import hashlib
import io
import json
import os
import pathlib
import signal
import subprocess
import sys
import time

import fakes
import places
import pytest
from mps360 import solver_names, solvers
from test_routes import ESOLVER, GOOD_DECK, SOLUTION, real_program
from test_solvers import GLASS

INFEASIBLE = GLASS.replace(" B P1 4\n", " B P1 -4\n")
WORDS = {"primal": ("--only", "primal"), "clp": ("--only", "basis", "--with", "clp"), "esolver": ("--only", "basis", "--with", "esolver"),
         "glpsol": ("--only", "basis", "--with", "glpsol"), "lp_solve": ("--only", "basis", "--with", "lp_solve"), "highs": ("--only", "basis", "--with", "highs"),
         "exact": ("--only", "exact")}
NEEDS = {**{name: name for name in solver_names.NAMES}, "exact": "esolver"}


def solve(folder, *words, model=GLASS, program=None, path=None, given=None):
    "the status, standard output and standard error of solve"
    (folder / "glass.mps").write_text(model)
    command = [sys.executable, places.SCRIPTS / "solve", "--program", program or real_program(folder), *words, "-" if given else folder / "glass.mps"]
    env = {**os.environ, **({"PATH": str(path), "FAKE_PIDS": str(path / "pids")} if path else {})}
    ended = subprocess.run(command, input=given, capture_output=True, timeout=120, check=False, env=env, cwd=folder)
    return ended.returncode, ended.stdout.decode(), ended.stderr.decode()


def attests(folder):
    "a stand-in for the checker, which attests all"
    return fakes.program(folder, "checker", fakes.CHECKER, answer="ATTESTED 5 REPORTS", status=0)


@pytest.mark.parametrize("route", WORDS)
def test_the_same_by_every_route(tmp_path, route):
    "plan, prices and verdict are those of Hillier and Lieberman; the route, the solver's version and both checksums stand in JSON"
    if route in NEEDS and solvers.find(NEEDS[route]) is None:
        pytest.skip(f"{NEEDS[route]} isn't installed")
    status, text, said = solve(tmp_path, "--json", "--checker", attests(tmp_path), *WORDS[route])
    assert status == 0, said
    whole = json.loads(text)
    solution = next(report for report in whole["reports"] if report["report"] == "solution")
    assert {line["name"]: line["activity"] for line in solution["columns"]} == {"doors": "2", "windows": "6"}
    assert {line["name"]: line["dual"] for line in solution["rows"]} == {"PROFIT": "0", "P1": "0", "P2": "3/2", "P3": "1"}
    assert (whole["result"]["verdict"], whole["result"]["objective"]) == ("optimal", "36")
    run = whole["run"]
    assert run["file_sha256"] == hashlib.sha256(GLASS.encode()).hexdigest()
    tool = tmp_path / "checker" if route == "exact" else pathlib.Path(real_program(tmp_path))
    assert run["program_sha256"] == hashlib.sha256(tool.read_bytes()).hexdigest()
    assert run["routes"][-1] == {"words": run["route"], "seconds": run["routes"][-1]["seconds"], "why": None} and run["proved_by"] == "none"
    if route == "primal":
        assert run["solver"] is None and run["route"] == "PRIMAL from the opening basis"
    else:
        assert run["solver"]["name"] == solver_names.TITLES.get(NEEDS[route], NEEDS[route]) and any(map(str.isdigit, run["solver"]["version"]))
        assert run["route"] in said and run["solver"]["version"] in said


def test_each_form_says_it(tmp_path):
    "a basis of clp, whose version the stand-in tells: text, CSV, page and standard error"
    with fakes.only_path(tmp_path):
        fakes.program(tmp_path, "clp", "\n    print('Coin LP version 9.8.7, build')" + fakes.WRITES, content=GOOD_DECK)
    checksum = hashlib.sha256(GLASS.encode()).hexdigest()
    words = ("--only", "basis", "--with", "clp")
    program = fakes.program(tmp_path, "runs", "import subprocess; sys.exit(subprocess.run([{python!r}, {oracle!r}, 'listing']).returncode)", python=sys.executable,
                            oracle=str(places.ORACLE))
    status, text, said = solve(tmp_path, "--html", tmp_path / "page.html", *words, path=tmp_path, program=program)
    assert status == 0 and said.endswith("solve: not proved, since another program ran: by INSERT of clp's basis and PRIMAL (clp 9.8.7)\n")
    assert "\nBy INSERT of clp's basis and PRIMAL (clp 9.8.7).\nSHA-256: file " + checksum in text
    page = (tmp_path / "page.html").read_text()
    assert "PRIMAL (clp 9.8.7)" in page and checksum in page
    _, table, _ = solve(tmp_path, "--csv", *words, path=tmp_path, program=program)
    lines = list(csv.DictReader(io.StringIO(table)))
    assert len(lines) == 6 and all((line["proved_by"], line["route"], line["solver"], line["file_sha256"]) == ("none", "INSERT of clp's basis and PRIMAL", "clp 9.8.7", checksum)
                                   for line in lines)


def test_why_the_others_came_to_nothing(tmp_path):
    "the program stops at each basis, the checker attests the exact answer: all that was tried stands in the text, in its order"
    fakes.program(tmp_path, "esolver", ESOLVER, solution=SOLUTION, deck=GOOD_DECK)
    program = fakes.program(tmp_path, "program", fakes.PROGRAM, opening="overflow", inserted="singular")
    status, text, said = solve(tmp_path, "--with", "esolver", "--checker", attests(tmp_path), path=tmp_path, program=program)
    assert status == 0 and "OPTIMAL: the greatest PROFIT is 36" in text, said
    assert ("By esolver's exact answer, attested by the checker; before, or beside it: PRIMAL from the opening basis: a number doesn't fit; "
            "INSERT of esolver's basis and PRIMAL: the basis is singular.") in text
    assert "Not proved: another program than the proved checker attested this." in text


def test_without_a_solver_it_ends_as_primal_did(tmp_path):
    program = fakes.program(tmp_path, "program", fakes.PROGRAM, opening="overflow", inserted="answers")
    for words in (("--with", "none"), ("--only", "primal")):
        status, text, said = solve(tmp_path, *words, path=tmp_path, program=program)
        assert status == 20 and "The run stopped: STOP 20 OVERFLOW F2 MUL 1 2." in text
        assert said.endswith("solve: no verdict: PRIMAL from the opening basis: a number doesn't fit\n")


def test_no_plan(tmp_path):
    "the verdict is the program's, whoever gave the basis"
    for words in ((), *((("--with", "clp", "--only", "basis"),) if solvers.find("clp") else ())):
        status, text, _ = solve(tmp_path, *words, model=INFEASIBLE)
        assert status == 1 and text.startswith("INFEASIBLE: no plan keeps all limits")


# ---- ends

def test_no_end_within_the_seconds(tmp_path):
    program = fakes.program(tmp_path, "program", fakes.PROGRAM, opening="hangs", inserted="answers")
    begun = time.monotonic()
    status, text, said = solve(tmp_path, "--seconds", "4", "--with", "none", path=tmp_path, program=program)
    assert status == 124 and time.monotonic() - begun < 60 and "cut off before a verdict" in text
    assert said.endswith("solve: no verdict: PRIMAL from the opening basis: no end in 4 seconds\n")
    assert fakes.left_over(tmp_path / "pids") == []


def test_no_end_of_a_job_within_the_seconds(tmp_path):
    program = fakes.program(tmp_path, "program", fakes.HANGS)
    ended = subprocess.run([sys.executable, places.SCRIPTS / "solve", "--program", program, "--seconds", "4", places.EXAMPLES / "first.job"], capture_output=True, timeout=60,
                           check=False, env={**os.environ, "FAKE_PIDS": str(tmp_path / "pids")})
    assert ended.returncode == 124 and b"no end in 4 seconds" in ended.stderr
    assert fakes.left_over(tmp_path / "pids") == []


@pytest.mark.parametrize("number", [signal.SIGINT, signal.SIGTERM])
def test_interrupted(tmp_path, number):
    "what stands is said, and no program and no solver is left"
    (tmp_path / "glass.mps").write_text(GLASS)
    fakes.program(tmp_path, "clp", fakes.HANGS)
    program = fakes.program(tmp_path, "program", fakes.PROGRAM, opening="overflow", inserted="answers")
    env = {**os.environ, "PATH": str(tmp_path), "FAKE_PIDS": str(tmp_path / "pids")}
    runs = subprocess.Popen([sys.executable, places.SCRIPTS / "solve", "--program", program, "--with", "clp", tmp_path / "glass.mps"], stdout=subprocess.PIPE,
                            stderr=subprocess.PIPE, env=env)
    pids, until = tmp_path / "pids", time.monotonic() + 30
    while time.monotonic() < until and not (pids.exists() and pids.read_text().endswith("\n")):
        time.sleep(0.02)
    runs.send_signal(number)
    text, said = runs.communicate(timeout=30)
    assert runs.returncode == 130 and b"interrupted after" in said and b"Traceback" not in said, said
    assert b"STOP 20" in text and fakes.left_over(pids) == []


@pytest.mark.parametrize("words, status, cause", [
    (("--with", "cplex"), 64, "no solver cplex; highs, clp, esolver, glpsol, lp_solve are known, and none for nobody"), (("--with", ""), 64, "no solver"),
    (("--only", "luck"), 64, "invalid choice: 'luck'"), (("--seconds", "0"), 64, "'0' isn't a number of seconds"), (("--seconds", "x"), 64, "'x' isn't a number of seconds"),
    (("--seconds", "nan"), 64, "'nan' isn't a number of seconds"), (("--processors", "0"), 64, "'0' isn't a whole number"), (("--processors", "2.5"), 64, "'2.5' isn't a whole number"),
    (("--only", "basis", "--with", "none"), 64, "lets nobody be asked"), (("--only", "exact", "--with", "clp"), 64, "asks esolver"),
    (("--with", "clp"), 70, "clp isn't installed (apt-get install coinor-clp)"), (("--only", "exact"), 70, "esolver isn't installed (apt-get install qsopt-ex)"),
    (("--checker", "/none"), 70, "/none isn't a program that can be run"), (("--program", "/none"), 70, "/none isn't a program that can be run"),
    (("--solution", "x", "--solution-form", "cplex"), 64, "invalid choice"), (("--solution-form", "highs"), 64, "--solution-form goes with --solution")])
def test_wrong_words(tmp_path, words, status, cause):
    program = fakes.program(tmp_path, "program", fakes.PROGRAM, opening="answers", inserted="answers")
    found, text, said = solve(tmp_path, *words, path=tmp_path, program=program)
    assert (found, text) == (status, "") and cause in said and said.count("\n") == 1, said


@pytest.mark.parametrize("words", [("--with", "clp"), ("--only", "primal"), ("--write-basis", "b"), ("--solution", "s"), ("--basis", "b")])
def test_a_job_has_no_routes(tmp_path, words):
    ended = subprocess.run([sys.executable, places.SCRIPTS / "solve", *words, places.EXAMPLES / "first.job"], capture_output=True, timeout=60, check=False, cwd=tmp_path)
    assert ended.returncode == 64 and f"{words[0]} goes with an MPS file".encode() in ended.stderr


# ---- files for other solvers

def test_files_for_other_solvers(tmp_path):
    status, _, said = solve(tmp_path, "--write-basis", "glass.bas", "--solution", "glass.sol")
    assert status == 0, said
    assert (tmp_path / "glass.bas").read_text() == "NAME    GLASS\n XL doors P2\n XL windows P3\nENDATA\n"
    assert (tmp_path / "glass.sol").read_text().split("\n")[7:] == ["s bas 3 2 f f 36", "i 1 b 2 0", "i 2 u 12 1.5", "i 3 u 18 1", "j 1 b 2 0", "j 2 b 6 0", "e o f", ""]
    again = solve(tmp_path, "--basis", "glass.bas", "--json")
    assert again[0] == 0 and json.loads(again[1])["result"]["steps"] == 0
    status, _, said = solve(tmp_path, "--solution", "glass.highs", "--solution-form", "highs")
    assert status == 0 and "doors 2\nwindows 6\n" in (tmp_path / "glass.highs").read_text()


def test_no_files_where_there_is_no_plan(tmp_path):
    status, _, said = solve(tmp_path, "--write-basis", "glass.bas", "--solution", "glass.sol", model=INFEASIBLE)
    assert status == 1 and not (tmp_path / "glass.bas").exists() and not (tmp_path / "glass.sol").exists()
    assert "--write-basis: glass.bas isn't written: there is no best plan, but INFEASIBLE" in said
    assert solve(tmp_path, "--solution", "glass.sol", "--solution-form", "highs", model=INFEASIBLE)[0] == 1
    assert (tmp_path / "glass.sol").read_text().startswith("Model status\nInfeasible\n")


def test_files_that_cant_be_written(tmp_path):
    for word in ("--write-basis", "--solution"):
        status, text, said = solve(tmp_path, word, "/dev/null/none")
        assert (status, text) == (73, "") and "can't write /dev/null" in said
