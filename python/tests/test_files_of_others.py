"""The commands on files with long numbers and on LP files, as docs/COMING_FROM_MPS.md has them: what they say, in each form, of models that were worked
out by hand. The job is run by MPS360_PROGRAM, by the proved program where it is fresh, else by oracle/listing.py."""
import csv
import io
import json
import os
import pathlib
import re
import stat
import subprocess
import sys
from fractions import Fraction

import pytest

import places
from long_models import random_text
from mps360 import programs

LONG = """NAME LONG
ROWS
 N COST
 L LIM
 G NEED
COLUMNS
 X COST 1.123456789012345
 X LIM .3333333333333333
 X NEED 1
 Y COST 2
 Y LIM 1
 Y NEED 1
RHS
 B LIM 100
 B NEED 3.141592653589793
BOUNDS
 UP BND X 2.718281828459045
ENDATA
"""
PLAN = """Maximize
 profit: 3 x + 2 y
Subject To
 a: x + y <= 4.00000000000000001
 b: x + 3 y <= 9
Bounds
 x <= 3
End
"""
X, Y = Fraction("2.718281828459045"), Fraction("3.141592653589793") - Fraction("2.718281828459045")
TOTAL = Fraction("1.123456789012345") * X + 2 * Y


def script(folder, name, words):
    "a command that stands in for a program"
    path = folder / name
    path.write_text(f"#!/bin/sh\nexec {sys.executable} {places.ORACLE} {words}\n")
    path.chmod(path.stat().st_mode | stat.S_IXUSR)
    return str(path)


def run(folder, command, *words, given=None):
    "a command of scripts/ in this folder, whose program and checker are tested ones where no proved one is there"
    program = os.environ.get("MPS360_PROGRAM") or programs.proved_program() or script(folder, "program", "listing")
    alone = [] if any(word.endswith(".job") for word in words) else ["--with", "none"]
    handed = {"solve": ["--program", program, *alone], "attest": ["--program", script(folder, "checker", "attesting --as-program")]}
    for name, text in (("long.mps", LONG), ("plan.lp", PLAN)):
        (folder / name).write_text(text)
    return subprocess.run([places.SCRIPTS / command, *handed.get(command, []), *words], cwd=folder, input=given, capture_output=True, text=True, timeout=120)


def test_solve_says_the_rows_and_columns_of_the_file(tmp_path):
    ended = run(tmp_path, "solve", "--ranging", "long.mps")
    assert ended.returncode == 0, ended.stderr
    assert f"OPTIMAL: the least COST is ≈3.900494 = {TOTAL}; no plan" in ended.stdout
    assert re.search(rf"^X +≈2.718282 = {X} +-0.876543210987655 = -175308642197531/200000000000000 +any to 2$", ended.stdout, re.M)
    assert re.search(rf"^NEED +≈3.141593 = {X + Y} +2 ", ended.stdout, re.M) and "(2 more have the price 0)" in ended.stdout
    assert "note: numbers of more than 12 columns (COST, LIM, NEED, X) are kept exactly: the job has 5 rows and a column fixed at 1 more" in ended.stdout
    assert not re.search(r"^(P|B|ONE)\d", ended.stdout, re.M)


def test_json_and_csv(tmp_path):
    whole = json.loads(run(tmp_path, "solve", "--json", "long.mps").stdout)
    assert whole["result"]["objective"] == str(TOTAL)
    convert, solution = (next(report for report in whole["reports"] if report["report"] == kind) for kind in ("convert", "solution"))
    assert (convert["rows"], convert["columns"], convert["entries"]) == (3, 2, 6)
    assert [line["name"] for line in solution["rows"]] == ["COST", "LIM", "NEED"] and [line["name"] for line in solution["columns"]] == ["X", "Y"]
    assert solution["columns"][0]["upper"] == str(X) and solution["rows"][2]["lower"] == str(X + Y)
    lines = list(csv.DictReader(io.StringIO(run(tmp_path, "solve", "--csv", "long.mps").stdout)))
    assert [(line["name"], line["activity"]) for line in lines if line["section"] == "columns"] == [("X", str(X)), ("Y", str(Y))]


def test_page(tmp_path):
    assert run(tmp_path, "solve", "--ranging", "--html", "page.html", "long.mps").returncode == 0
    shown = (tmp_path / "page.html").read_text().split("What is proved")[0]
    assert str(TOTAL) in shown and str(X) in shown and "3 rows, 2 columns, 6 entries" in shown and not re.search(r"\b(P|B|ONE)[0-9]", shown.split("<body")[1])


def test_page_of_a_ray(tmp_path):
    "a ray's limits are those of the file: X of at most 2.718281828459045 and Y of at most 1 don't make 300"
    text = LONG.replace("B NEED 3.141592653589793", "B NEED 300").replace("B LIM 100", "B LIM 1000").replace("ENDATA", " UP BND Y 1\nENDATA")
    ended = run(tmp_path, "solve", "--html", "page.html", "-", given=text)
    assert ended.returncode == 1 and re.findall(r"^(\S+) +-?[0-9]", ended.stdout, re.M) == ["NEED", "X", "Y"]
    assert f"by these limits they are at most ≈-296.2817 = {X + 1 - 300}." in ended.stdout
    shown = re.sub(r"<[^>]+>", "", (tmp_path / "page.html").read_text())
    assert str(X) in shown and f"by these limits the sum is at most ≈-296.2817 (exactly {X + 1 - 300})" in shown
    # of the job and its table of names
    assert run(tmp_path, "solve", "--keep", "kept", "-", given=text).returncode == 1
    again = run(tmp_path, "solve", "--names", "kept/model.names", "kept/model.job")
    assert f"by these limits they are at most ≈-296.2817 = {X + 1 - 300}." in again.stdout


def test_table_of_names(tmp_path):
    "the listing that is proved is the job's, and with the table of names it speaks of the file"
    assert run(tmp_path, "mps2job.py", "long.mps", "-o", "long.job", "--names", "long.names").returncode == 0
    program = os.environ.get("MPS360_PROGRAM") or programs.proved_program() or str(tmp_path / "program")
    with open(tmp_path / "long.job", "rb") as job:
        (tmp_path / "long.listing").write_bytes(subprocess.run([program], stdin=job, capture_output=True, timeout=60).stdout)
    assert " P1 " in (tmp_path / "long.listing").read_text()
    ended = run(tmp_path, "listing2json.py", "--csv", "--names", "long.names", "long.listing")
    assert [line.split(",")[2] for line in ended.stdout.splitlines()[1:]] == ["COST", "LIM", "NEED", "X", "Y"]
    table = json.loads((tmp_path / "long.names").read_text())
    table["long"]["moved"] = {"P1": 3}
    (tmp_path / "bad.names").write_text(json.dumps(table))
    ended = run(tmp_path, "listing2json.py", "--csv", "--names", "bad.names", "long.listing")
    assert ended.returncode == 65 and "its entry for long numbers isn't one that mps2job.py wrote" in ended.stderr


def test_attest(tmp_path):
    solution = {"answer": "optimal", "columns": {"X": str(X), "Y": str(Y)}, "prices": {"NEED": 2}}
    (tmp_path / "long.json").write_text(json.dumps(solution))
    ended = run(tmp_path, "attest", "long.mps", "long.json")
    assert ended.returncode == 0 and ended.stdout.endswith(f"attests: OPTIMAL, objective {TOTAL}\n"), ended.stderr
    solution["columns"]["X"] = str(X + Fraction(1, 10 ** 15))
    (tmp_path / "long.json").write_text(json.dumps(solution))
    assert run(tmp_path, "attest", "long.mps", "long.json").returncode == 40


def test_basis(tmp_path):
    "X at its long bound and NEED at its long side, as the file's own basis says: PRIMAL makes no step"
    (tmp_path / "long.bas").write_text("NAME LONG\n XL Y NEED\n UL X\nENDATA\n")
    whole = json.loads(run(tmp_path, "solve", "--json", "--basis", "long.bas", "--from", "activity", "long.mps").stdout)
    assert whole["result"]["steps"] == 0 and whole["result"]["objective"] == str(TOTAL)


def test_lp_file(tmp_path):
    "x is 3 and y the rest of a: 11.00000000000000002"
    total = 3 * 3 + 2 * Fraction("1.00000000000000001")
    for words, given in ((["plan.lp"], None), (["-"], PLAN)):
        ended = run(tmp_path, "solve", *words, given=given)
        assert ended.returncode == 0 and f"OPTIMAL: the greatest profit is ≈11 = {total}; no plan" in ended.stdout, (ended.stdout, ended.stderr)
    assert run(tmp_path, "mps2job.py", "plan.lp", "-o", "plan.job", "--names", "plan.names").returncode == 0
    ended = run(tmp_path, "solve", "-", given=PLAN.replace("+ 3 y", "+ [ y ^ 2 ]"))
    assert ended.returncode == 65
    assert ended.stderr == ("solve: -: line 5: [ begins what is quadratic, and only linear forms can be kept\n"
                            "solve:      b: x + [ y ^ 2 ] <= 9\nsolve:             ^\n")


def test_doubles_and_rounding(tmp_path):
    text = LONG.replace("1.123456789012345", "1.1000000000000001")
    for words, cost in (([], "1.1000000000000001"), (["--doubles"], "1.1"), (["--round"], "1.1")):
        whole = json.loads(run(tmp_path, "solve", "--json", *words, "-", given=text).stdout)
        solution = next(report for report in whole["reports"] if report["report"] == "solution")
        assert solution["columns"][0]["cost"] == str(Fraction(cost))
        assert any("the same double" in note for note in whole["run"]["notes"]) == (words == ["--doubles"])


def test_what_is_said_before(tmp_path):
    ended = run(tmp_path, "solve", "--json", "-", given=LONG.replace("COST", "PROFIT"))
    said = "PROFIT is made as small as can be, since the file says no sense: --max makes it great"
    assert ended.stderr.startswith(f"solve: {said}\n") and said in json.loads(ended.stdout)["run"]["notes"]
    assert f"note: {said}" in run(tmp_path, "solve", "-", given=LONG.replace("COST", "PROFIT")).stdout
    assert said not in run(tmp_path, "solve", "--max", "-", given=LONG.replace("COST", "PROFIT")).stderr
    assert said in run(tmp_path, "mps2job.py", "-o", "p.job", "-", given=LONG.replace("COST", "PROFIT")).stderr


def test_a_run_that_meets_too_long_numbers_says_what_may_come_further(tmp_path):
    text = random_text(0, "a", 6)
    if not (os.environ.get("MPS360_PROGRAM") or programs.proved_program()):
        pytest.skip("oracle/listing.py knows no stop of a path for overflow")
    ended = run(tmp_path, "solve", "--negative-up=free", "-", given=text)
    assert ended.returncode == 20 and "note: the file's numbers of more than 12 columns are kept exactly: --round, or --doubles, may come further" in ended.stdout


def test_the_page_has_these_commands():
    page = (places.TOP / "docs/COMING_FROM_MPS.md").read_text()
    assert pathlib.Path(places.SCRIPTS / "solve").exists()
    for command in ("scripts/solve long.mps", "scripts/mps2job.py long.mps -o long.job --names long.names", "scripts/solve plan.lp",
                    "scripts/mps2job.py plan.lp -o plan.job --names plan.names", "scripts/solve - < plan.lp"):
        assert f"\n{command}\n" in page
