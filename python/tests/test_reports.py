"""solve on models whose answers are known from outside: worked out by hand, from textbooks, and by glpsol and esolver where they are installed; its ends; and
the commands of README.md and docs/REFERENCE_ANSWERS.md. Jobs are run by python/oracle/listing.py, so that no proved program is needed."""
import csv
import io
import json
import pathlib
import re
import shutil
import signal
import subprocess
import sys
from fractions import Fraction

import fakes
import places
import programs_at_hand
import pytest
from book_models import BEALE, TESTPROB
from book_models import GLASS as GLASS_TEXT
from calls import call, words_of as command
from mps360.listings import read as listing2json
from page_checks import check_page, words_of
from schema import SCHEMA, violations

SCRIPTS, EXAMPLES = places.SCRIPTS, places.EXAMPLES
# Hillier and Lieberman's glass products: by the book the prices are 0, 3/2 and 1; the plan stays the same for the first profit from 0 to 15/2 and the second
# from 2 upward, and the prices hold for the second plant's hours from 6 to 18 and the third's from 12 to 24.
GLASS = {"doors_batches": ("0", "15/2"), "windows_batches": ("2", None), "plant_2_hours": ("6", "18"), "plant_3_hours": ("12", "24")}
GLASS_PRICES = {"plant_1_hours": "0", "plant_2_hours": "3/2", "plant_3_hours": "1"}
CONFLICT = """NAME CONFLICT
ROWS
 N COST
 L HOURS
 G CHAIRS
 G TABLES
COLUMNS
 CHAIR COST 7 HOURS 2
 CHAIR CHAIRS 1
 TABLE COST 20 HOURS 5
 TABLE TABLES 1
RHS
 WEEK HOURS 100 CHAIRS 20
 WEEK TABLES 14
ENDATA
"""
# The same models in the plainest form, of which all programs think the same: least, no constant, all names there.
PLAIN = {
    "testprob": TESTPROB.replace("COST       -10.0   LIM1", "LIM1"),
    "glass": "NAME GLASS\nROWS\n N loss\n L plant_1\n L plant_2\n L plant_3\nCOLUMNS\n doors loss -3 plant_1 1\n doors plant_3 3\n windows loss -5 plant_2 2\n windows plant_3 2\n"
             "RHS\n hours plant_1 4 plant_2 12\n hours plant_3 18\nENDATA\n",
    "beale": BEALE,
}


BOOKS = {"testprob": (TESTPROB, "54", "64", "MIN"), "glass": (GLASS_TEXT.replace("\r", ""), "36", None, "MAX"), "beale": (BEALE, "-1/20", None, "MIN")}


def outside(folder, name):
    "the least objective of the plain model by glpsol, and exactly by esolver, where they are installed"
    model = folder / f"{name}.plain.mps"
    model.write_text(PLAIN[name])
    if shutil.which("glpsol"):
        call("glpsol", "--freemps", model, "--min", "-o", folder / "glpsol.out")
        yield "glpsol", Fraction(re.search(r"^Objective: .* = (\S+)", (folder / "glpsol.out").read_text(), re.M)[1]), Fraction(1, 10**6)
    if shutil.which("esolver"):
        call("esolver", "-O", folder / "esolver.out", model)
        yield "esolver", Fraction(re.search(r"Value = (\S+)", (folder / "esolver.out").read_text())[1]), 0


def solved(tmp_path, name):
    "the JSON of a model of a book, whose job, listing and names are kept in the folder kept"
    path = tmp_path / f"{name}.mps"
    path.write_text(BOOKS[name][0])
    told = call(SCRIPTS / "solve", "--with", "none", "--program", programs_at_hand.solver(tmp_path), "--ranging", "--json", "--keep", tmp_path / "kept", path)
    assert told.returncode == 0, told
    return json.loads(told.stdout)


@pytest.mark.parametrize("name", BOOKS)
def test_models_of_books(tmp_path, name):
    _, objective, whole, sense = BOOKS[name]
    document = solved(tmp_path, name)
    result = document["result"]
    assert (result.get("objective"), result.get("objective_with_constant"), result.get("sense")) == (objective, whole, sense)
    assert list(violations(document, SCHEMA)) == [] and document["run"]["program"] == "other"
    kept = {ending: tmp_path / f"kept/{name}.{ending}" for ending in ("job", "listing", "names")}
    assert all(path.exists() for path in kept.values())
    assert call(programs_at_hand.solver(tmp_path), input=kept["job"].read_bytes()).stdout == kept["listing"].read_bytes(), "what is kept"
    for solver, value, room in outside(tmp_path, name):
        assert abs((-value if sense == "MAX" else value) - Fraction(result["objective"])) <= room, f"{solver} has {value}"


def test_the_glass_products(tmp_path):
    path, program = tmp_path / "glass.mps", programs_at_hand.solver(tmp_path)
    path.write_text(BOOKS["glass"][0])
    document = solved(tmp_path, "glass")
    lines = {line["name"]: line for report in document["reports"] for _, line in listing2json.each_line(report) if report["report"] == "ranges"}
    ends = {name: (line.get("cost_low", line.get("limit_low")), line.get("cost_high", line.get("limit_high")))
            for name, line in lines.items() if name in GLASS}
    assert ends == GLASS, f"RANGE of the glass products: {ends}"
    solution = next(report for report in document["reports"] if report["report"] == "solution")
    prices = {line["name"]: line["dual"] for line in solution["rows"] if line["name"] in GLASS_PRICES}
    assert prices == GLASS_PRICES, f"prices of the glass products: {prices}"
    told = call(SCRIPTS / "solve", "--program", program, "--ranging", "--html", tmp_path / "glass.html", path).stdout.decode()
    assert (told.startswith("OPTIMAL: the greatest total_profit is 36; no plan that keeps all limits has more.\n")
          and re.search(r"^plant_2_hours +12 +1\.5 = 3/2 +6 to 18$", told, re.M)
          and "Not proved" in told), f"solve glass: {told}"
    read = check_page("glass", (tmp_path / "glass.html").read_text(encoding="utf-8"))
    assert "plant_2_hours 12 1.5 3/2 at its upper limit 0 12 6 to 18" in words_of(read.text), "the page of the glass products"
    packed = subprocess.run(["gzip", "-c", path], capture_output=True).stdout
    for given in (path.read_bytes(), packed):
        told = call(SCRIPTS / "solve", "--program", program, "--csv", "-", input=given).stdout.decode()
        assert "doors_batches,BS,2," in told and "windows_batches,BS,6," in told, "solve from standard input"
    table = call(SCRIPTS / "listing2json.py", "--table", "ranges", "--names", tmp_path / "kept/glass.names",
                 tmp_path / "kept/glass.listing").stdout.decode()
    assert (re.search(r"^\d+,columns_between,\d+,windows_batches,BS,6,,,5,2,none,,,", table, re.M)
          and re.search(r"^\d+,rows_at_limit,\d+,plant_3_hours,UL,18,12,24,", table, re.M)), f"CSV of RANGE: {table}"


def test_the_first_command_of_the_readme(tmp_path):
    "the first command of README.md, and what it says of the answer"
    page = (places.TOP / "README.md").read_text()
    command = re.search(r"^    scripts/solve (.*)$", page, re.M)[1].split()
    said = re.search(r"^```\n(OPTIMAL: .*?)^```$", page, re.M | re.S)[1]
    told = call(SCRIPTS / "solve", "--program", programs_at_hand.solver(tmp_path), *(places.TOP / word if word.startswith("examples/") else word for word in command),
                cwd=tmp_path)
    assert told.returncode == 0 and told.stdout.decode().startswith(said), f"README.md: {told.stdout.decode()}"
    check_page("README.md", next((tmp_path / word).read_text(encoding="utf-8") for word in command if word.endswith(".html")))


def test_a_basis_of_another_solver(tmp_path):
    "it is taken in, and the answer is the same"
    basis, whole, model = tmp_path / "basis", tmp_path / "taken", tmp_path / "glass.mps"
    basis.write_text("NAME\n XU windows_batches plant_2_hours\nENDATA\n")
    model.write_text(BOOKS["glass"][0])
    told = call(SCRIPTS / "solve", "--with", "none", "--program", programs_at_hand.solver(tmp_path), "--basis", basis, "--keep", whole, model)
    assert told.returncode == 0 and "the greatest total_profit is 36" in told.stdout.decode(), told
    assert "         INSERT\n         PRIMAL\n" in (whole / "glass.job").read_text()


# the status, the words, what is printed; words in capitals stand for files of the test's folder
ENDS = (
        (1, (EXAMPLES / "conflict.job",), "INFEASIBLE"), (2, (EXAMPLES / "endless.job",), "UNBOUNDED: PROFIT grows"),
        (0, (EXAMPLES / "pararhs.job",), "parametric runs"),
        (0, (EXAMPLES / "seasons.job",), "The job has 2 solutions"), (65, ("REFUSED",), ""), (66, ("NOTHING",), ""), (66, ("FOLDER",), ""),
        (64, (), ""), (64, ("a", "b"), ""),
        (64, ("--max", EXAMPLES / "first.job"), ""), (64, ("--names", "NAMES", "GLASS"), ""),
        (73, ("--keep", "BELOW", EXAMPLES / "first.job"), ""),
        (64, ("--from", "clp", "GLASS"), ""), (64, ("--basis", "REFUSED", EXAMPLES / "first.job"), ""),
        (65, ("--basis", "REFUSED", "GLASS"), ""), (66, ("--basis", "NOTHING", "GLASS"), ""),
        (70, ("--program", "SILENT", EXAMPLES / "first.job"), ""), (70, ("--program", "OTHER", EXAMPLES / "first.job"), ""),
        (70, ("--program", "NOTHING", EXAMPLES / "first.job"), ""))


@pytest.mark.parametrize("status, words, said", ENDS)
def test_the_ends_of_solve(tmp_path, status, words, said):
    refused, model = tmp_path / "refused.mps", tmp_path / "glass.mps"
    refused.write_text("NAME\nROWS\n X  COST\nENDATA\n")
    model.write_text(BOOKS["glass"][0])
    (tmp_path / "names").write_text("{}")
    files = {"REFUSED": refused, "BELOW": refused / "x", "NOTHING": tmp_path / "nothing", "FOLDER": tmp_path, "NAMES": tmp_path / "names", "GLASS": model,
             "SILENT": fakes.program(tmp_path, "silent", "sys.exit(3)"),
             "OTHER": fakes.program(tmp_path, "other", f"print(open({str(EXAMPLES / 'ranging.listing')!r}).read(), end='')")}
    told = call(SCRIPTS / "solve", "--program", programs_at_hand.solver(tmp_path), *(files.get(word, word) for word in words))
    assert told.returncode == status and said in told.stdout.decode() and b"Traceback" not in told.stderr, told
    assert status < 64 or told.stderr.startswith(b"solve: "), told


@pytest.mark.parametrize("name, table, wanted", (("conflict", "rays", r"^\d+,ray,4,TABLES,-5,,$"), ("endless", "rays", r"^\d+,direction,3,BUY,,0,1$"),
    ("pararhs", "intervals", r"^4,pararhs,MORE,2,10,15,5,COOP,BS,-10,1,0,0$"),
    ("pararhs", "verdicts", r"^5,pararhs,infeasible,MIN,.*,18$"), ("punch", "others", r"^4,bcdout,NEXTWEEK,,,,,24,$"),
    ("first", "solutions", r"^5,columns,6,SHELF,UL,8,,0,8,,36,17/2$")))
def test_tables_of_listings(name, table, wanted):
    told = call(SCRIPTS / "listing2json.py", "--table", table, EXAMPLES / f"{name}.listing").stdout.decode()
    assert re.search(wanted, told, re.M), told


def test_ctrl_c(tmp_path):
    "Ctrl-C while PRIMAL runs, and while RANGE does: what was printed stands, and the program is ended too"
    # (a shell that starts this in the background has it ignore Ctrl-C, and all that it starts)
    signal.signal(signal.SIGINT, signal.default_int_handler)
    lines = (EXAMPLES / "ranging.listing").read_text().splitlines(keepends=True)
    for count, said, waits, status in ((3, "cut off before a verdict", b"waits for PRIMAL; the listing has 3 lines so far", None),
                                       (17, "OPTIMAL: the greatest PROFIT is 1038.4 = 5192/5", b"waits for RANGE", None)):
        part = tmp_path / "part.listing"
        part.write_text("".join(lines[:count]) + "PRIM")
        endless = programs_at_hand.script(tmp_path, "endless", f"echo $$ >{tmp_path}/pid\ncat {part}\nexec sleep 60\n")
        running = subprocess.Popen(command(SCRIPTS / "solve", "--program", endless, "--life", "0.2", EXAMPLES / "ranging.job"), stdout=subprocess.PIPE,
                                   stderr=subprocess.PIPE)
        seen = running.stderr.readline() + running.stderr.readline()
        assert waits in seen, f"solve: a line of life: {seen}"
        running.send_signal(signal.SIGINT)
        out, told = running.communicate(timeout=120)
        assert running.returncode == 130 and said in out.decode() and b"What was printed stands" in told and b"Traceback" not in told, \
            f"solve: Ctrl-C: {running.returncode} {out} {told}"
        pid = int((tmp_path / "pid").read_text())
        assert not pathlib.Path(f"/proc/{pid}").exists() or "zombie" in pathlib.Path(f"/proc/{pid}/status").read_text(), "solve: the program goes with it"


def test_the_page_of_reference_answers(tmp_path):
    "the commands of the page, in a folder of models, come to the table that the page shows"
    page = (places.TOP / "docs/REFERENCE_ANSWERS.md").read_text()
    blocks = re.findall(r"^```(\w+)\n(.*?)^```", page, re.M | re.S)
    commands = "".join(text for kind, text in blocks if kind == "sh")
    shown, compare = (next(text for kind, text in blocks if kind == wanted) for wanted in ("csv", "python"))
    place = tmp_path / "reference"
    (place / "models").mkdir(parents=True)
    for name, text in (("testprob", TESTPROB), ("glass", GLASS_TEXT), ("beale", BEALE), ("conflict", CONFLICT)):
        (place / f"models/{name}.mps").write_bytes(text.encode())
    for name in ("scripts", "python"):
        shutil.copytree(places.TOP / name, place / name, ignore=shutil.ignore_patterns("__pycache__"))
    shutil.copy(programs_at_hand.solver(tmp_path), place / "scripts/program")
    told = call("bash", "-ec", commands, cwd=place)
    made = place / "answers/summary.csv"
    assert told.returncode == 0 and made.exists(), f"REFERENCE_ANSWERS.md: {told.stderr.decode()}"
    without_time = [[{key: value for key, value in line.items() if key != "seconds"} for line in csv.DictReader(io.StringIO(text))]
                    for text in (made.read_text(), shown)]
    assert without_time[0] == without_time[1], f"REFERENCE_ANSWERS.md: {made.read_text()}"
    documents = {path.stem: json.loads(path.read_text()) for path in (place / "answers").glob("*.json") if path.stem != "summary"}
    results = {name: document["result"] for name, document in documents.items()}
    results = {name: (result["verdict"], result.get("objective_with_constant", result.get("objective"))) for name, result in results.items()}
    assert results == {"testprob": ("optimal", "64"), "glass": ("optimal", "36"), "beale": ("optimal", "-1/20"), "conflict": ("infeasible", None)}, \
        f"REFERENCE_ANSWERS.md: {results}"
    assert not any(True for document in documents.values() for _ in violations(document, SCHEMA)), "REFERENCE_ANSWERS.md: its JSON by the schema"
    (place / "mine.csv").write_text("name,objective\nglass,36.36\nbeale,-0.05\n")
    told = call(sys.executable, "-c", compare, cwd=place).stdout.decode()
    assert told == "beale -1/20 0.0\nglass 36 0.01\n", f"REFERENCE_ANSWERS.md: the comparison: {told}"
