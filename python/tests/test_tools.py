"The commands on examples whose results are known from outside, and on hostile inputs. What needs the proved program is left out where it isn't fresh."
import json
import os
import re
import subprocess

import places
import pytest
from book_models import BEALE, GLASS, TESTPROB
from calls import call
from mps360 import programs

SCRIPTS = places.SCRIPTS
DOOMED = {
    "a MARKER": ("    M1  'MARKER'  'INTORG'\n", "MARKER"),
    "a long number": ("    X  COST  0.123456789123456789123456789123456789123\n", "more than 38 digits"),
    "an unknown row": ("    X  PROFIT  1\n", "PROFIT"),
}


def lists_of(job):
    "the listing of a job by the reading of the rules apart and, where it is there, by the proved program"
    yield call(places.ORACLE, "listing", job).stdout
    if program := programs.proved_program():
        with open(job, "rb") as given:
            yield subprocess.run([program], stdin=given, stdout=subprocess.PIPE, check=False).stdout


@pytest.mark.parametrize("name, text, objective, constant", (("testprob", TESTPROB, "54", "64"), ("glass", GLASS, "36", None), ("beale", BEALE, "-1/20", None)))
def test_models_of_books(tmp_path, name, text, objective, constant):
    mps, job, names, listing = (tmp_path / f"{name}.{ending}" for ending in ("mps", "job", "names", "listing"))
    mps.write_bytes(text.encode())
    made = call(SCRIPTS / "mps2job.py", mps, "-o", job, "--names", names)
    assert made.returncode == 0, made
    for printed in lists_of(job):
        listing.write_bytes(printed)
        told = call(SCRIPTS / "listing2json.py", "--names", names, listing)
        verdict = next(report for report in json.loads(told.stdout)["reports"] if report["report"] == "verdict")
        assert verdict.get("objective") == objective and verdict.get("objective_with_constant") == constant
        if name == "glass":
            table = call(SCRIPTS / "listing2json.py", "--csv", "--names", names, listing).stdout.decode()
            assert "doors_batches,BS,2," in table and "windows_batches,BS,6," in table


@pytest.mark.parametrize("what, line, said", [(what, *words) for what, words in DOOMED.items()])
def test_refused_with_the_line(tmp_path, what, line, said):
    path = tmp_path / "doomed.mps"
    path.write_text(f"NAME D\nROWS\n N  COST\nCOLUMNS\n    A  COST  1\n{line}ENDATA\n")
    told = call(SCRIPTS / "mps2job.py", path)
    assert told.returncode == 65 and b"line 6:" in told.stderr and said.encode() in told.stderr, what


@pytest.mark.parametrize("words, status", (((), 65), (("--negative-up", "free"), 0), (("--negative-up", "keep"), 0)))
def test_a_negative_up_wants_its_option(tmp_path, words, status):
    path = tmp_path / "negative.mps"
    path.write_text("NAME D\nROWS\n N COST\nCOLUMNS\n X COST 1\nBOUNDS\n UP BND X -1\nENDATA\n")
    assert call(SCRIPTS / "mps2job.py", *words, path).returncode == status


def test_listings_worked_out_by_hand():
    "listing2json.py on RANGE, a parametric run, punched decks, a deck that is inserted, and what follows a stop, as worked out by hand"
    def told(name):
        return json.loads(call(SCRIPTS / "listing2json.py", places.DATA / f"{name}.listing").stdout)

    def reports(name, kind):
        return [report for report in told(name)["reports"] if report["report"] == kind]
    line = reports("range-testprob", "ranges")[0]["columns_at_limit"][0]
    assert (line["name"], line["limit_high"], line["cost_low"], line["cost_high"]) == ("YTWO", "1", "-8", None), f"listing2json.py: RANGE: {line}"
    run = reports("pararhs-infeasible-past", "parametric")[0]
    ends = run["change"], run["end"], run["at"], run["ray"][0]["multiplier"], run["intervals"][0]["to"], run["intervals"][0]["lines"][2]["value_rate"]
    assert ends == ("C", "infeasible", "2", "-1", "2", "1"), f"listing2json.py: PARARHS: {ends}"
    assert reports("bcdout-one", "bcdout") == [{"report": "bcdout", "name": "ONE", "cards": 10}], "listing2json.py: BCDOUT"
    assert reports("insert-basis", "punch") == [{"report": "punch", "name": "TESTPROB", "cards": 4}], "listing2json.py: PUNCH"
    assert reports("insert-basis", "insert") == [{"report": "insert", "name": "TESTPROB", "basic": 2}], "listing2json.py: INSERT"
    verdict = reports("dual-infeasible", "verdict")[0]
    assert (verdict["by"], verdict["verdict"], [line["multiplier"] for line in verdict["ray"]]) == ("dual", "infeasible", ["-1", "1"]), \
        f"listing2json.py: DUAL: {verdict}"
    dependency = [(line["name"], line["value"]) for line in told("insert-dependency")["end"]["dependency"]]
    assert dependency == [("COST", "-1"), ("D", "1"), ("P", "-2"), ("Q", "1")], f"listing2json.py: fault 15: {dependency}"
    assert told("dual-wrong-prices")["end"]["variable"] == 2, "listing2json.py: fault 16"


def test_minutes():
    "how long scripts/build.sh takes is the same everywhere"
    told = {}
    for path in [programs.TOP / "README.md", *sorted((programs.TOP / "docs").glob("*.md")), *sorted(SCRIPTS.iterdir())]:
        if path.is_file():
            for found in re.finditer(r"build\.sh[^.\n]{0,80}?(?:some|about) (\d+)(?: minutes)?|first time takes (?:some|about) (\d+) minutes", path.read_text()):
                told.setdefault(found[1] or found[2], []).append(path.name)
    assert len(told) == 1, f"minutes: {told}"


MPS = b"mps2job.py makes a job of it"


@pytest.mark.parametrize("what, content, wanted", (
    ("an MPS file", TESTPROB, MPS), ("one with carriage returns", GLASS, MPS), ("a byte order mark", "\xef\xbb\xbf         PROGRAM\n", b"(BOM)"),
    ("a job", "*\n         PROGRAM\n", None), ("a label", "NAME     PROGRAM\n", None)))
def test_what_mps360_says_of_a_file_that_begins_like_no_job(tmp_path, what, content, wanted):
    path = tmp_path / "hint"
    path.write_bytes(content.encode("latin-1"))
    told = call(SCRIPTS / "mps360", path, env={**os.environ, "MPS360_PROVED": "1", "PATH": "/usr/bin:/bin"}).stderr
    assert wanted in told if wanted else b"mps360: the file begins" not in told, what


def test_a_files_name_is_shown_as_text():
    told = call(SCRIPTS / "mps360", "a\x1b[2Jb")
    assert told.returncode == 66 and b"\x1b" not in told.stderr


@pytest.mark.parametrize("name", sorted(path.name for path in SCRIPTS.iterdir() if path.is_file()))
def test_help_from_another_folder(tmp_path, name):
    "each command says what it is for, called from another folder, and does nothing else"
    for command, folder in ((f"./{name}", SCRIPTS), (str(SCRIPTS / name), tmp_path)):
        told = subprocess.run([command, "--help"], cwd=folder, capture_output=True, timeout=120, check=False)
        assert told.returncode == 0 and told.stdout and not told.stderr


HOSTILE = {"empty": b"", "binary": bytes(range(256)) * 40, "long": b"X" * 20_000_000}


@pytest.mark.parametrize("name", HOSTILE)
def test_hostile_files(tmp_path, name):
    path = tmp_path / name
    path.write_bytes(HOSTILE[name])
    for script in ("mps2job.py", "listing2json.py"):
        assert call(SCRIPTS / script, path).returncode == 65, script
    assert call(SCRIPTS / "explain", path, path).returncode == (65 if HOSTILE[name] else 0)


@pytest.mark.parametrize("script, is_second", (("mps2job.py", False), ("listing2json.py", False), ("explain", True), ("mps360", False)))
def test_what_cant_be_read(tmp_path, script, is_second):
    words = (tmp_path,) if is_second else ()
    assert call(SCRIPTS / script, *words, tmp_path).returncode == 66, "a folder"
    assert call(SCRIPTS / script, *words, tmp_path / "none").returncode == 66, "no such file"


def test_wrong_use_of_mps360(tmp_path):
    assert call(SCRIPTS / "mps360", "a", "b").returncode == 64 and call(SCRIPTS / "mps360", "--all").returncode == 64
    assert call(SCRIPTS / "mps360-batch", tmp_path / "none").returncode == 66
    assert call(SCRIPTS / "mps360", "--version").stdout.startswith(b"mps360 ")
    words = {**os.environ, "PATH": "/usr/bin:/bin", "MPS360_UNPROVED": "1"}
    if not any(os.path.exists(f"{place}/rt") for place in ("/usr/bin", "/bin")):
        assert call(SCRIPTS / "mps360", places.EXAMPLES / "store.job", env=words).returncode in (0, 70), "no rt: the program that was compiled before, or none"


def test_the_proved_program(tmp_path):
    if not programs.proved_program():
        pytest.skip("no fresh proved program")
    job = (places.EXAMPLES / "store.job").read_bytes()
    for content, status in {b"": 8, HOSTILE["binary"]: 13, HOSTILE["long"]: 13, job.replace(b"\n", b"\r\n"): 0}.items():
        assert call(SCRIPTS / "mps360", input=content).returncode == status, content[:20]
    link = tmp_path / "link"
    link.symlink_to(SCRIPTS / "mps360")
    wanted = (places.EXAMPLES / "store.listing").read_bytes()
    assert call(link, input=job, cwd=tmp_path).stdout == wanted, "through a symbolic link, from a pipe"
