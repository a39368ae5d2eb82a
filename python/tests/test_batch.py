"""mps360-batch over MPS files, which it solves by the routes: the summary, what is passed over, and its ends. It runs in a copy of the commands, where
a stand-in for the installed program gives up at the opening basis and works out what follows a basis by the reading of the rules that stands apart."""
import csv
import json
import os
import pty
import re
import shutil
import subprocess
import sys
import time

import fakes
import places
import pytest
from test_routes import GOOD_DECK
from test_solvers import GLASS

WITH_CONSTANT = GLASS.replace("RHS\n", "RHS\n B PROFIT -5\n")
WRONG = GLASS.replace(" windows P2 2", " windows P9 2")
PROGRAM = """
    import subprocess
    job = sys.stdin.read()
    if "         INSERT\\n" not in job:
        if {hangs!r}:
            open(os.environ["FAKE_PIDS"], "a").write(f"{{os.getpid()}}\\n")
            import time
            time.sleep(600)
        print("TITLE FAKE")
        print("STOP 20 OVERFLOW F2 MUL 1 2")
        sys.exit(20)
    sys.exit(subprocess.run([{python!r}, {oracle!r}, "listing"], input=job.encode()).returncode)
"""
CLP = "\n    print('Coin LP version 9.8.7, build')" + fakes.WRITES


class House:
    "a copy of the commands, a folder of solvers that is the whole path, and a folder of models"

    def __init__(self, folder, hangs=False):
        self.folder, self.models, self.path = folder, folder / "models", folder / "path"
        for name in ("scripts", "python"):
            shutil.copytree(places.TOP / name, folder / name, ignore=shutil.ignore_patterns("__pycache__", "data", "oracle"))
        for place in (self.models, self.path):
            place.mkdir()
        fakes.program(folder / "scripts", "program", PROGRAM, hangs=hangs, python=sys.executable, oracle=str(places.ORACLE))
        fakes.program(self.path, "clp", CLP, content=GOOD_DECK)
        (self.models / "glass.mps").write_text(WITH_CONSTANT)

    def batch(self, *words):
        "the status, standard output and standard error"
        env = {**os.environ, "PATH": str(self.path), "FAKE_PIDS": str(self.folder / "pids")}
        ended = subprocess.run([sys.executable, self.folder / "scripts/mps360-batch", *words, self.models], capture_output=True, timeout=120, check=False, env=env)
        return ended.returncode, ended.stdout.decode(), ended.stderr.decode()

    def summary(self):
        with open(self.models / "listings/summary.csv", newline="", encoding="utf-8") as lines:
            return {line["name"]: line for line in csv.DictReader(lines)}


def test_by_a_solvers_basis(tmp_path):
    house = House(tmp_path)
    status, _, said = house.batch("--with", "clp")
    assert status == 0, said
    line = house.summary()["glass"]
    assert (line["state"], line["status"], line["objective"], line["proved"], line["proved_by"]) == ("ended", "0", "41", "yes", "program")
    assert line["route"] == "INSERT of clp's basis and PRIMAL (clp 9.8.7)"
    assert "the objective's constant is 5" in line["notes"] and f"mps360-batch: glass: {line['notes'].split(';')[0]}" in said
    whole = json.loads((house.models / "listings/summary.json").read_text())
    assert whole["jobs"][0]["route"] == line["route"] and whole["states"] == {"ended": 1}
    assert "         INSERT\n" in (house.models / "listings/glass.job").read_text()
    assert (house.models / "listings/glass.listing").read_text().endswith("END 0\n") and (house.models / "listings/glass.names").exists()


def test_a_line_on_a_terminal(tmp_path):
    "one line that is written over says how many are done and what the longest one does; the result's line comes in its place"
    house = House(tmp_path, hangs=True)
    reads, writes = pty.openpty()
    env = {**os.environ, "PATH": str(house.path), "FAKE_PIDS": str(house.folder / "pids")}
    ended = subprocess.run([sys.executable, house.folder / "scripts/mps360-batch", "--with", "none", "--seconds", "3", house.models], stdout=writes, stderr=writes,
                           timeout=120, check=False, env=env)
    os.write(writes, b".")
    told = b""
    while not told.endswith(b"."):
        told += os.read(reads, 10_000)
    os.close(reads)
    os.close(writes)
    line = re.search(r"mps360-batch: \d s, 0 of 1 done, 1 running, the longest since \d s: glass\r( +)\r", told.decode())
    assert ended.returncode == 3 and line and len(line[1]) == len(line[0]) - len(line[1]) - 2, told
    assert re.search(rb"[\r\n]none  glass +stopped after 3 s\r\n", told), told


def test_what_comes_to_no_answer(tmp_path):
    house = House(tmp_path)
    (house.models / "wrong.mps").write_text(WRONG)
    for words, status in (("--with", "none"), 3), (("--with", "none", "--old-codes"), 1):
        found, text, said = house.batch(*words)
        assert found == status, said
    lines = house.summary()
    assert (lines["glass"]["state"], lines["glass"]["status"], lines["glass"]["end"]) == ("stopped", "20", "STOP 20 OVERFLOW F2 MUL 1 2")
    assert (lines["glass"]["objective"], lines["glass"]["proved_by"]) == ("", "none")
    assert lines["wrong"]["state"] == "refused" and ": line " in lines["wrong"]["end"] and "P9" in lines["wrong"]["end"] and lines["wrong"]["end"] in text


def test_a_limit_of_seconds(tmp_path):
    "nothing is left of what the child ran"
    house = House(tmp_path, hangs=True)
    begun = time.monotonic()
    status, text, _ = house.batch("--seconds", "6", "--with", "none")
    assert status == 3 and "stopped after 6 s" in text and time.monotonic() - begun < 120
    assert house.summary()["glass"]["state"] == "time limit" and not (house.models / "listings/glass.listing").exists()
    assert fakes.left_over(tmp_path / "pids") == []


def test_resume_goes_by_the_words(tmp_path):
    "a summary of before, without the columns of the routes, counts too"
    house = House(tmp_path)
    assert house.batch("--with", "clp")[0] == 0
    summary = house.models / "listings/summary.csv"
    with open(summary, newline="", encoding="utf-8") as lines:
        table = [line[:9] for line in csv.reader(lines)]
    with open(summary, "w", newline="", encoding="utf-8") as out:
        csv.writer(out).writerows(table)
    status, text, said = house.batch("--resume", "--with", "clp")
    assert (status, text) == (0, "") and "1 of 1 are done already" in said
    assert (house.summary()["glass"]["objective"], house.summary()["glass"]["route"]) == ("41", "")
    status, text, _ = house.batch("--resume", "--with", "none")
    assert status == 3 and "STOP 20" in text


@pytest.mark.parametrize("words, status, cause", [
    (("--with", "cplex"), 64, "no solver cplex"), (("--with", "glpsol"), 70, "glpsol isn't installed (apt-get install glpk-utils)"), (("--seconds", "-1"), 64, "--seconds"),
    (("--seconds", "x"), 64, "'x' isn't a number of seconds"), (("-j", "0"), 64, "'0' isn't a whole number from 1 on"), (("-j", "two"), 64, "'two' isn't a whole number from 1 on"),
    (("--mps2job=--neglect",), 64, "--mps2job: "), (("--mps2job", "--neglect"), 64, "--mps2job: unrecognized arguments: --neglect"), (("--mps2job='",), 64, "--mps2job: "), (("--mps2job=--infinity x",), 64, "--mps2job: --infinity: x isn't a number")])
def test_wrong_words_are_wrong_at_once(tmp_path, words, status, cause):
    house = House(tmp_path)
    found, text, said = house.batch(*words)
    assert (found, text) == (status, "") and cause in said and said.count("\n") == 1, said
    assert not (house.models / "listings").exists()


# ---- what is lost, and what isn't

WRITES_NOTHING = """
    sys.stdin.read()
    if os.path.exists({full!r}):
        sys.exit(25)
    print("TITLE FAKE")
    print("PRIMAL OPTIMAL STEPS 1 OBJECTIVE 7/2 CHECKED")
    print("END 0")
"""


def jobs_house(folder):
    "a house with jobs alone; while the file full is there, no listing can be written"
    house = House(folder)
    (house.models / "glass.mps").unlink()
    for name in "abc":
        (house.models / f"{name}.job").write_text("         PROGRAM\n")
    fakes.program(folder / "scripts", "program", WRITES_NOTHING, full=str(folder / "full"))
    return house


def test_a_full_disk_is_no_answer(tmp_path):
    "the batch ends at the first listing that can't be written, and --resume runs that file too"
    house = jobs_house(tmp_path)
    (tmp_path / "full").touch()
    status, text, said = house.batch()
    assert (status, text) == (73, "")
    assert said.split("\n")[-2] == ("mps360-batch: a: the listing couldn't be written (status 25): the batch ends here, with 0 of 3 done; --resume goes on with "
                                    "the others")
    assert house.summary() == {}
    (tmp_path / "full").unlink()
    status, text, _ = house.batch("--resume")
    assert status == 0 and text.split("\n")[0] == "   0  a                        END 0  objective 7/2" and set(house.summary()) == set("abc")


def test_a_full_disk_below_solve(tmp_path):
    "a file that can't be written by the child which solves an MPS file"
    house = House(tmp_path)
    fakes.program(tmp_path / "scripts", "program", WRITES_NOTHING, full=str(tmp_path / "full"))
    (tmp_path / "full").touch()
    status, text, said = house.batch("--with", "none")
    assert (status, text, house.summary()) == (73, "", {}) and "the batch ends here, with 0 of 1 done" in said


def test_statuses_of_devices_of_an_earlier_batch(tmp_path):
    "an older summary may have a full disk as an answer: it is run again"
    house = jobs_house(tmp_path)
    assert house.batch()[0] == 0
    path = house.models / "listings/summary.csv"
    path.write_text(path.read_text().replace(",ended,0,7/2,", ",stopped,25,,", 1))
    status, text, _ = house.batch("--resume")
    assert status == 0 and text == "   0  a                        END 0  objective 7/2\n"


def test_an_earlier_summary_is_kept(tmp_path):
    house = jobs_house(tmp_path)
    out = house.models / "listings"
    assert house.batch()[0] == 0
    first = (out / "summary.csv").read_bytes(), (out / "summary.json").read_bytes()
    for name in "bc":
        (house.models / f"{name}.job").unlink()
    status, _, said = house.batch()
    assert status == 0 and f"the summary of an earlier batch is {out / 'summary-1.csv'} now; --resume goes on with that batch" in said
    assert ((out / "summary-1.csv").read_bytes(), (out / "summary-1.json").read_bytes()) == first
    second = (out / "summary.csv").read_bytes()
    assert set(house.summary()) == {"a"} and house.batch()[0] == 0
    assert (out / "summary-1.csv").read_bytes() == first[0] and (out / "summary-2.csv").read_bytes() == second
    assert house.batch("--resume")[0] == 0 and not (out / "summary-3.csv").exists()


def test_lines_that_nobody_reads(tmp_path):
    "the results are kept, and the loss of the lines is told in the end"
    house = jobs_house(tmp_path)
    if not os.path.exists("/dev/full"):
        pytest.skip("there is no /dev/full")
    env = {**os.environ, "PATH": str(house.path)}
    with open("/dev/full", "wb") as full:
        ended = subprocess.run([sys.executable, tmp_path / "scripts/mps360-batch", house.models], stdout=full, stderr=subprocess.PIPE, timeout=120, check=False, env=env)
    assert ended.returncode == 73 and ended.stderr.endswith(b"mps360-batch: can't write to standard output: No space left on device\n"), ended
    assert set(house.summary()) == set("abc")


def test_the_compiled_program_is_taken(tmp_path):
    "where no program is installed, that which was compiled of these sources before runs at once; nothing is compiled"
    house = jobs_house(tmp_path)
    (tmp_path / "scripts/program").unlink()
    (tmp_path / "crates/mps360").mkdir(parents=True)
    (tmp_path / "crates.txt").write_text("mps360:\n")
    code = "import sys; sys.path.insert(0, sys.argv[1]); from mps360 import unproved; print(unproved.place_of('mps360') / unproved.key('mps360'))"
    env = {**os.environ, "PATH": str(house.path) + ":/bin:/usr/bin", "XDG_CACHE_HOME": str(tmp_path / "cache")}
    fakes.program(house.path, "rt", "sys.exit('rt was called')")
    place = subprocess.run([sys.executable, "-c", code, tmp_path / "python"], stdout=subprocess.PIPE, check=True, env=env).stdout.decode().strip()
    os.makedirs(place)
    fakes.program(place, "program", WRITES_NOTHING, full=str(tmp_path / "full"))
    ended = subprocess.run([sys.executable, tmp_path / "scripts/mps360-batch", house.models], capture_output=True, timeout=120, check=False, env=env)
    assert ended.returncode == 0 and b"running UNPROVED" in ended.stderr and b"rt was called" not in ended.stderr, ended
    assert ended.stdout.startswith(b"   0  a                        END 0  objective 7/2\n")
