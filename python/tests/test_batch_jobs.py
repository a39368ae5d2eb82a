"mps360-batch over jobs, and over models beside them: the lines, the summary, --resume, Ctrl-C, wrong use. In a house of its own (house.py tells of it)."
import gzip
import json
import re
import shutil
import signal
import subprocess
import time

import places
import pytest
from house import CHECKER, DIET, EXAMPLES, LONG_CHECKER, STATUSES, STOP, STOPPED, STUB, call, example, lines_of, make_house, make_jobs, put_program, without_rt
from oracle import listing as expected_listing

# the generated transportation problem, solved again and again: a job that never ends within a test
LONG = expected_listing.made_job(60).replace("         SETUP\n         PRIMAL\n", "LOOP     SETUP\n         PRIMAL\n         GOTO(LOOP)\n").encode()
# x is 3 and y is 1
PLAN = "Maximize\n gain: 3 x + 2 y\nSubject To\n x + y <= 4\n x - y >= -9\nBounds\n x <= 3\nEnd\n"


def made(folder, place="house/scripts"):
    "the command in a house, or as it is installed, and a folder of jobs"
    make_house(folder / "house")
    make_jobs(folder / "jobs")
    for name, stub in (("mps360", STUB), ("mps360check", CHECKER), ("mps360long", LONG_CHECKER)):
        put_program(folder / "house", name, stub)
    if place.startswith("prefix"):
        assert call(folder / "house/scripts/install.sh", folder / "prefix").returncode == 0
    return folder / place / "mps360-batch", folder / "jobs"


def objective_of(name):
    "what the batch's line of an example has behind its end"
    found = re.search(rb"^PRIMAL OPTIMAL .* OBJECTIVE (\S+)", example(name), re.M)
    return f"  objective {found[1].decode()}" if found else ""


@pytest.mark.parametrize("place", ("house/scripts", "prefix/bin"))
def test_a_batch(tmp_path, place):
    batch, folder = made(tmp_path, place)
    out = folder / "out"
    there = {"env": without_rt()}
    ended = call(batch, folder, **there)
    lines = [f"{status:>4}  {name:<24} {last}{objective_of(name)}" for name, (status, last) in sorted(STATUSES.items())]
    assert (ended.returncode, ended.stdout.decode().splitlines()) == (0, lines), ("mps360-batch: all end", ended)
    listings = {path.name: path.read_bytes() for path in (folder / "listings").glob("*.listing")}
    assert listings == {f"{name}.listing": example(name) for name in STATUSES}, "mps360-batch: the listings"
    (folder / "limit.job").write_bytes(STOPPED)
    ended = call(batch, "-j", "2", folder, out, **there)
    lines = sorted([*lines, f"  16  {'limit':<24} {STOP}"])
    assert (ended.returncode, sorted(ended.stdout.decode().splitlines())) == (3, lines), ("mps360-batch: one stops", ended)
    assert (out / "limit.listing").read_text().endswith(STOP + "\n"), "mps360-batch: into another folder"
    told = [(name, line["state"], line["status"], line["objective"]) for name, line in lines_of(out / "summary.csv").items()]
    wanted = [("conflict", "ended", "1", ""), ("endless", "ended", "2", ""), ("first", "ended", "0", "6047/4"), ("limit", "stopped", "16", "")]
    assert told == wanted, f"mps360-batch: summary.csv: {told}"
    whole = json.loads((out / "summary.json").read_text())
    told = [(job["name"], job["state"], str(job["status"]), job["objective"]) for job in whole["jobs"]]
    assert told == wanted and (whole["files"], whole["not done"], whole["states"]) == (4, 0, {"ended": 3, "stopped": 1}), \
        f"mps360-batch: summary.json: {whole}"


def test_wrong_use(tmp_path):
    batch, folder = made(tmp_path)
    out, empty, there = tmp_path / "out", tmp_path / "empty", {"env": without_rt()}
    empty.mkdir()
    for what, words, status in (("an empty folder", (empty,), 66), ("no such folder", (folder / "none",), 66),
                                ("a file", (folder / "first.job",), 66), ("no words", (), 64), ("an option", ("--all",), 64),
                                ("no process", ("-j", "0", folder), 64), ("no time", ("--time-limit", "x", folder), 64),
                                ("three words", (folder, out, out), 64), ("no such file", ("--out", out, folder / "none.job"), 66),
                                ("two of one name", ("--out", out, folder / "first.job", EXAMPLES / "first.job"), 64),
                                ("OUT is a file", (folder, folder / "first.job"), 73)):
        ended = call(batch, *words, **there)
        told = ended.stderr.startswith((b"mps360-batch: ", b"usage: ")) and ended.stderr.count(b"\n") == 1
        assert ended.returncode == status and told and not ended.stdout, (f"mps360-batch: {what}", ended)
    assert not list(empty.iterdir()), "an empty folder stays so"


def test_resume(tmp_path):
    "what is done is passed over, what is changed, lost or was stopped is run again; at the time limit a job is stopped"
    batch, folder = made(tmp_path)
    out, there = folder / "listings", {"env": without_rt()}
    call(batch, folder, **there)
    (folder / "long.job").write_bytes(LONG)
    ended = call(batch, "--resume", "--time-limit", "0.3", folder, **there)
    long = lines_of(out / "summary.csv")["long"]
    assert (ended.returncode == 3 and (long["state"], long["status"], long["end"]) == ("time limit", "", "stopped after 0.3 s")
          and not (out / "long.listing").exists() and b"stopped after 0.3 s" in ended.stdout), (f"mps360-batch --time-limit: {long}", ended)
    (folder / "long.job").write_bytes(example("first", "job"))
    (folder / "conflict.job").write_bytes(example("endless", "job"))
    (out / "endless.listing").unlink()
    # a line that was cut off, as by a want of power, counts for nothing
    with open(out / "summary.csv", "a") as file:
        file.write("first,fir")
    ended = call(batch, "--resume", folder, **there)
    told = ended.stdout.decode().splitlines()
    wanted = [f"{status:>4}  {name:<24} END {status}{objective_of(of)}" for name, status, of in (("conflict", 2, "endless"), ("endless", 2, "endless"), ("long", 0, "first"))]
    assert ended.returncode == 0 and told == wanted and b"mps360-batch: 1 of 4 are done already\n" in ended.stderr, ("mps360-batch --resume", ended)
    ended = call(batch, "--resume", folder, **there)
    assert ended.returncode == 0 and not ended.stdout and sorted(lines_of(out / "summary.csv")) == sorted([*STATUSES, "long"]), \
        ("mps360-batch --resume: all is done", ended)


def test_interrupted(tmp_path):
    "each result stands as soon as it is there; at Ctrl-C the batch says what stands, and ends what runs"
    batch, folder = made(tmp_path)
    shutil.rmtree(folder)
    folder.mkdir()
    (folder / "a.job").write_bytes(example("first", "job"))
    for k in range(20):
        (folder / f"b{k}.job").write_bytes(LONG)
    # (a shell that starts this in the background has it ignore Ctrl-C, and all that it starts)
    signal.signal(signal.SIGINT, signal.default_int_handler)
    for number, status in ((signal.SIGINT, 130), (signal.SIGTERM, 130)):
        runs = subprocess.Popen([batch, "-j", "2", folder], stdout=subprocess.PIPE, stderr=subprocess.PIPE, env=without_rt())
        summary, until = folder / "listings/summary.csv", time.monotonic() + 120
        while time.monotonic() < until and not (summary.exists() and "a," in summary.read_text()):
            time.sleep(0.02)
        assert (folder / "listings/a.listing").read_bytes() == example("first"), "mps360-batch: a result at once"
        runs.send_signal(number)
        said = runs.communicate(timeout=120)[1]
        whole = json.loads((folder / "listings/summary.json").read_text())
        done = len(whole["jobs"])
        told = f"interrupted: {done} of 21 are done and stand in".encode() in said and b"--resume goes on" in said and b"Traceback" not in said
        assert runs.returncode == status and told and 1 <= done < 21 and whole["not done"] == 21 - done, f"mps360-batch: {number.name}: {said}"
        shutil.rmtree(folder / "listings")


def test_models_beside_jobs(tmp_path):
    "MPS files beside jobs; one that mps2job.py refuses is told with its line; names that no spreadsheet and no terminal obeys"
    batch, folder = made(tmp_path)
    shutil.rmtree(folder)
    folder.mkdir()
    (folder / "diet.mps").write_text(DIET)
    (folder / "diet.job").write_bytes(example("first", "job"))
    (folder / "packed.mps.gz").write_bytes(gzip.compress(DIET.encode()))
    (folder / "wrong.mps").write_text(DIET.replace(" Y COST", " Y PRICE"))
    (folder / "plan.lp").write_text(PLAN)
    (folder / "=1+1.job").write_bytes(STOPPED)
    (folder / "\x1b[2J.job").write_bytes(STOPPED)
    ended = call(batch, folder, env=without_rt())
    lines = lines_of(folder / "listings/summary.csv")
    told = {name: (line["state"], line["objective"]) for name, line in lines.items()}
    wanted = {"diet.job": ("ended", "6047/4"), "diet.mps": ("ended", "14"), "packed": ("ended", "14"), "wrong": ("refused", ""), "plan": ("ended", "11"), "'=1+1": ("stopped", ""), "\\x1b[2J": ("stopped", "")}
    assert ended.returncode == 3 and told == wanted, (f"mps360-batch: MPS files: {told}", ended)
    said = b"mps360-batch: packed: the objective's constant is 5" in ended.stderr
    assert said, ("mps360-batch: what mps2job.py says of a file", ended)
    assert "line 7" in lines["wrong"]["end"] and b"line 7" in ended.stdout, ("mps360-batch: a refused file, with its line", ended)
    assert b"\x1b" not in ended.stdout + ended.stderr + (folder / "listings/summary.csv").read_bytes(), "mps360-batch: names are text"
    ended = call(batch, "--resume", folder, env=without_rt())
    assert ended.returncode == 3 and not ended.stdout, ("mps360-batch: all is done", ended)
    ended = call(batch, "--resume", "--mps2job=--max", folder, env=without_rt())
    assert b"diet.mps" in ended.stdout and b"diet.job" not in ended.stdout, ("mps360-batch: other words for mps2job.py", ended)
