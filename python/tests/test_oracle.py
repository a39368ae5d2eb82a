"The readings of the rules that stand apart from the product: on listings that were worked out by hand, on random jobs, and what the benches are to print."
import re

import places
import pytest
from calls import call
from mps360 import programs

RANDOM_JOBS = places.TESTS / "random_jobs.py"
JOBS = sorted(path.name for path in places.DATA.glob("*.job"))


def test_there_are_known_jobs():
    assert len(JOBS) > 30


@pytest.mark.parametrize("name", JOBS)
def test_listings_and_decks_by_hand(tmp_path, name):
    job, punch = places.DATA / name, tmp_path / "punch"
    told = call(places.ORACLE, "listing", "--punch", punch, job)
    wanted, cards = job.with_suffix(".listing").read_bytes(), job.with_suffix(".punch")
    assert told.stdout == wanted
    assert cards.read_bytes() == punch.read_bytes() if cards.exists() else not punch.exists(), "what it punches"


def test_the_generated_job():
    made = call(places.ORACLE, "listing", "--make", "2").stdout
    assert made == (b"CONVERT TRANSP   ROWS 5 COLUMNS 4 ENTRIES 12\nSETUP   TRANSP   MIN\n"
                    b"PRIMAL OPTIMAL STEPS 4 OBJECTIVE 180 CHECKED\nEND 0\n")


@pytest.mark.parametrize("words, count, told_of", (
    (("--itself", "40", "8"), 8, "optimal"), (("--itself", "--no-parametric", "--no-revise", "0", "12"), 12, "optimal"),
    (("--itself", "--decks", "0", "60"), 60, "deck 25"), (("--itself", "--sums", "0", "40"), 40, "f19"),
    (("--itself", "--no-combinations", "--no-bases", "0", "4"), 4, "optimal")))
def test_random_jobs(words, count, told_of):
    told = call(RANDOM_JOBS, *words)
    said = told.stdout.decode()
    assert told.returncode == 0 and said.startswith(f"{count} jobs, 0 differ") and told_of in said, said


@pytest.mark.parametrize("words", (("x",), ("1", "2", "3"), ("--itself", "--unproved"), ("--revise",), ("--decks", "--sums")))
def test_wrong_use_of_random_jobs(words):
    assert call(RANDOM_JOBS, *words).returncode == 64


def test_random_jobs_help():
    assert call(RANDOM_JOBS, "--help").returncode == 0


def test_random_jobs_by_the_proved_program():
    told = call(RANDOM_JOBS, "0", "20")
    if programs.proved_program():
        assert told.returncode == 0, told.stderr.decode()
    else:
        assert told.returncode == 70 and b"scripts/build.sh" in told.stderr, "no program"


@pytest.mark.parametrize("words, wanted", (
    (("transport", "4"), b"OPTIMAL STEPS 15 OBJECTIVE 130/1\n"), (("transport", "2"), b"OPTIMAL STEPS 4 OBJECTIVE 180/1\n"),
    # on a board of 2 by 2 the lines and the diagonals leave one plan, a half on each square
    (("transport", "queens", "2"), b" OBJECTIVE 9/2\n")))
def test_paths_of_generated_problems(words, wanted):
    assert call(places.ORACLE, *words).stdout.endswith(wanted)


def test_what_the_program_bench_is_to_print():
    assert call(places.ORACLE, "bench").stdout == (programs.TOP / "crates/bench/stdout").read_bytes()


def test_path_widths(tmp_path):
    "the rates become 1/2 and 3/2, LOW 8 and COST 12"
    deck, script = tmp_path / "deck", places.DEV / "bench/path_widths.py"
    deck.write_text("NAME          ONE\nROWS\n N  COST\n G  LOW\nCOLUMNS\n    X         COST      3              LOW       2\nRHS\n    B         LOW       8\nENDATA\n")
    assert call(script, "--all", deck).stdout == b"1 of 1 paths have no rate or needed value of more than 127 bits\n"
    assert call(script, input=deck.read_bytes()).stdout == b"OPTIMAL STEPS 1: rates 2 bits, values of variables with limits 4, objective 4\n"


def test_a_timed_run(tmp_path):
    job = tmp_path / "job"
    job.write_text("a first line\nEND 0\n")
    timed = call(places.DEV / "bench/timed.py", job, "cat").stdout.decode()
    assert re.fullmatch(r"END 0: 0\.\d{3} s, \d+\.\d MB\n", timed), timed
