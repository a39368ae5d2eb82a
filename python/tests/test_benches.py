"""The benches of dev/bench on the smallest size, or over a stand-in for the program, which answers at once: they run, and print a line for each part. And each
script that a page names is called by a test."""
import os
import pathlib
import re
import shutil
import subprocess
import sys

import fakes
import places
import programs_at_hand
import pytest
from calls import call
from mps360 import programs

BENCH = places.DEV / "bench"
ANSWERS = "sys.stdin.buffer.read()\nprint('END 0')"
TIMED = re.compile(rb"END 0: \d+\.\d{3} s, \d+\.\d MB")


def ran(status, *words, **more):
    "what a bench prints, which ended with this status and without a traceback"
    ended = call(*words, timeout=600, **more)
    assert ended.returncode == status and b"Traceback" not in ended.stderr, ended
    return ended.stdout


def needs(*names):
    missing = [name for name in names if not shutil.which(name)]
    if missing:
        pytest.skip(f"{', '.join(missing)} isn't installed")


def stub(folder):
    "a program that reads its job and ends with 0"
    return programs_at_hand.script(folder, "stub", "cat >/dev/null\necho END 0\n")


@pytest.mark.parametrize("name, lines", (("bench_converting.sh", 10), ("bench_revising.sh", 4), ("bench_reading.sh", 1)))
def test_benches_of_decks(tmp_path, name, lines):
    "they write the decks, and time a stand-in for the program over each"
    assert len(TIMED.findall(ran(0, BENCH / name, stub(tmp_path)))) == lines


@pytest.mark.parametrize("words, rows", ((("--dense", "1"), 16), (("--queens", "2"), 7), (("--transportation", "2"), 5), (("--sparse",), 300), (("--narrow",), 1000)))
def test_decks_of_the_path(words, rows):
    "the deck is one, of so many rows"
    deck = ran(0, BENCH / "bench_path.sh", *words).decode()
    assert deck.startswith("NAME") and deck.endswith("ENDATA\n")
    assert len(deck[deck.index("ROWS\n"):deck.index("COLUMNS\n")].split("\n")) - 2 == rows


def test_the_bench_of_the_path(tmp_path):
    printed = ran(0, BENCH / "bench_path.sh", "--part", "dense", stub(tmp_path))
    assert b"50" in printed


def test_the_bench_of_bases(tmp_path):
    needs("clp")
    printed = ran(0, BENCH / "bench_bases.py", "--models", "1", "--rows", "3", "--seconds", "60", programs_at_hand.solver(tmp_path))
    assert printed.count(b"\n") >= 4
    assert ran(0, BENCH / "bench_bases.py", "--model", "3", "0", "1").startswith(b"NAME")


def test_a_run_of_the_bench_of_bases_ends_by_its_processor_seconds(tmp_path):
    "a program that sleeps past them comes to its answer, one that works past them doesn't, and one with 20 stopped; at 0 seconds is no use"
    program = programs_at_hand.script(tmp_path, "program", """case $(cat) in
        *S3D0N1*) sleep 1.5; echo END 0 ;;
        *S3D1N1*) while :; do :; done ;;
        *) echo STOP 20 OVERFLOW; exit 20 ;;
        esac\n""")
    printed = ran(0, BENCH / "bench_bases.py", "--opening", "--models", "1", "--rows", "3", "--seconds", "1", program).decode()
    assert printed.splitlines()[2:] == ["| 0 | 1 |", "| 1 | 0, 1 not ended |", "| 2 | 0 |"]
    ran(64, BENCH / "bench_bases.py", "--seconds", "0", program)


def test_the_bench_of_attesting():
    needs("esolver")
    assert ran(0, BENCH / "bench_attesting.py", "--itself", "--models", "1", "--rows", "3", "--seconds", "60").count(b"\n") >= 4


def test_the_bench_beside_another_solver(tmp_path):
    "a program with another objective ends it"
    needs("esolver")
    assert b"Traceback" not in ran(64, BENCH / "bench_beside.py", "--runs", "0")
    ran(1, BENCH / "bench_beside.py", "--runs", "1", "--program", fakes.program(tmp_path, "other", ANSWERS))


def test_the_bench_of_operations(tmp_path):
    "20 turns of a stand-in for crates/bench"
    (tmp_path / "program").write_text("#!/bin/sh\n")
    (tmp_path / "program").chmod(0o755)
    printed = ran(0, BENCH / "bench.sh", "20", tmp_path / "program").decode()
    assert [line.split()[0] for line in printed.splitlines()] == ["table", "whole", "short", "word", "related", "wide", "close", "pivot", "widepivot"]


def test_a_refused_allocation(tmp_path):
    "a program that allocates nothing has one run"
    needs("cc")
    (tmp_path / "a.c").write_text('#include <unistd.h>\nint main(void) { char c[1]; while (read(0, c, 1) == 1); return write(1, "END 0\\n", 6) != 6; }\n')
    subprocess.run(["cc", "-o", tmp_path / "a", tmp_path / "a.c"], check=True)
    assert ran(0, BENCH / "refuse_memory.py", tmp_path / "a", places.EXAMPLES / "store.job")


def test_the_bench_of_the_python_side():
    "once each, and wrong use"
    assert ran(0, BENCH / "bench_python.py", "--runs", "1").count(b"\n") >= 3
    ran(64, BENCH / "bench_python.py", "--runs", "x")


def test_the_size_of_the_source():
    assert b"lines" in ran(0, places.DEV / "source_numbers.py")


@pytest.mark.parametrize("words, status, said", (
    (("--help",), 0, b"Builds the libraries of a checkout side by side"), (("--lanes", "x"), 64, b"usage: libraries.py"), ((), 1, b"no command rt on the path")))
def test_libraries_without_rt(tmp_path, words, status, said):
    ended = call(sys.executable, places.DEV / "libraries.py", *words, env={"PATH": str(tmp_path)})
    assert ended.returncode == status and said in ended.stdout + ended.stderr


def test_libraries(tmp_path):
    "two crates of which the store has one; of a crate that isn't there it is said"
    needs("rt")
    kit = ran(0, "rt", "version")
    if b"kit-13b" not in kit:
        pytest.skip(f"it is for the inside of kit 13b, and this is {kit!r}")
    for name in ("low", "high"):
        (tmp_path / "crates" / name / "src").mkdir(parents=True)
        (tmp_path / "crates" / name / "src/lib.rt").write_text("#![tactic(auto)]\n")
    (tmp_path / "crates.txt").write_text("low:\nhigh: low\n")
    subprocess.run(["git", "init", "-q", tmp_path], check=True)
    words = (sys.executable, places.DEV / "libraries.py", "--only-give", "--store", tmp_path / "store")
    assert ran(0, *words, cwd=tmp_path) == b"0 are there, 2 aren't: low high\n"
    assert call(*words, "other", cwd=tmp_path).stderr == b"libraries.py: no library is named other\n"


@pytest.mark.parametrize("name, words, status", (
    ("random_mps.py", ("1", "7"), 0), ("random_mps.py", ("x",), 64), ("solver_bases.py", ("--fresh", "1", "7"), 0), ("solver_bases.py", ("--fresh",), 64),
    ("altered_listings.py", ("0", "2"), 0), ("altered_cases.py", (places.DATA / "long_listings.jsonl", "0", "2"), 0)))
def test_tools_that_make_cases_at_random(name, words, status):
    ran(status, places.TESTS / name, *words)


@pytest.mark.parametrize("name", sorted(path.name for path in BENCH.iterdir() if path.is_file()))
def test_help(name):
    assert ran(0, BENCH / name, "--help")


# ---- what pages name

NAMED = re.compile(r"\b((?:scripts|dev|python/tests|python/oracle)/[A-Za-z0-9_/-]+(?:\.py|\.sh)?)(?=[`\s,;:.)])")


def scripts_of_pages():
    "the scripts that pages name, from the top of the repository"
    for page in [places.TOP / "README.md", *sorted((places.TOP / "docs").glob("*.md"))]:
        for found in NAMED.finditer(page.read_text(encoding="utf-8")):
            path = places.TOP / found[1]
            if path.is_file() and os.access(path, os.X_OK) and "tests/test_" not in found[1]:
                yield found[1]


def test_each_script_that_a_page_names_is_called_by_a_test():
    tests = {path.name: path.read_text(encoding="utf-8") for path in places.TESTS.glob("*.py")}
    # dev/check.sh runs these tests, and is called by scripts/check.sh; both call what stands in the second row
    by_check = (places.DEV / "check.sh").read_text(encoding="utf-8")
    named = sorted(set(scripts_of_pages()))
    assert len(named) > 20
    missing = [script for script in named if script not in by_check and script not in ("dev/check.sh", "scripts/check.sh")
               and not any(re.search(rf"[\"'/ ]{re.escape(pathlib.Path(script).name)}[\"' ]", text) for name, text in tests.items() if name != pathlib.Path(script).name)]
    assert missing == []


def test_there_is_a_program_for_memory():
    "try_memory.sh builds and runs the proved program, which no test here does"
    if not programs.proved_program():
        pytest.skip("no fresh proved program")
    assert ran(0, BENCH / "try_memory.sh", "1")
