"What commands advise leads somewhere: the advice is followed."
import json
import os
import re
import shlex
import subprocess
import sys

import fakes
import places
import programs_at_hand
import pytest
from mps360 import commands
from mps360.cli import explain, words

HEAD = "NAME  TINY\nOBJSENSE\n MAX\nROWS\n N GAIN\n L LIMIT_OF_X\n G LEAST\nCOLUMNS\n X GAIN 3 LIMIT_OF_X 1\n X LEAST 2\n LONG_NAMED GAIN 1\nRHS\n B LIMIT_OF_X 7\n"
BOUNDED = "BOUNDS\n UP BND LONG_NAMED 9\nENDATA\n"
PLAIN = HEAD + BOUNDED
CONFLICT = HEAD + " B LEAST 21\n" + BOUNDED
CROSSED = HEAD + "BOUNDS\n UP BND LONG_NAMED 3\n LO BND LONG_NAMED 5\nENDATA\n"
NEGATIVE = HEAD + "BOUNDS\n UP BND LONG_NAMED -1\nENDATA\n"
OVERFLOW = "STOP 20 OVERFLOW F10 MUL 1/2 -3 P 0 Q 0 I 2 J 3 TERM 0 THETA 0 CARD 6"


def run(*command, status=0, **more):
    "what a command of scripts/ prints, and what it says"
    ended = subprocess.run([sys.executable, places.SCRIPTS / command[0], *command[1:]], stdout=subprocess.PIPE, stderr=subprocess.PIPE, timeout=120,
                           check=False, **more)
    assert ended.returncode == status and b"Traceback" not in ended.stderr, ended
    return ended.stdout.decode(), ended.stderr.decode()


def written(folder, name, text):
    path = folder / name
    path.write_bytes(text if isinstance(text, bytes) else text.encode())
    return path


# ---- explain

def test_what_explains_an_overflow(tmp_path):
    "solve names the command that explains the stop, and that does so"
    model = written(tmp_path, "model.mps", PLAIN)
    program = fakes.program(tmp_path, "program", f"sys.stdin.read()\nprint({OVERFLOW!r})\nsys.exit(20)")
    told, _ = run("solve", "--with", "none", "--program", program, "--max", model, status=20)
    assert f"The run stopped: {OVERFLOW}. scripts/explain --max {model} says what that means." in told
    told, _ = run("solve", "--with", "none", "--program", program, "--keep", tmp_path / "kept", model, status=20)
    command = re.search(r"scripts/(explain .*) says what that means\.", told)[1]
    assert "It means: " in run(*shlex.split(command))[0]
    listing = written(tmp_path, "listing", "TITLE TINY\n" + OVERFLOW + "\n")
    told, _ = run("explain", model, listing)
    assert "It means: " in told and told.endswith("In the job R0000001 is LIMIT_OF_X, C0000001 is LONG_NAMED.\n")


def test_a_model_from_standard_input(tmp_path):
    program = fakes.program(tmp_path, "program", f"sys.stdin.read()\nprint({OVERFLOW!r})\nsys.exit(20)")
    told, _ = run("solve", "--with", "none", "--program", program, "-", status=20, input=PLAIN.encode())
    assert "--keep FOLDER keeps the job and the listing, and scripts/explain FOLDER/model.job FOLDER/model.listing says" in told


def test_a_model_is_explained_as_its_job(tmp_path):
    model = written(tmp_path, "model.mps", PLAIN)
    assert explain.is_model(model.read_bytes(), "model.mps")
    text, names = explain.job_text(model.read_bytes(), ["--min"], str(model))
    assert text.startswith("         PROGRAM\n") and "'MAX'" not in text and names["C0000001"] == "LONG_NAMED"
    assert not explain.is_model((places.EXAMPLES / "first.job").read_bytes(), "first.job")


def test_a_listing_alone():
    told, _ = run("explain", places.EXAMPLES / "conflict.listing")
    assert told.startswith("END 1\n") and "x CHAIRS" in told
    told, _ = run("explain", places.EXAMPLES / "faults/deck-06.listing") if (places.EXAMPLES / "faults/deck-06.listing").exists() else ("It means", "")
    assert "It means" in told


def test_a_stop_alone(tmp_path):
    told, _ = run("explain", written(tmp_path, "listing", "STOP 12 DECK FAULT 6 CARD 99\n"))
    assert "It means: " in told and "What to do: " in told


def test_words_with_a_job():
    _, told = run("explain", "--max", places.EXAMPLES / "first.job", places.EXAMPLES / "first.listing", status=64)
    assert told == f"explain: --max is a word for an MPS file, and {places.EXAMPLES / 'first.job'} is none\n"


# ---- words

@pytest.mark.parametrize("given, made", (
    (["--negative-up", "free", "model"], ["--negative-up=free", "model"]),
    (["--negative-up=free", "model"], ["--negative-up=free", "model"]),
    (["--rhs", "--max", "model"], ["--rhs", "--max", "model"]),
    (["--infinity", "1e25", "--rhs", "A"], ["--infinity=1e25", "--rhs=A"])))
def test_both_forms_of_an_option(given, made):
    assert words.joined(given) == made


@pytest.mark.parametrize("given, left, value", ((["--keep", "A", "b"], ["b"], "A"), (["--keep=A", "b"], ["b"], "A"), (["b"], ["b"], None)))
def test_an_option_is_taken(given, left, value):
    assert words.taken(given, "--keep") == (left, value)


def test_an_option_without_its_value():
    with pytest.raises(ValueError, match="--keep wants a value"):
        words.taken(["b", "--keep"], "--keep")


@pytest.mark.parametrize("form", (("--negative-up", "free"), ("--negative-up=free",)))
def test_a_value_in_both_forms(tmp_path, form):
    "--negative-up free and --negative-up=free, in every command that hands it on"
    model, program = written(tmp_path, "model.mps", NEGATIVE), programs_at_hand.solver(tmp_path)
    assert run("solve", "--with", "none", "--program", program, *form, model)[0].startswith("OPTIMAL")
    assert "OPTIMAL" in run("prove", "--program", program, *form, model)[0]
    assert run("mps2job.py", "--names", tmp_path / "names", *form, model)[0]
    basis = written(tmp_path, "basis", "NAME  TINY\n XU X LIMIT_OF_X\nENDATA\n")
    assert run("basis2deck.py", *form, model, basis)[0].startswith("NAME")
    solution = written(tmp_path, "solution", json.dumps({"answer": "optimal", "columns": {"X": 7, "LONG_NAMED": -1}, "prices": {"LIMIT_OF_X": 3},
                                                        "reduced": {"LONG_NAMED": 1}}))
    run("solution2listing.py", *form, "-o", tmp_path / "job", "--names", tmp_path / "names", f"--listing={tmp_path / 'listing'}", model, solution)
    assert "OPTIMAL, objective 20" in run("attest", "--program", programs_at_hand.checker(tmp_path), f"--keep={tmp_path / 'kept'}", *form, model, solution)[0]


# ---- files that aren't taken

def test_an_infinite_right_hand_side(tmp_path):
    "--infinity is advised where it helps"
    model = written(tmp_path, "model.mps", PLAIN.replace("LIMIT_OF_X 7", "LIMIT_OF_X 1e25"))
    assert "(or say --infinity NUMBER, of more than it)" in run("mps2job.py", "--names", tmp_path / "names", model, status=65)[1]
    run("mps2job.py", "--names", tmp_path / "names", "--infinity", "1e26", model)
    model = written(tmp_path, "model.mps", PLAIN.replace("LIMIT_OF_X 7", "LIMIT_OF_X 1e30"))
    told = run("mps2job.py", "--names", tmp_path / "names", model, status=65)[1]
    assert "make the row an N row, or leave it out" in told and "--infinity" not in told


@pytest.mark.parametrize("name, begins, advice", (
    ("model.mps.xz", b"\xfd7zXZ\0", "it is compressed by xz: unxz unpacks it"), ("model.mps.bz2", b"BZh9", "bunzip2"), ("model.zip", b"PK\x03\x04", "unzip"),
    ("model.mod", b"/* a model */\nvar x >= 0;\n", "glpsol --check -m MODEL.mod --wfreemps MODEL.mps"), ("model", b"var x >= 0;\n", "glpsol --check")))
def test_files_of_other_forms(tmp_path, name, begins, advice):
    path = written(tmp_path, name, begins)
    for command in ("mps2job.py", "solve"):
        assert advice in run(command, path, status=65)[1], command


def test_a_mathprog_model_as_advised(tmp_path):
    "what is advised for a model in MathProg makes a file that is taken"
    if not any(os.access(os.path.join(folder, "glpsol"), os.X_OK) for folder in os.environ["PATH"].split(":")):
        pytest.skip("glpsol isn't installed")
    written(tmp_path, "MODEL.mod", "var x >= 0;\nmaximize gain: 3 * x;\nsubject to limit: x <= 7;\nend;\n")
    subprocess.run(shlex.split("glpsol --check -m MODEL.mod --wfreemps MODEL.mps"), cwd=tmp_path, check=True, stdout=subprocess.DEVNULL)
    assert run("solve", "--with", "none", "--program", programs_at_hand.solver(tmp_path), "--max", tmp_path / "MODEL.mps")[0].startswith("OPTIMAL: the greatest gain is 21")


def test_rounded_solutions(tmp_path):
    "who gives rounded numbers is told of the commands that take a solver's basis"
    model = written(tmp_path, "model.mps", PLAIN)
    for text in ('{"answer": "optimal", "columns": {"X": 7.0}, "prices": {}}', "status OPTIMAL\n\tValue = 3.5\nVARS:\n", "Optimal - objective value 30\n",
                 '{"answer": "optimal", "columns": {"X": "7.5"}, "prices": {}}'):
        _, told = run("attest", model, written(tmp_path, "solution", text), status=65)
        assert "scripts/solve --with highs MODEL.mps" in told and "scripts/prove --basis BASIS MODEL.mps" in told and r"\x0a" not in told


def test_lines_stay_lines(tmp_path):
    "the line of a file that is shown under a message"
    model = written(tmp_path, "model.mps", PLAIN.replace("X GAIN 3", "X GAIN 3x"))
    for command in (("attest", model, model), ("solve", model), ("prove", model), ("basis2deck.py", model, model)):
        told = run(*command, status=65)[1]
        assert r"\x0a" not in told and "X GAIN 3x LIMIT_OF_X 1\n" in told, command


# ---- no plan

def test_a_conflict_with_its_sum(tmp_path):
    model = written(tmp_path, "model.mps", CONFLICT)
    lines = run("solve", "--with", "none", "--program", programs_at_hand.solver(tmp_path), model, status=1)[0].split("\n")
    assert lines[2:5] == ["Row or column       factor    its limit  factor times activity is at most",
                          "LIMIT_OF_X               1    at most 7                                 7",
                          "LEAST          -0.5 = -1/2  at least 21                     -10.5 = -21/2"]
    assert lines[5].startswith("Together the activities, each times its factor, are 0, whatever the plan; by these limits they are at most -3.5 = -7/2.")


def test_the_sum_of_a_job(tmp_path):
    told, _ = run("solve", "--program", programs_at_hand.solver(tmp_path), places.EXAMPLES / "conflict.job", status=1)
    assert "CHAIRS             -2  at least 20                               -40\n" in told and "they are at most -10." in told


def test_crossed_limits(tmp_path):
    model, program = written(tmp_path, "model.mps", CROSSED), programs_at_hand.solver(tmp_path)
    said = "INFEASIBLE: the lower limit of the column LONG_NAMED, 5, is above its upper one, 3.\n"
    assert run("solve", "--with", "none", "--program", program, model, status=1)[0].startswith(said)
    job, names = tmp_path / "job", tmp_path / "names"
    run("mps2job.py", "-o", job, "--names", names, model)
    assert run("solve", "--program", program, "--names", names, job, status=1)[0].startswith(said)


# ---- names of commands

def test_names_here():
    assert commands.called("solve") == "scripts/solve" and commands.here("scripts/solve, docs/FAULTS.md") == "scripts/solve, docs/FAULTS.md"


def test_names_where_it_is_installed(tmp_path):
    "an installed copy speaks of the commands and the documents that are there"
    home = tmp_path / "libexec/mps360"
    (home / "python").mkdir(parents=True)
    (home / "python/mps360").symlink_to(places.PYTHON / "mps360")
    code = "import sys; sys.path.insert(0, sys.argv[1]); from mps360 import commands; commands.IS_INSTALLED = True; commands.DOCUMENTS = '/doc'; " \
        "print(commands.here('scripts/explain, scripts/mps2job.py, scripts/solve, scripts/mps360-batch, docs/FAULTS.md'))"
    told = subprocess.run([sys.executable, "-c", code, home / "python"], stdout=subprocess.PIPE, check=True).stdout
    assert told == b"mps360-explain, mps2job, mps360-solve, mps360-batch, /doc/FAULTS.md\n"


def test_a_proved_program_where_it_is_installed(tmp_path):
    "an installed copy has no scripts/build.sh, so no words of its answers and faults speak of it"
    home = tmp_path / "libexec/mps360"
    (home / "python").mkdir(parents=True)
    (home / "python/mps360").symlink_to(places.PYTHON / "mps360")
    code = "import sys; sys.path.insert(0, sys.argv[1]); from mps360 import commands; commands.IS_INSTALLED = True; " \
        "from mps360 import at_hand, provenance; print(at_hand.PROVES); " \
        "print(*(provenance.Provenance('unproved', by_checker, 'PRIMAL', ()).sentence() for by_checker in (False, True)), sep='\\n')"
    told = subprocess.run([sys.executable, "-c", code, home / "python"], stdout=subprocess.PIPE, check=True, text=True).stdout.splitlines()
    assert told == ["a package made of a proved build has the proved one",
                    "Not proved: the program ran unproved (a package made of a proved build has the proved one).",
                    "Not proved: the checker ran unproved (a package made of a proved build has the proved one)."]
    assert commands.who_proves() == "scripts/build.sh proves and builds it, in some 25 minutes"


# ---- certificates

def test_vipr_1_1(tmp_path):
    "a certificate of version 1.1 whose derivations have all multipliers is one of 1.0; what leaves them out is refused"
    certificate = tmp_path / "certificate"
    run("listing2vipr.py", "-o", certificate, places.EXAMPLES / "conflict.job", places.EXAMPLES / "conflict.listing")
    text = certificate.read_text(encoding="ascii").replace("VER 1.0", "VER 1.1")
    certificate.write_text(text, encoding="ascii")
    assert run("check_vipr.py", certificate)[0] == "infeasible\n"
    run("vipr2listing.py", "-o", tmp_path / "job", "--listing", tmp_path / "listing", "--names", tmp_path / "names", certificate)
    certificate.write_text(text.replace("{ lin ", "{ lin incomplete "), encoding="ascii")
    assert "leaves multipliers to a solver: viprcomp of VIPR writes them all" in run("check_vipr.py", certificate, status=65)[1]
