"""Work is linear in the file and in the listing: calls are counted, not time, of two generated models of which the second has twice the columns. And a start
is light: the modules that an ordinary run of a command loads are counted, and those of the package are written down."""
import json
import pathlib
import subprocess
import sys

import places
import pytest

# less than twice, and a part that grows a little faster, such as sorting
MOST = 2.3
COUNTER = """
import sys
sys.path.insert(0, {python!r})
calls = 0
def count(frame, event, argument):
    global calls
    calls += event in ("call", "c_call")
from mps360.cli.{command} import main
sys.setprofile(count)
status = main({words!r})
sys.setprofile(None)
print(status, calls, file=sys.stderr)
"""
# the modules of the package that a run loads on the ordinary path, a model of short numbers whose optimum the program prints, each with what it is there for
READING = {"mps": "reads the model", "reading": "as these words say", "fields": "cuts its lines", "files": "unpacks it", "model": "holds it", "model_checks": "says what may be meant otherwise",
           "numbers": "its numbers", "units": "units in its remarks", "jobs": "", "jobs.write": "its job", "cli.mps2job": "the words of how it is read", "cli.options": "their parser",
           "cli.words": "words with their values", "commands": "what commands are called here", "errors": "faults", "output": "writing, and its faults",
           "text": "names and numbers as text", "notes": "what was changed or chosen", "at_hand": "which program there is", "programs": "where it is", "cli": ""}
ORDINARY = {"solve": {**READING, "cli.solve": "the command", "cli.route_options": "the words of the routes", "routes": "the routes to a verdict",
                      "runs": "a run of the program", "processes": "its process", "life": "lines of life", "solver_names": "whom a word may name",
                      "listings": "", "listings.read": "reads the listing", "listings.made": "compares it with the job", "listings.tables": "its tables",
                      "provenance": "where the answer comes from"},
            "attest": {**READING, "cli.attest": "the command", "checkers": "which checker attests", "cli.solution2listing": "its listing", "listings": "", "listings.write": "writes the listing",
                       "solutions": "reads the answer", "long_answers": "an answer of long numbers", "bases": "what stands where"}}
# with all that Python loads for it, of which it begins with some 30: 154 for solve and 147 for attest, by Python 3.11
MOST_MODULES = 165
LOADED = """
import sys
sys.path.insert(0, {python!r})
from mps360.cli.{command} import main
status = main({words!r})
print(status, *sys.modules, file=sys.stderr)
"""
LISTS = """#!/bin/sh
exec cat {listing}
"""


def made_model(folder: pathlib.Path, columns: int) -> tuple[pathlib.Path, pathlib.Path]:
    "a model whose opening basis is optimal, and its listing: each column has an entry on three of the rows, and costs something"
    rows = columns // 5
    lines = ["NAME LINEAR", "ROWS", " N COST", *(f" L ROW{i}" for i in range(rows)), "COLUMNS"]
    for j in range(columns):
        lines.append(f" COLUMN{j} COST {j % 7}")
        lines += [f" COLUMN{j} ROW{(3 * j + k * k) % rows} {k + 1}.25" for k in range(3)]
    lines += ["RHS", *(f" RHS ROW{i} {i + 1}" for i in range(rows)), "ENDATA"]
    path, job, names, solution = (folder / f"{columns}.{ending}" for ending in ("mps", "job", "names", "json"))
    path.write_text("\n".join(lines) + "\n", encoding="ascii")
    solution.write_text(json.dumps({"answer": "optimal", "columns": {}, "prices": {}}), encoding="ascii")
    listing = folder / f"{columns}.listing"
    subprocess.run([places.SCRIPTS / "solution2listing.py", "-o", job, "--names", names, "--listing", listing, path, solution], check=True, capture_output=True)
    return path, listing


def counted(template: str, command: str, words: list[str]) -> list[str]:
    "what the last line on standard error has after the status, which is to be 0"
    program = template.format(python=str(places.PYTHON), command=command, words=words)
    ended = subprocess.run([sys.executable, "-I", "-S", "-c", program], capture_output=True, text=True, check=True, timeout=300)
    status, *found = ended.stderr.splitlines()[-1].split()
    assert status == "0", ended.stderr
    return found


def command_words(folder: pathlib.Path, command: str, columns: int) -> list[str]:
    "the words with which a command answers a generated model by a stand-in for the program or the checker"
    path, listing = made_model(folder, columns)
    program = folder / f"{columns}.program"
    program.write_text(LISTS.format(listing=listing) if command == "solve" else "#!/bin/sh\necho ATTESTED 5 REPORTS\n", encoding="ascii")
    program.chmod(0o755)
    more = [] if command == "solve" else [str(folder / f"{columns}.json")]
    return ["--program", str(program), str(path), *more]


@pytest.mark.parametrize("command,words", [("solve", ["--json", "--only", "primal"]), ("solve", ["--only", "primal"]), ("solve", ["--html", "{page}", "--only", "primal"]), ("attest", [])])
def test_calls_are_linear(tmp_path: pathlib.Path, command: str, words: list[str]) -> None:
    "twice the columns make at most 2.3 times the calls"
    counts = []
    for columns in (500, 1000):
        given = [word.format(page=tmp_path / "page.html") for word in words]
        counts.append(int(counted(COUNTER, command, [*given, *command_words(tmp_path, command, columns)])[0]))
    assert counts[0] > 5000
    assert counts[1] <= MOST * counts[0], counts


@pytest.mark.parametrize("command", ORDINARY)
def test_an_ordinary_run_loads_what_is_written_down(tmp_path: pathlib.Path, command: str) -> None:
    "what a basis, another solver, long numbers, JSON or a page need isn't loaded where none of them is asked for"
    loaded = counted(LOADED, command, command_words(tmp_path, command, 50))
    own = {name.removeprefix("mps360.") for name in loaded if name.startswith("mps360.")}
    assert own == set(ORDINARY[command])
    assert len(loaded) <= MOST_MODULES, sorted(loaded)
