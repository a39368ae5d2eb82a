"""Solvers that are asked for a basis: those that are installed, recorded files of others, and stand-ins that crash, hang, or write nonsense or a basis of
other names. The real ones are compared with each other's objective, which each basis gives by an elimination apart (test_value_bases.rank has one)."""
import json
import subprocess
import sys
import time
from fractions import Fraction

import fakes
import places
import pytest
from mps360 import highs_files, solver_names, solvers
from mps360.bases import BASIC, UPPER
from mps360.errors import Refused
from mps360.mps import Reading, read_text
from mps360.plain import Plain
from mps360.processes import Processes

GLASS = """NAME GLASS FREE
OBJSENSE
 MAX
ROWS
 N PROFIT
 L P1
 L P2
 L P3
COLUMNS
 doors PROFIT 3
 doors P1 1
 doors P3 3
 windows PROFIT 5
 windows P2 2
 windows P3 2
RHS
 B P1 4
 B P2 12
 B P3 18
ENDATA
"""
# what HiGHS writes of the plain form of GLASS in its raw style: the plan 2, 6 with rows 2 and 3 at their upper limits
HIGHS_SOLUTION = """Model status
Optimal

# Primal solution values
Feasible
Objective -36
# Columns 2
C1 2
C2 6
# Rows 3
R1 2
R2 12
R3 18

# Dual solution values
Feasible
# Columns 2
C1 0
C2 0
# Rows 3
R1 0
R2 -1.5
R3 -1

# Basis
HiGHS v1
Valid
# Columns 2
1 1 
# Rows 3
1 2 2 
"""
BEST = {"P1": BASIC, "P2": UPPER, "P3": UPPER}


def model():
    return read_text(GLASS, Reading())


def asked(name, seconds=120):
    "the basis of a solver, by the names of the model"
    with Processes() as processes:
        request = solvers.find(name).ask(Plain(model()), processes)
        if processes.wait([request.process], time.monotonic() + seconds) is None:
            raise solver_names.NoBasis("no end")
        return request.basis()[0]


# ---- real solvers

@pytest.mark.parametrize("name", solver_names.NAMES)
def test_a_real_solver(name):
    solver = solvers.find(name)
    if solver is None:
        pytest.skip(f"{name} isn't installed")
    basis = asked(name)
    assert {row: at for row, at in basis.rows.items() if row != "PROFIT"} == BEST
    assert basis.columns == {"doors": BASIC, "windows": BASIC}
    assert any(digit.isdigit() for digit in solver.version), solver.version
    assert str(solver).startswith("HiGHS" if name == "highs" else name)


def test_an_exact_answer():
    "esolver's exact answer is that of the maximum: the prices 3/2 and 1, which rise with the limits"
    solver = solvers.find("esolver")
    if solver is None:
        pytest.skip("esolver isn't installed")
    from mps360 import solutions
    plain = Plain(model())
    with Processes() as processes:
        request = solver.ask_exactly(plain, processes)
        assert processes.wait([request.process], time.monotonic() + 120)
        answer = plain.answer_back(solutions.read_bytes(request.written().encode(), plain.model))
        basis = request.exact_basis()
    assert answer.columns == {"doors": Fraction(2), "windows": Fraction(6)}
    assert {row: price for row, price in answer.prices.items() if price} == {"P2": Fraction(3, 2), "P3": Fraction(1)}
    assert basis is not None and {row: at for row, at in basis.rows.items() if row != "PROFIT"} == BEST


def test_the_child_of_highs():
    "python3 -m mps360.solvers highs, by a Python that has scipy: the values and the prices of the glass products"
    solver = solvers.scipy_highs()
    if solver is None:
        pytest.skip("scipy isn't installed")
    ended = subprocess.run([solver.command[0], "-m", "mps360.solvers", "highs"], input=Plain(model()).as_json(seconds=30), capture_output=True, timeout=120, check=False,
                           cwd=places.PYTHON)
    assert ended.returncode == 0, ended.stderr
    answer = json.loads(ended.stdout)
    assert (answer["rows"][0], answer["columns"][0]) == ([2, 12, 18], [2, 6])
    assert [round(price, 9) for price in answer["rows"][1]] == [0, -1.5, -1]


@pytest.mark.parametrize("words, given, status", [(["highs"], b"nonsense", 1), (["highs"], b"{}", 1), ([], b"", 64), (["clp"], b"", 64)])
def test_the_child_of_highs_refuses(words, given, status):
    ended = subprocess.run([sys.executable, "-m", "mps360.solvers", *words], input=given, capture_output=True, timeout=120, check=False, cwd=places.PYTHON)
    assert ended.returncode == status and not ended.stdout and b"Traceback" not in ended.stderr


# ---- recorded files

# what each wrote of the plain form of GLASS
RECORDED = {
    "clp": "NAME          PLAIN       VALUES\n XU C1             R2     2.          \n XU C2             R3     6.          \nENDATA\n",
    "esolver": "NAME    PLAIN\n XL C1 R2\n XL C2 R3\nENDATA\n",
    "glpsol": "c Problem:    PLAIN\nc Rows:       3\nc Columns:    2\nc Non-zeros:  4\nc Status:     OPTIMAL\nc Objective:  COST = -36 (MINimum)\nc\ns bas 3 2 f f -36\n"
              "i 1 b 2 0\ni 2 u 12 -1.5\ni 3 u 18 -1\nj 1 b 2 0\nj 2 b 6 0\ne o f\n",
    "lp_solve": "NAME          PLAIN Rows 3 Cols 2 Iters 2\n XL C1        R2      \n XL C2        R3      \nENDATA\n",
    "highs": HIGHS_SOLUTION}
RECORDED_BY_SCIPY = {"status": 0, "rows": [[2.0, 12.0, 18.0], [0.0, -1.5, -1.0]], "columns": [[2.0, 6.0], [0.0, 0.0]]}


@pytest.mark.parametrize("name", solver_names.NAMES)
def test_a_recorded_file(tmp_path, name):
    with fakes.only_path(tmp_path):
        fakes.program(tmp_path, name, fakes.WRITES, content=RECORDED[name].encode())
        basis = asked(name)
    assert {row: at for row, at in basis.rows.items() if row != "PROFIT"} == BEST
    assert basis.columns == {"doors": BASIC, "windows": BASIC}


def test_a_recorded_answer_of_scipy(tmp_path):
    says = fakes.program(tmp_path, "says", "print({answer!r})", answer=json.dumps(RECORDED_BY_SCIPY))
    with Processes() as processes:
        request = solvers.Solver("highs", (says,), by_scipy=True).ask(Plain(model()), processes)
        assert processes.wait([request.process], time.monotonic() + 120)
        basis, text = request.basis()
    assert {row: at for row, at in basis.rows.items() if row != "PROFIT"} == BEST and text == ""


def test_a_highs_command_goes_before_scipy(tmp_path):
    with fakes.only_path(tmp_path):
        fakes.program(tmp_path, "highs", fakes.SILENT)
        assert not solvers.find("highs").by_scipy


@pytest.mark.parametrize("change, line, words", [
    (("HiGHS v1", "HiGHS"), None, "no basis"), (("Valid\n", "None\n"), 27, "isn't called valid"), (("# Columns 2\n1 1", "# Columns 3\n1 1"), 28, "and the model has 2"),
    (("1 2 2 \n", "1 2\n"), 31, "ends before"), (("1 2 2 \n", "1 2 7 \n"), 31, "7 isn't a status"), (("1 2 2 \n", "1 1 2 \n"), None, "as many basic variables"),
    (("1 1 \n# Rows", "C1 1\nC9 1\n# Rows"), 30, "another name than C9")])
def test_no_basis_of_highs(change, line, words):
    with pytest.raises(Refused) as refused:
        highs_files.read_basis(HIGHS_SOLUTION.replace(*change), Plain(model()).model)
    assert words in str(refused.value)
    assert refused.value.line == line


def test_statuses_of_highs():
    "a name before each status is taken; 4 is nonbasic at a limit that the file doesn't name, 0 of a row without a lower limit its upper one"
    text = "HiGHS v1\nValid\n# Columns 2\nC1 1\nC2 1\n# Rows 3\nR1 1\nR2 4\nR3 0\n"
    basis = highs_files.read_basis(text, Plain(model()).model)
    assert basis.rows == {"COST": BASIC, "R1": BASIC, "R2": UPPER, "R3": UPPER}
    assert basis.columns == {"C1": BASIC, "C2": BASIC}


@pytest.mark.parametrize("answer, words", [
    ({"status": 2, "message": "The problem is infeasible."}, "infeasible"), ({"status": 0, "rows": [[1], [1]], "columns": [[1, 1], [0, 0]]}, "isn't an answer"),
    ({"status": 0, "rows": [["x"] * 3, [0] * 3], "columns": [[1, 1], [0, 0]]}, "isn't an answer"), ([], "isn't an answer"), ({}, "isn't an answer")])
def test_what_scipy_may_say(tmp_path, answer, words):
    "what the child process prints isn't believed to be an answer"
    says = fakes.program(tmp_path, "says", "print({answer!r})", answer=json.dumps(answer))
    with Processes() as processes:
        request = solvers.Solver("highs", (says,), by_scipy=True).ask(Plain(model()), processes)
        assert processes.wait([request.process], time.monotonic() + 120)
        with pytest.raises(solver_names.NoBasis, match=words):
            request.basis()


# ---- stand-ins

OTHER_NAMES = b"NAME    X\n XU C7 R1\nENDATA\n"
FAULTS = {"crashes": (fakes.CRASHES, "signal 11"), "fails": (fakes.FAILS, "it ended with 3"), "silent": (fakes.SILENT, "it wrote no basis"),
          "nonsense": (fakes.WRITES.format(content=b"\x00\xff nonsense \x80\n" * 50), ""), "other names": (fakes.WRITES.format(content=OTHER_NAMES), ""),
          "cut off": (fakes.WRITES.format(content=b"NAME    X\n XU C1 R1\n"), "")}


@pytest.mark.parametrize("name", ["clp", "esolver", "glpsol", "lp_solve", "highs"])
@pytest.mark.parametrize("fault", FAULTS)
def test_a_fault_comes_to_no_basis(tmp_path, name, fault):
    text, words = FAULTS[fault]
    with fakes.only_path(tmp_path):
        fakes.program(tmp_path, name, text)
        with pytest.raises(solver_names.NoBasis) as none:
            asked(name)
    assert words in str(none.value), none.value


def test_a_solver_that_hangs(tmp_path):
    with fakes.only_path(tmp_path) as pids:
        fakes.program(tmp_path, "clp", fakes.HANGS)
        with Processes() as processes:
            request = solvers.find("clp").ask(Plain(model()), processes)
            while not pids.exists() or not pids.read_text().endswith("\n"):
                time.sleep(0.01)
            assert processes.wait([request.process], time.monotonic() + 0.2) is None
            request.process.end()
            with pytest.raises(solver_names.NoBasis, match="it wrote no basis; signal 15 ended it"):
                request.basis()
        assert fakes.left_over(pids) == []


def test_none_is_installed(tmp_path):
    with fakes.only_path(tmp_path):
        assert [solver.name for solver in solvers.installed() if not solver.by_scipy] == []
        assert solvers.find("clp") is None


def test_numbers_past_doubles_are_refused():
    text = GLASS.replace("doors P1 1", "doors P1 1E309")
    with pytest.raises(Refused, match="past double precision"):
        Plain(read_text(text, Reading(numbers="exact"))).as_json()


def test_deck_is_read_back():
    "a basis as esolver reads it is that basis again"
    plain = Plain(model())
    from mps360 import bases
    basis = bases.opening(plain.source)
    basis.rows.update({"P2": UPPER, "P3": UPPER})
    basis.columns.update({"doors": BASIC, "windows": BASIC})
    again = plain.back(bases.read_text(plain.deck(basis), plain.model, "clp"))
    assert (again.rows, again.columns) == (basis.rows, basis.columns)
