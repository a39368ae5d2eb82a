"""Bases and solutions written for other solvers: each reads them back, and clp, esolver and glpsol, where they are installed, begin there and take
no step."""
import re
import shutil
import subprocess
from fractions import Fraction

import solver_bases
import pytest
from mps360 import at_hand, bases, highs_files, routes, solution_out
from mps360.errors import Refused
from mps360.jobs.write import job_of
from mps360.mps import Reading, read_text
from mps360.solution_out import Line, Point
from test_routes import real_program
from test_solvers import GLASS

TEN, ZERO = Fraction(10), Fraction(0)


def glass():
    "the best plan of Hillier and Lieberman's glass products, with the prices 3/2 and 1"
    rows = (Line("P1", "BS", Fraction(2), ZERO, (None, Fraction(4))), Line("P2", "UL", Fraction(12), Fraction(3, 2), (None, Fraction(12))),
            Line("P3", "UL", Fraction(18), Fraction(1), (None, Fraction(18))))
    columns = (Line("doors", "BS", Fraction(2), ZERO, (ZERO, None)), Line("windows", "BS", Fraction(6), ZERO, (ZERO, None)))
    return Point("GLASS", "PROFIT", "MAX", Fraction(36), 4, rows, columns)


def called(folder, *words):
    "what a solver prints, standard error behind it"
    ended = subprocess.run(words, cwd=folder, stdin=subprocess.DEVNULL, stdout=subprocess.PIPE, stderr=subprocess.STDOUT, timeout=60, check=False)
    return ended.stdout.decode("latin-1")


# ---- what is written

def test_basis_in_words():
    assert solution_out.basis_file(glass()) == "NAME    GLASS\n XL doors P2\n XL windows P3\nENDATA\n"


def test_basis_is_read_back():
    model = read_text(GLASS, Reading())
    basis = bases.read_text(solution_out.basis_file(glass()), model)
    assert basis.rows == {"PROFIT": "BS", "P1": "BS", "P2": "UL", "P3": "UL"} and basis.columns == {"doors": "BS", "windows": "BS"}


def test_glpsol_text():
    assert solution_out.solution_file(glass(), "glpsol").split("\n")[7:] == [
        "s bas 3 2 f f 36", "i 1 b 2 0", "i 2 u 12 1.5", "i 3 u 18 1", "j 1 b 2 0", "j 2 b 6 0", "e o f", ""]


def test_highs_text_is_read_back():
    model = read_text(GLASS, Reading())
    text = solution_out.solution_file(glass(), "highs")
    basis = highs_files.read_basis(text, model)
    assert basis.rows == {"PROFIT": "BS", "P1": "BS", "P2": "UL", "P3": "UL"} and basis.columns == {"doors": "BS", "windows": "BS"}
    assert text.split("\n")[:13] == ["Model status", "Optimal", "", "# Primal solution values", "Feasible", "Objective 36", "# Columns 2", "doors 2", "windows 6",
                                     "# Rows 3", "P1 2", "P2 12", "P3 18"]


@pytest.mark.parametrize("name, what", [("two words", "column"), ("", "column")])
def test_names_that_no_word_can_be(name, what):
    point = glass()
    spoiled = Point(**{**vars(point), "columns": (Line(name, "BS", Fraction(2), ZERO), point.columns[1])})
    with pytest.raises(Refused, match=f"the {what} .* has a blank in its name"):
        solution_out.basis_file(spoiled)


def test_no_basis_is_known():
    with pytest.raises(Refused, match="no basis is known"):
        solution_out.basis_file(Point(**{**vars(glass()), "has_basis": False}))
    assert solution_out.solution_file(Point(**{**vars(glass()), "has_basis": False}), "highs").endswith("# Basis\nHiGHS v1\nNone\n")


# ---- read back by others

@pytest.mark.parametrize("solver", ["clp", "esolver", "glpsol"])
def test_solvers_begin_there(tmp_path, solver):
    if not shutil.which(solver):
        pytest.skip(f"{solver} isn't installed")
    (tmp_path / "m.mps").write_text(GLASS.replace("OBJSENSE\n MAX\n", "").replace("PROFIT 3", "PROFIT -3").replace("PROFIT 5", "PROFIT -5"))
    (tmp_path / "m.bas").write_text(solution_out.basis_file(glass()))
    (tmp_path / "m.sol").write_text(solution_out.solution_file(glass(), "glpsol"))
    assert steps_of(tmp_path, solver) == 0


@pytest.mark.parametrize("seed", range(1, 9))
def test_solvers_begin_at_random_bases(tmp_path, seed):
    "models with rows and columns of all kinds: the basis of the program's own plan"
    text = solver_bases.made_model(seed)
    model = read_text(text, Reading(negative_up="free"))
    job = job_of(model)
    outcome = routes.Routes(job, at_hand.Tool((real_program(tmp_path),), "other"), routes.Plan(only="primal")).run()
    rows, columns = ([(line[2], Fraction(line[3]), Fraction(line[-1])) for line in lines] for lines in solution_of(outcome.attempt.lines(), len(model.rows)))
    point = solution_out.point_of(model, rows, columns)
    (tmp_path / "m.mps").write_text(text)
    (tmp_path / "m.bas").write_text(solution_out.basis_file(point))
    (tmp_path / "m.sol").write_text(solution_out.solution_file(point, "glpsol"))
    there = [solver for solver in ("clp", "esolver", "glpsol") if shutil.which(solver)]
    if not there:
        pytest.skip("none of clp, esolver and glpsol is installed")
    assert [steps_of(tmp_path, solver) for solver in there] == [0] * len(there)


def solution_of(lines, count):
    "the words of the table lines of SOLUTION: those of rows, and those of columns; the names of the made models have no blanks"
    table = [line.split() for line in lines[lines.index("SOLUTION OPTIMAL"):] if re.match(r" +\d+ ", line)]
    return table[:count], table[count:]


def steps_of(folder, solver):
    "how many steps a solver takes from the basis m.bas, or the solution m.sol, of m.mps"
    if solver == "clp":
        return int(re.search(r"- (\d+) iterations", called(folder, "clp", "m.mps", "-basisIn", "m.bas", "-presolve", "off", "-dualSimplex"))[1])
    if solver == "esolver":
        said = called(folder, "esolver", "-B", "m.bas", "-O", "m.out", "m.mps")
        assert "Problem solved to optimality" in said or "Problem Solved Exactly" in said, said
        assert "unknown row basis stat" not in said and "Not-using previous basis" not in said, said
        return sum(int(number) for found in re.findall(r"pI = (\d+), pII = (\d+), dI = (\d+), dII = (\d+)", said) for number in found)
    said = called(folder, "glpsol", "--freemps", "m.mps", "--ini", "m.sol", "--nopresol")
    return int(re.search(r"(\d+): obj =.*\nOPTIMAL LP SOLUTION FOUND", said)[1])
