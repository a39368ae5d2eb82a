"The solver class for PuLP, where PuLP is installed: values known by hand, with a constant; no plan, with its ray; no bound, with its direction."
import programs_at_hand
import pytest

import places  # pylint: disable=unused-import  (the packages are known from here on)


def parts():
    "PuLP and the solver class"
    try:
        import pulp
    except ImportError:
        pytest.skip("PuLP isn't installed")
    from mps360.pulp import MPS360
    return pulp, MPS360


def test_an_optimum(tmp_path):
    "239/5 chairs and 8 shelves, 12441/10 with the constant; floats where PuLP has them"
    pulp, solver = parts()
    problem = pulp.LpProblem("week", pulp.LpMaximize)
    tables, chairs, shelves = pulp.LpVariable("tables", 0), pulp.LpVariable("chairs_of_a_long_name", 6), pulp.LpVariable("shelves", 0, 8)
    problem += 45 * tables + 20 * chairs + 36 * shelves + 0.1, "profit"
    problem += 20 * tables + 4 * chairs + 6.1 * shelves <= 240, "boards"
    problem += 8 * tables + 2 * chairs + 3.3 * shelves <= 150, "hours"
    assert pulp.LpStatus[problem.solve(solver(program=programs_at_hand.solver(tmp_path)))] == "Optimal"
    assert str(problem.exact.objective) == "12441/10" and str(problem.exact.columns["chairs_of_a_long_name"].activity) == "239/5"
    assert abs(pulp.value(problem.objective) - 1244.1) < 1e-9 and chairs.varValue == 47.8
    assert problem.constraints["boards"].pi == 5.0 and abs(problem.constraints["hours"].slack - 28.0) < 1e-9 and tables.dj == -55.0


def test_no_plan_and_no_bound(tmp_path):
    "the states of PuLP, and the proofs"
    pulp, solver = parts()
    program = programs_at_hand.solver(tmp_path)
    x = pulp.LpVariable("x", 0)
    conflict = pulp.LpProblem("conflict", pulp.LpMinimize)
    conflict += 1 * x
    conflict += x >= 3, "least"
    conflict += x <= 2, "most"
    assert pulp.LpStatus[conflict.solve(solver(program=program))] == "Infeasible"
    assert conflict.exact.ray.rows["least"] == -conflict.exact.ray.rows["most"]
    endless = pulp.LpProblem("endless", pulp.LpMaximize)
    endless += 1 * x
    endless += x >= 1, "least"
    assert pulp.LpStatus[endless.solve(solver(program=program))] == "Unbounded"
    assert endless.exact.direction["x"] > 0


def test_whole_numbers_are_refused(tmp_path):
    "unless any are taken"
    pulp, solver = parts()
    program = programs_at_hand.solver(tmp_path)
    x = pulp.LpVariable("x", 0, cat="Integer")
    problem = pulp.LpProblem("whole", pulp.LpMinimize)
    problem += 1 * x
    problem += 2 * x >= 3, "least"
    import mps360
    with pytest.raises(mps360.Refused, match="whole numbers"):
        problem.solve(solver(program=program))
    problem.solve(solver(program=program, relax=True))
    assert str(problem.exact.objective) == "3/2" and any("whole numbers" in note for note in problem.exact.notes)
