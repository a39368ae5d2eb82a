"""The public calls: answers that are known by hand or from the examples, in exact fractions; faults with their places; threads. Jobs are run by the
independent reading of the rules."""
import concurrent.futures
import io
import os
import pathlib
import threading
from fractions import Fraction

import places
import programs_at_hand
import pytest

import mps360
from mps360.model import exact

GLASS = places.EXAMPLES / "glass.mps"


@pytest.fixture
def program(tmp_path):
    "a program in the place of the proved one"
    return programs_at_hand.solver(tmp_path)


@pytest.fixture
def checker(tmp_path):
    "a checker in the place of the proved one"
    return programs_at_hand.checker(tmp_path)


def week() -> mps360.Model:
    "at most 240 boards and 150 hours, at least 6 chairs, at most 8 shelves"
    model = mps360.Model("week", "MAX", "profit")
    model.add_row("boards", "L", 240)
    model.add_row("hours", "L", 150)
    model.add_column("tables", {"profit": 45, "boards": 20, "hours": 8})
    model.add_column("chairs", {"profit": 20, "boards": 4, "hours": 2}, lower=6)
    model.add_column("shelves", {"profit": 36, "boards": 6, "hours": 3}, upper=8)
    return model


def test_an_optimum_by_the_names_of_the_file(program):
    "the glass maker of the textbook: 2 batches of doors, 6 of windows, 36 in all"
    answer = mps360.solve(mps360.read_mps(GLASS), program=program, ranging=True)
    assert (answer.status, answer.code, answer.objective) == ("optimal", 0, 36)
    assert [(name, column.activity) for name, column in answer.columns.items()] == [("doors", 2), ("windows", 6)]
    assert {name: row.dual for name, row in answer.rows.items()} == {"total_profit": 0, "plant_1_hours": 0, "plant_2_hours": Fraction(3, 2), "plant_3_hours": 1}
    assert answer.columns["doors"].cost_range == mps360.Interval(Fraction(0), Fraction(15, 2))
    assert answer.rows["plant_2_hours"].limit_range == mps360.Interval(Fraction(6), Fraction(18))
    assert answer.rows["plant_2_hours"].slack == 0 and answer.rows["plant_1_hours"].slack == 2
    assert not answer.proved and answer.proved_by == "none"
    assert answer.ray is None and answer.direction is None and answer.stop is None
    assert answer.as_json()["result"]["objective"] == "36"


def test_a_model_that_a_program_builds(program):
    "all boards go: 8 shelves take 48, the other 192 make 48 chairs, 20 each; a table brings less for its boards"
    answer = mps360.solve(week(), program=program)
    assert answer.objective == 48 * 20 + 8 * 36
    assert {name: column.activity for name, column in answer.columns.items()} == {"tables": 0, "chairs": 48, "shelves": 8}
    assert answer.columns["tables"].reduced_cost == 45 - 20 * 5


def test_a_constant_and_long_numbers(program):
    "the constant is in the objective, and a number of 20 digits stays what it is"
    model = mps360.Model("long", "MIN", "cost")
    model.add_row("cost", "N", Fraction(7, 2))
    model.add_row("need", "G", Fraction("3.14159265358979323846"))
    model.add_column("x", {"cost": 2, "need": 1})
    answer = mps360.solve(model, program=program)
    assert answer.objective == 2 * Fraction("3.14159265358979323846") + Fraction(7, 2)
    assert list(answer.rows) == ["cost", "need"] and list(answer.columns) == ["x"]


def test_no_plan(program):
    "at least 3 and at most 2: the two limits conflict, with opposite factors"
    model = mps360.Model("none", "MIN", "cost")
    model.add_row("least", "G", 3)
    model.add_row("most", "L", 2)
    model.add_column("x", {"cost": 1, "least": 1, "most": 1})
    answer = mps360.solve(model, program=program)
    assert (answer.status, answer.code, answer.objective) == ("infeasible", 1, None)
    assert answer.ray is not None and not answer.ray.columns
    assert answer.ray.rows["least"] == -answer.ray.rows["most"] < 0


def test_crossed_limits(program):
    "a column at least 5 and at most 1"
    model = week()
    model.add_column("crossed", {"profit": 1}, lower=5, upper=1)
    answer = mps360.solve(model, program=program)
    assert answer.ray == mps360.Ray(crossed=("column", "crossed"))


def test_no_bound(program):
    "nothing keeps y from growing"
    model = mps360.Model("free", "MAX", "gain")
    model.add_row("least", "G", 1)
    model.add_column("y", {"gain": 1, "least": 1})
    answer = mps360.solve(model, program=program)
    assert (answer.status, answer.code) == ("unbounded", 2)
    assert answer.direction is not None and answer.direction["y"] > 0 and answer.point is not None


def test_prove_goes_on_from_a_basis(program):
    "from the basis of the optimum PRIMAL makes no step; another model's basis is refused"
    model = mps360.read_mps(GLASS)
    basis = mps360.solve(model, program=program).basis()
    answer = mps360.prove(model, basis, program=program)
    assert answer.objective == 36 and answer.as_json()["result"]["steps"] == 0
    with pytest.raises(mps360.Refused, match="the basis has no row"):
        mps360.prove(week(), basis, program=program)


def test_attest_answers_of_either_kind(program, checker):
    "an answer of solve, and one of another solver; a wrong price is met, with its line"
    model = mps360.read_mps(GLASS)
    told = mps360.attest(model, mps360.solve(model, program=program), checker=checker)
    assert told.attested and told.code == 0 and not told.proved
    plan = {"doors": Fraction(2), "windows": Fraction(6)}
    prices = {"plant_2_hours": Fraction(3, 2), "plant_3_hours": Fraction(1)}
    assert mps360.attest(model, mps360.Solution("optimal", plan, prices), checker=checker).attested
    wrong = mps360.attest(model, mps360.Solution("optimal", plan, {**prices, "plant_3_hours": Fraction(2)}), checker=checker)
    assert not wrong.attested and wrong.code == 40 and wrong.line == 5 and wrong.why is not None
    with pytest.raises(mps360.Refused, match="no 'gates'"):
        mps360.attest(model, mps360.Solution("optimal", {"gates": Fraction(1)}, {}), checker=checker)


def test_solutions_that_esolver_writes(tmp_path):
    "its plan and prices, in exact fractions"
    path = tmp_path / "glass.sol"
    path.write_text("status OPTIMAL\n\tValue = 36\nVARS:\ndoors = 2\nwindows = 6\nREDUCED COST:\nPI:\nplant_2_hours = 3/2\nplant_3_hours = 1\nSLACK:\n", encoding="ascii")
    found = mps360.read_solution(path, mps360.read_mps(GLASS))
    assert found.answer == "optimal" and found.prices["plant_2_hours"] == Fraction(3, 2) and found.columns == {"doors": 2, "windows": 6}


def test_a_refusal_names_its_place(tmp_path):
    "file, line, column and word, of a path and of a stream"
    text = "NAME T\nROWS\n N COST\nCOLUMNS\n X COST 1\n Y COST 2 PROFIT 3\nENDATA\n"
    path = tmp_path / "wrong.mps"
    path.write_text(text, encoding="ascii")
    for source, file in ((path, str(path)), (io.BytesIO(text.encode()), None)):
        with pytest.raises(mps360.Refused, match="no row is named PROFIT") as met:
            mps360.read_mps(source)
        assert (met.value.file, met.value.line, met.value.column, met.value.word) == (file, 6, 11, "PROFIT")
    with pytest.raises(OSError):
        mps360.read_mps(tmp_path / "none")


def test_what_is_changed_is_noted(program):
    "a column of whole numbers that is taken as one of any numbers"
    text = "NAME T\nROWS\n N COST\n G NEED\nCOLUMNS\n M1 'MARKER' 'INTORG'\n X COST 2 NEED 4\n M2 'MARKER' 'INTEND'\nRHS\n B NEED 1\nBOUNDS\n PL B X\nENDATA\n"
    with pytest.raises(mps360.Refused, match="whole numbers"):
        mps360.read_mps(io.BytesIO(text.encode()))
    model = mps360.read_mps(io.BytesIO(text.encode()), relax=True)
    answer = mps360.solve(model, program=program)
    assert answer.objective == Fraction(1, 2)
    assert any("whole numbers" in note for note in answer.notes) and any("whole numbers" in note for note in model.notes)


def test_no_note_is_for_a_table_that_isnt_there(program):
    "an answer has no table of names, and its objective has the constant: what is said for readers of these isn't noted"
    answer = mps360.solve(mps360.read_mps(GLASS), program=program)
    assert answer.notes == () and answer.as_json()["run"]["notes"] == []
    text = "NAME T\nROWS\n N COST\n G NEED\nCOLUMNS\n X COST 2 NEED 4\nRHS\n B NEED 1 COST 3\nENDATA\n"
    answer = mps360.solve(mps360.read_mps(io.BytesIO(text.encode())), program=program)
    assert answer.objective == Fraction(1, 2) - 3
    assert len(answer.notes) == 1 and answer.notes[0].startswith("the objective's constant is -3")


def test_a_call_that_is_refused_leaves_the_model_alone(program):
    "a float, a range of an N row: the model has the answer that it had"
    model = week()
    for wrong in (lambda: model.add_row("more", "L", 0.5), lambda: model.add_row("more", "L", 1, 0.5), lambda: model.add_row("more", "N", 0, 1),
                  lambda: model.add_combination("sum", "L", {"boards": 0.5}), lambda: model.add_column("beds", {"boards": 0.5}),
                  lambda: model.add_column("beds", {"boards": 1}, 0, 0.5)):
        with pytest.raises((TypeError, ValueError)):
            wrong()
    assert mps360.solve(model, program=program).objective == 48 * 20 + 8 * 36
    assert list(model.rows) == ["profit", "boards", "hours"] and list(model.columns) == ["tables", "chairs", "shelves"]


@pytest.mark.parametrize("value", [0.1, True, "1"])
def test_only_exact_numbers_are_taken(value):
    "a float isn't the decimal that it shows"
    with pytest.raises(TypeError):
        exact(value)


def test_faults_of_models_that_are_built():
    "names that stand twice, rows that aren't there, an objective that is none"
    model = week()
    for wrong in (lambda: model.add_row("boards", "L", 1), lambda: model.add_column("chairs", {}), lambda: model.add_column("new", {"none": 1}),
                  lambda: model.add_row("new", "X"), lambda: model.add_combination("sum", "L", {"none": 1})):
        with pytest.raises(ValueError):
            wrong()
    with pytest.raises(mps360.Refused, match="objective"):
        mps360.solve(mps360.Model("empty"), program="/bin/true")


def test_programs_that_give_no_answer(tmp_path):
    "one that isn't there, one that prints nothing, one that prints another job's listing"
    with pytest.raises(mps360.NoProgram):
        mps360.solve(week(), program=str(tmp_path / "none"))
    with pytest.raises(mps360.CantRun):
        mps360.solve(week(), program="/bin/true", with_=())
    other = tmp_path / "other"
    other.write_text(f"#!/bin/sh\ncat {places.EXAMPLES}/store.listing\n", encoding="ascii")
    other.chmod(0o755)
    with pytest.raises(mps360.NoListing):
        mps360.solve(week(), program=str(other), with_=())


def test_no_proved_program_is_said(tmp_path, program):
    "where none is named, and none is proved; whoever has one sees the answer instead"
    if mps360.api.at_hand.solver_program().kind == "proved":
        assert mps360.solve(week()).proved
        return
    with pytest.raises(mps360.NoProgram, match="no proved program"):
        mps360.solve(week())


def test_time_runs_out(tmp_path):
    "a program without an end: the status says so, and life is told"
    endless = tmp_path / "endless"
    endless.write_text("#!/bin/sh\nsleep 60\n", encoding="ascii")
    endless.chmod(0o755)
    lives = []
    answer = mps360.solve(week(), program=str(endless), with_=(), seconds=1, on_life=lives.append)
    assert (answer.status, answer.code, answer.objective) == ("no end", 124, None)
    assert lives and lives[-1].seconds > 0 and "waits" in lives[-1].waits_for


def test_threads(program):
    "eight at once, of two senses, without the present folder or the main thread"
    before = pathlib.Path.cwd()

    def one(k: int) -> Fraction | None:
        assert threading.current_thread() is not threading.main_thread()
        return mps360.solve(mps360.read_mps(GLASS, sense="MIN" if k % 2 else "MAX"), program=program, with_=()).objective

    with concurrent.futures.ThreadPoolExecutor(8) as pool:
        assert list(pool.map(one, range(8))) == [36, 0] * 4
    assert pathlib.Path.cwd() == before and not [name for name in os.listdir(before) if name == "PUNCH"]


def test_all_names_are_there():
    "each public name is where __all__ says"
    assert all(getattr(mps360, name) is not None for name in mps360.__all__)
    with pytest.raises(AttributeError):
        mps360.nothing  # pylint: disable=no-member,pointless-statement
