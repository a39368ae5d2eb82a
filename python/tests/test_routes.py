"""The routes to a proof, by stand-ins for solvers, program and checker that tell which was called, and by real solvers with the program of
MPS360_PROGRAM or, where none is named, the reading of the rules in Python that stands apart from the product."""
import os
import pathlib
import re
import sys
import time

import fakes
import places
import pytest
from mps360 import at_hand, routes, runs, solver_names, solvers
from mps360.jobs.write import job_of
from mps360.mps import Reading, read_text
from test_solvers import GLASS, HIGHS_SOLUTION

GOOD_DECK = b"NAME    PLAIN\n XU C1 R2\n XU C2 R3\nENDATA\n"
SOLUTION = b"status = OPTIMAL\n\tValue = -36\nVARS:\nC1 = 2\nC2 = 6\nREDUCED COST:\nPI:\nR2 = -3/2\nR3 = -1\nSLACK:\nR1 = 2\n"
# (esolver is asked twice: with -O for its exact answer)
ESOLVER = """
    words = sys.argv[1:]
    if "-O" in words:
        open(words[words.index("-O") + 1], "wb").write({solution!r})
    if "-b" in words:
        open(words[words.index("-b") + 1], "wb").write({deck!r})
"""


def job():
    return job_of(read_text(GLASS, Reading()))


class Told:
    "what an observer was told"
    def __init__(self, stop=None):
        self.said, self.waited, self.stop = [], [], stop

    def observer(self):
        return runs.Observer(say=self.said.append, going=self.said.append, tick=self.tick)

    def tick(self, seconds, waits):
        self.waited.append(waits())
        if self.stop and self.stop(self.waited[-1]):
            raise KeyboardInterrupt


STATUS = {"ATTESTED": 0, "WRONG": 40, "OPEN": 41, "UNCHECKED": 42}


def says(folder, name, answer):
    "a stand-in for a checker that answers so, or the checker itself; None where there is no answer"
    if answer is None or isinstance(answer, at_hand.Tool):
        return answer
    return at_hand.Tool((fakes.program(folder, name, fakes.CHECKER, answer=answer, status=STATUS[answer.split(" ", maxsplit=1)[0]]),), "other", name=name)


def run(folder, plan, *, opening="overflow", inserted="answers", checker=None, long_checker=None, told=None, begin=None):
    "the outcome of the routes with a stand-in for the program"
    program = fakes.program(folder, "program", fakes.PROGRAM, opening=opening, inserted=inserted)
    there = at_hand.Checkers(lambda: says(folder, "mps360check", checker), lambda: says(folder, "mps360long", long_checker))
    way = routes.Routes(job(), at_hand.Tool((program,), "other"), plan, there, (told or Told()).observer())
    if begin:
        way.begin_at(begin, "model.bas")
    return way.run()


def plan(**more):
    "times are long enough for a busy machine, where a test doesn't set them"
    return routes.Plan(**{"opening_seconds": 60.0, "solver_seconds": 60.0, "run_seconds": 60.0, "processors": 2, **more})



def words_of(outcome):
    return [tried.words for tried in outcome.routes], [tried.why for tried in outcome.routes]


# ---- the order

def test_the_opening_basis_is_enough(tmp_path):
    with fakes.only_path(tmp_path):
        outcome = run(tmp_path, plan(), opening="answers")
    assert (outcome.status, outcome.attempt.words, outcome.attempt.by_checker) == (0, routes.OPENING, False)
    assert words_of(outcome) == ([routes.OPENING], [None])


def test_a_basis_of_the_next_solver(tmp_path):
    "clp crashes, glpsol gives nonsense, lp_solve a basis"
    told = Told()
    with fakes.only_path(tmp_path):
        fakes.program(tmp_path, "clp", fakes.CRASHES)
        fakes.program(tmp_path, "glpsol", fakes.WRITES, content=b"nonsense")
        fakes.program(tmp_path, "lp_solve", fakes.WRITES, content=GOOD_DECK)
        outcome = run(tmp_path, plan(solvers=("clp", "glpsol", "lp_solve")), told=told)
    words, why = words_of(outcome)
    assert words == [routes.OPENING, *(f"INSERT of {name}'s basis and PRIMAL" for name in ("clp", "glpsol", "lp_solve"))]
    assert why[0] == "a number doesn't fit" and why[3] is None
    assert why[1].startswith("no basis of clp: it wrote no basis; signal 11") and why[2].startswith("no basis of glpsol: line 1: ")
    assert outcome.attempt.solver.name == "lp_solve" and outcome.attempt.verdict[3] == "36"
    assert "asking lp_solve for a basis" in told.said


def test_the_exact_answer_is_attested(tmp_path):
    "each basis is singular: esolver's exact answer goes to the checker, as the listing of the model's own names"
    with fakes.only_path(tmp_path):
        fakes.program(tmp_path, "esolver", ESOLVER, solution=SOLUTION, deck=GOOD_DECK)
        outcome = run(tmp_path, plan(solvers=("esolver",)), inserted="singular", checker="ATTESTED 5 REPORTS")
    words, why = words_of(outcome)
    assert words == [routes.OPENING, "INSERT of esolver's basis and PRIMAL", "esolver's exact answer, attested by the checker"]
    assert why == ["a number doesn't fit", "the basis is singular", None]
    assert outcome.attempt.by_checker and outcome.status == 0
    lines = outcome.attempt.lines()
    assert "PRIMAL OPTIMAL STEPS 0 OBJECTIVE 36 CHECKED" in lines and any(line.split()[1:4] == ["P2", "UL", "12"] for line in lines)
    assert outcome.attempt.basis is not None and outcome.attempt.basis.columns == {"doors": "BS", "windows": "BS"}


@pytest.mark.parametrize("checker, wanted", [("UNCHECKED LINE 5", "mps360long"), (None, "mps360long"), ("ATTESTED 5 REPORTS", "mps360check")])
def test_the_checker_of_any_length_is_asked_where_the_other_has_no_answer(tmp_path, checker, wanted):
    with fakes.only_path(tmp_path):
        fakes.program(tmp_path, "esolver", ESOLVER, solution=SOLUTION, deck=GOOD_DECK)
        outcome = run(tmp_path, plan(solvers=("esolver",), only="exact"), checker=checker, long_checker="ATTESTED 5 REPORTS")
    assert outcome.attempt.by_checker and outcome.status == 0 and outcome.tool.name == wanted
    assert outcome.routes[-1].words == "esolver's exact answer, attested by the checker" + (" mps360long" if wanted == "mps360long" else "")


@pytest.mark.parametrize("status, why", [(0, None), (70, "no exact answer of esolver: the checker mps360long of listings wasn't compiled")])
def test_a_checker_is_compiled_where_it_is_needed(tmp_path, status, why):
    "its command is there only once it is compiled; where that fails the route ends, and says so"
    made = fakes.program(tmp_path, "made", fakes.CHECKER, answer="ATTESTED 5 REPORTS", status=0)
    compiles = fakes.program(tmp_path, "compiles", "{status} or os.rename({made!r}, {made!r} + '-long'); sys.exit({status})", status=status, made=made)
    told, long_checker = Told(), at_hand.Tool((made + "-long",), "unproved", (compiles,), "mps360long")
    with fakes.only_path(tmp_path):
        fakes.program(tmp_path, "esolver", ESOLVER, solution=SOLUTION, deck=GOOD_DECK)
        outcome = run(tmp_path, plan(solvers=("esolver",)), inserted="overflow", checker="UNCHECKED LINE 5", long_checker=long_checker, told=told)
    assert outcome.routes[-1].why == why and outcome.attempt.by_checker == (why is None)
    assert "compiling the checker mps360long of listings, which then runs UNPROVED" in told.said


@pytest.mark.parametrize("name", ["mps360check", "mps360long"])
def test_an_unproved_checker_is_compiled_by_its_name(monkeypatch, name):
    "where none is at hand; not where an unproved run is refused"
    monkeypatch.setattr(at_hand, "listing_checker", lambda name: None)
    monkeypatch.delenv("MPS360_PROVED", raising=False)
    tool = at_hand.checker_to_compile(name)
    assert tool is not None and (tool.name, tool.kind) == (name, "unproved")
    assert tool.prepare == (str(places.SCRIPTS / "unproved.py"), "--program", name, "--compile")
    monkeypatch.setenv("MPS360_PROVED", "1")
    assert at_hand.checker_to_compile(name) is None


@pytest.mark.parametrize("checker, words", [("WRONG LINE 9", "the checker of listings says WRONG LINE 9 and ends with 40"), (None, "no checker of listings is at hand")])
def test_an_exact_answer_that_nobody_attests(tmp_path, checker, words):
    with fakes.only_path(tmp_path):
        fakes.program(tmp_path, "esolver", ESOLVER, solution=SOLUTION, deck=GOOD_DECK)
        outcome = run(tmp_path, plan(solvers=("esolver",)), inserted="overflow", checker=checker)
    assert outcome.status == 20 and outcome.attempt.words == routes.OPENING
    assert outcome.routes[-1].why.startswith("no exact answer of esolver: ") and words in outcome.routes[-1].why


@pytest.mark.parametrize("solution", [b"", b"status = INFEASIBLE\n", b"status = OPTIMAL\n nonsense", SOLUTION.replace(b"C1 = 2", b"C1 = 3"), b"\xff\x00", SOLUTION.replace(b"PI:\n", b"")])
def test_an_exact_answer_that_is_none(tmp_path, solution):
    "it ends this route alone, whatever the checker would say"
    with fakes.only_path(tmp_path):
        fakes.program(tmp_path, "esolver", ESOLVER, solution=solution, deck=b"")
        outcome = run(tmp_path, plan(solvers=("esolver",)), checker="ATTESTED 5 REPORTS")
    assert outcome.status == 20 and not outcome.attempt.by_checker
    assert outcome.routes[-1].why.startswith("no exact answer of esolver: ")


def test_a_basis_that_is_handed_in_comes_first(tmp_path):
    from mps360 import bases
    basis = bases.opening(job().model)
    with fakes.only_path(tmp_path):
        outcome = run(tmp_path, plan(), begin=basis)
    assert words_of(outcome) == (["INSERT of model.bas and PRIMAL"], [None])


def test_without_a_solver_it_is_primal(tmp_path):
    with fakes.only_path(tmp_path):
        for solved_by in ((), ("clp",)):
            if solved_by:
                with pytest.raises(solver_names.NoBasis, match=r"clp isn't installed \(apt-get install coinor-clp\)"):
                    run(tmp_path, plan(solvers=solved_by))
            else:
                outcome = run(tmp_path, plan(solvers=solved_by))
                assert (outcome.status, words_of(outcome)[0]) == (20, [routes.OPENING])


@pytest.mark.parametrize("only, words", [("primal", [routes.OPENING]), ("basis", ["INSERT of esolver's basis and PRIMAL"]), ("exact", ["esolver's exact answer, attested by the checker"])])
def test_only_one_route(tmp_path, only, words):
    with fakes.only_path(tmp_path):
        fakes.program(tmp_path, "esolver", ESOLVER, solution=SOLUTION, deck=GOOD_DECK)
        outcome = run(tmp_path, plan(solvers=("esolver",), only=only), checker="ATTESTED 5 REPORTS")
    assert words_of(outcome)[0] == words


# ---- time

def test_primal_goes_on_beside(tmp_path):
    "clp hangs; PRIMAL from the opening basis, which takes 1.5 s, goes on and decides; nothing is left"
    with fakes.only_path(tmp_path) as pids:
        fakes.program(tmp_path, "clp", fakes.HANGS)
        outcome = run(tmp_path, plan(solvers=("clp",), opening_seconds=0.2), opening="late")
        assert (outcome.status, outcome.attempt.words) == (0, routes.OPENING)
        assert words_of(outcome) == ([routes.OPENING, "INSERT of clp's basis and PRIMAL"], [None, "another route came to a verdict first"])
        assert fakes.left_over(pids) == []


def test_one_processor(tmp_path):
    "PRIMAL is ended before a solver is asked, and begins again in the end"
    with fakes.only_path(tmp_path):
        fakes.program(tmp_path, "clp", fakes.FAILS)
        outcome = run(tmp_path, plan(solvers=("clp",), opening_seconds=0.3, processors=1), opening="late")
    words, why = words_of(outcome)
    assert words == [routes.OPENING, "INSERT of clp's basis and PRIMAL", routes.OPENING] and outcome.status == 0
    assert why[0] == "no end in 0.3 seconds" and why[2] is None


def test_seconds_bound_all(tmp_path):
    with fakes.only_path(tmp_path) as pids:
        fakes.program(tmp_path, "clp", fakes.HANGS)
        begun = time.monotonic()
        outcome = run(tmp_path, plan(solvers=("clp",), opening_seconds=2.0, seconds=5.0), opening="hangs")
        assert time.monotonic() - begun < 40
        assert outcome.status == 124 and outcome.attempt.lines() == ["TITLE FAKE"]
        assert fakes.left_over(pids) == []


def test_a_run_from_a_basis_that_hangs(tmp_path):
    with fakes.only_path(tmp_path) as pids:
        fakes.program(tmp_path, "clp", fakes.WRITES, content=GOOD_DECK)
        outcome = run(tmp_path, plan(solvers=("clp",), run_seconds=3.0), inserted="hangs")
        assert words_of(outcome)[1] == ["a number doesn't fit", "no end in 3 seconds"] and outcome.status == 20
        assert fakes.left_over(pids) == []


# ---- what ends all

def test_interrupted(tmp_path):
    "what stands is said, and nothing is left"
    with fakes.only_path(tmp_path) as pids:
        told = Told(stop=lambda waits: waits.startswith(f"{routes.OPENING} (waits for CONVERT), ") and pids.exists())
        outcome = run(tmp_path, plan(solvers=()), opening="hangs", told=told)
        assert outcome.attempt.interrupted and outcome.status == 130 and outcome.attempt.lines() == ["TITLE FAKE"]
        assert fakes.left_over(pids) == []


def test_interrupted_while_a_solver_runs(tmp_path):
    with fakes.only_path(tmp_path) as pids:
        fakes.program(tmp_path, "clp", fakes.HANGS)
        told = Told(stop=lambda waits: re.match(f"waits for a basis of clp, [0-9]+ s of [0-9.]+(; {routes.OPENING} goes on beside it)?$", waits) and pids.exists() and pids.read_text().endswith("\n"))
        outcome = run(tmp_path, plan(solvers=("clp",)), told=told)
        assert outcome.attempt.interrupted and outcome.attempt.lines()[-1].startswith("STOP 20")
        assert fakes.left_over(pids) == []


def test_a_program_that_gives_no_answer(tmp_path):
    with fakes.only_path(tmp_path):
        with pytest.raises(runs.NoAnswer) as none:
            run(tmp_path, plan(solvers=()), opening="fails")
    assert none.value.status == 70


def test_a_run_from_a_basis_that_gives_no_answer(tmp_path):
    "it ends its route alone"
    with fakes.only_path(tmp_path):
        fakes.program(tmp_path, "clp", fakes.WRITES, content=GOOD_DECK)
        outcome = run(tmp_path, plan(solvers=("clp",)), inserted="fails")
    assert outcome.status == 20 and outcome.routes[1].why == "INSERT of clp's basis and PRIMAL: the program gave no answer (it ended with 70)"


def test_a_program_that_cant_be_run(tmp_path):
    with pytest.raises(OSError):
        routes.Routes(job(), at_hand.Tool((str(tmp_path / "none"),), "other"), plan(solvers=())).run()


# ---- real solvers

def real_program(folder):
    "the program of MPS360_PROGRAM, or a script that runs the oracle"
    if os.environ.get("MPS360_PROGRAM"):
        return os.environ["MPS360_PROGRAM"]
    path = pathlib.Path(folder, "oracle-program")
    path.write_text(f"#!/bin/sh\nexec {sys.executable} {places.ORACLE} listing\n", encoding="utf-8")
    path.chmod(0o755)
    return str(path)


@pytest.mark.parametrize("name", solver_names.NAMES)
def test_a_real_basis_takes_no_step(tmp_path, name):
    if solvers.find(name) is None:
        pytest.skip(f"{name} isn't installed")
    outcome = routes.Routes(job(), at_hand.Tool((real_program(tmp_path),), "other"), routes.Plan(solvers=(name,), only="basis")).run()
    assert outcome.status == 0 and outcome.attempt.verdict.groups() == ("OPTIMAL", "0", "36")
    assert outcome.attempt.solver.name == name and outcome.version


def test_highs_goes_before_clp(tmp_path):
    "the order is that of NAMES where no solver is named"
    with fakes.only_path(tmp_path):
        fakes.program(tmp_path, "highs", fakes.WRITES, content=HIGHS_SOLUTION.encode())
        fakes.program(tmp_path, "clp", fakes.WRITES, content=GOOD_DECK)
        outcome = run(tmp_path, plan())
    assert outcome.attempt.words == "INSERT of HiGHS's basis and PRIMAL"


def test_an_only_route_that_comes_to_nothing(tmp_path):
    with fakes.only_path(tmp_path):
        fakes.program(tmp_path, "clp", fakes.SILENT)
        with pytest.raises(solver_names.NoBasis, match="no basis of clp: it wrote no basis"):
            run(tmp_path, plan(solvers=("clp",), only="basis"))
