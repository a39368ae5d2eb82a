"""A solver of PuLP problems that answers in exact fractions.

    from mps360.pulp import MPS360
    problem.solve(MPS360())         values, dj, pi and slack as floats, as PuLP has them; the exact Answer in problem.exact

Coefficients come from the problem itself, not through PuLP's MPS file, which has 13 digits: a float is taken as the shortest decimal that prints as it,
so 0.1 is 1/10; a Fraction stays what it is."""
from __future__ import annotations

from collections.abc import Callable, Sequence
from fractions import Fraction
from typing import Any

import pulp

from mps360 import api
from mps360.answer import Answer, Row
from mps360.errors import NoProgram, Refused
from mps360.model import Model

OBJECTIVE = "OBJECTIVE"
KINDS = {pulp.LpConstraintEQ: "E", pulp.LpConstraintLE: "L", pulp.LpConstraintGE: "G"}
STATES = {"optimal": (pulp.LpStatusOptimal, pulp.LpSolutionOptimal), "infeasible": (pulp.LpStatusInfeasible, pulp.LpSolutionInfeasible),
          "unbounded": (pulp.LpStatusUnbounded, pulp.LpSolutionUnbounded)}
NOT_SOLVED = pulp.LpStatusNotSolved, pulp.LpSolutionNoSolutionFound


def exact(value: Any) -> Fraction:
    "a number of a problem: of a float the shortest decimal that prints as it"
    return Fraction(value) if isinstance(value, (int, Fraction)) else Fraction(str(value))


def model_of(problem: Any, relax: bool = False) -> Model:
    "the model of a problem; Refused where a variable asks for whole numbers, unless relax takes any"
    variables = problem.variables()
    whole = [variable.name for variable in variables if variable.cat != pulp.LpContinuous]
    if whole and not relax:
        raise Refused(f"the variable {whole[0]} asks for whole numbers; MPS360(relax=True) takes any")
    objective = next(name for name in (OBJECTIVE, *(f"{OBJECTIVE}{k}" for k in range(len(problem.constraints) + 1))) if name not in problem.constraints)
    model = Model(problem.name, "MAX" if problem.sense == pulp.LpMaximize else "MIN", objective, constant_sign=1)
    if whole:
        model.relaxed = whole
        model.said.append(f"{len(whole)} variables should have whole numbers: any numbers are allowed here")
    constant = problem.objective.constant if problem.objective is not None else 0
    model.add_row(objective, "N", exact(constant))
    entries: dict[str, dict[str, Fraction]] = {variable.name: {} for variable in variables}
    for name, row in problem.constraints.items():
        model.add_row(name, KINDS[row.sense], -exact(row.constant))
    for name, terms in ((objective, problem.objective or {}), *problem.constraints.items()):
        for variable, value in terms.items():
            entries[variable.name][name] = exact(value)
    for variable in variables:
        lower, upper = (None if end is None else exact(end) for end in (variable.lowBound, variable.upBound))
        model.add_column(variable.name, entries[variable.name], lower, upper)
    return model


def slack_of(row: Row) -> float:
    "what PuLP calls slack: the limit less the activity"
    limit = row.upper if row.upper is not None else row.lower
    return float((limit or 0) - row.activity)


class MPS360(pulp.LpSolver):  # type: ignore[misc]
    """the solver. timeLimit is in seconds; with_ names the solvers that may be asked for a basis (None: those that are there; empty: nobody); relax takes
    variables of whole numbers as any; program is another program than the proved one, and msg prints what it waits for"""
    name = "MPS360"

    def __init__(self, timeLimit: float | None = None, msg: bool = False, with_: Sequence[str] | None = None, *, relax: bool = False, program: str | None = None) -> None:
        super().__init__(mip=False, msg=msg, timeLimit=timeLimit)
        self.asked, self.relax, self.program = with_, relax, program

    def available(self) -> bool:
        "whether there is a program that solves"
        try:
            return api.proved(self.program) is not None
        except NoProgram:
            return False

    def actualSolve(self, lp: Any, **_: Any) -> int:  # pylint: disable=arguments-differ
        "solves the problem; its status"
        model = model_of(lp, self.relax)
        answer = lp.exact = api.solve(model, with_=self.asked, seconds=self.timeLimit, program=self.program, on_life=self.teller())
        status, solution = STATES.get(answer.status, NOT_SOLVED)
        if answer.columns:
            self.assign(lp, answer, model.objective)
        elif answer.point:
            lp.assignVarsVals({name: float(value) for name, value in answer.point.items()})
        lp.assignStatus(status, solution)
        return int(status)

    def teller(self) -> Callable[[api.Life], None] | None:
        "prints what the program waits for, where that is wanted"
        return (lambda life: print(f"MPS360: {life.seconds:.0f} s, {life.waits_for}", flush=True)) if self.msg else None

    @staticmethod
    def assign(problem: Any, answer: Answer, objective: str) -> None:
        "puts the plan into the problem, as floats"
        rows = {name: row for name, row in answer.rows.items() if name != objective}
        problem.assignVarsVals({name: float(column.activity) for name, column in answer.columns.items()})
        problem.assignVarsDj({name: float(column.reduced_cost) for name, column in answer.columns.items()})
        problem.assignConsPi({name: float(row.dual) for name, row in rows.items()})
        problem.assignConsSlack({name: slack_of(row) for name, row in rows.items()})
