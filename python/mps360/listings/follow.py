"""Follows a job along its listing: which linear program each report is about. Nothing is solved: where the control program asks for a
verdict, or punches or inserts a basis, the listing's word is taken."""
from collections.abc import Mapping, Sequence
from typing import Any, NoReturn
from fractions import Fraction
from mps360.jobs.decks import Problem
from mps360.jobs.selection import Fault, LinearProgram, Options, Run, VerbFault
from mps360.listings.made import SAME_LINE, OtherJob, each_line

UNKNOWN = (Fault, LookupError, ValueError, ArithmeticError, TypeError, AttributeError)


Told = Mapping[str, Any]


class ListingEnds(Exception):
    "each report was met"


class Followed(Run):
    "a run that takes its verdicts from the reports of a listing; about has the linear program of each report that is about one"
    def __init__(self, text: str, reports: Sequence[Told]) -> None:
        super().__init__(text)
        self.reports = reports
        self.about: list[LinearProgram | None] = []
        self.shifts: dict[int, dict[str, Fraction]] = {}

    def next_report(self, *kinds: str) -> Told:
        "the next report, which is one of these kinds"
        if len(self.about) == len(self.reports):
            raise ListingEnds
        report = self.reports[len(self.about)]
        if report["report"] not in kinds:
            self.refuse()
        return report

    def refuse(self) -> NoReturn:
        "OtherJob, of the present statement"
        raise OtherJob(f"where the job has {self.verb} on card {self.card}, the listing has another report")

    def met(self, report: Told) -> None:
        "the report is about the present linear program"
        for line in each_line(report):
            if not 1 <= line["number"] <= len(self.lp.names) or self.lp.names[line["number"] - 1] != line["name"]:
                raise OtherJob(f"the job has no variable {line['number']} {line['name']}")
        self.about.append(self.lp)

    def execute(self, verb: str, words: list[str]) -> None:
        before = len(self.lines)
        super().execute(verb, words)
        for line in self.lines[before:]:
            report = self.next_report(*SAME_LINE)
            if line.rstrip() != SAME_LINE[report["report"]].format(**report).rstrip():
                self.refuse()
            self.about.append(None)

    def set_up(self, words: list[str]) -> None:
        bound, ranges = (words[words.index(kind) + 1] if kind in words else None for kind in ("BOUND", "RANGE"))
        options = Options(bound, ranges, "MAX" if "MAX" in words else "MIN")
        problem = self.filed("XPBNAME")
        self.setup, self.mark = (problem, options), None
        self.select()
        self.lines.append(f"SETUP   {problem.name:<8} {options.sense}")

    def report_by(self, verb: str, *kinds: str) -> Told:
        "the next report, which is to be by this verb"
        report = self.next_report(*kinds)
        if report["by"] != verb.lower():
            self.refuse()
        return report

    def path(self, verb: str) -> tuple[str, ...]:
        self.select()
        report = self.report_by(verb, "verdict")
        self.met(report)
        self.mark = str(report["verdict"]).upper()
        return (self.mark,)

    @property
    def problem(self) -> Problem:
        "the problem that is set up"
        if self.setup is None:
            raise VerbFault(3)
        return self.setup[0]

    def parametric(self, verb: str) -> tuple[str, ...]:
        self.select()
        self.mark, report = None, self.report_by(verb, "parametric", "verdict")
        self.met(report)
        if report["report"] == "verdict":
            self.about[-1] = self.at_opening(verb)
            return (report["verdict"].upper(),)
        if verb == "PARARHS":
            self.shifts[len(self.about) - 1] = self.problem.sets["RHS"].get(report["change"], {})
        if "at" not in report:
            raise ListingEnds
        self.cells["XPARAM"] = Fraction(report["at"])
        return ("OPTIMAL",)

    def at_opening(self, verb: str) -> LinearProgram:
        "the linear program at XPARAM, whose limits PARARHS has moved, or whose objective PARAOBJ has"
        if verb == "PARAOBJ":
            return self.lp.with_change(self.lp.names.index(self.cells["XCHROW"]), self.cells["XPARAM"])
        values = self.problem.sets["RHS"].get(self.cells.get("XCHCOL", ""), {})
        shift = [values.get(name, Fraction(0)) for name in self.lp.names[:self.lp.m]] + [Fraction(0)] * self.lp.n
        return self.lp.with_limits(shift, self.cells["XPARAM"])

    def basis_out(self) -> None:
        self.select()
        self.lines.append(f"PUNCH   {self.problem.name:<8} CARDS {self.next_report('punch')['cards']}")

    def insert(self) -> None:
        taken = self.basis_taken()
        self.next_report("insert")
        self.inserted(*taken)

    def solution(self) -> None:
        self.met(self.next_report("solution"))

    def ranges(self) -> None:
        self.met(self.next_report("ranges"))


def follow(text: str, reports: Sequence[Told]) -> tuple[list[LinearProgram | None], dict[int, dict[str, Fraction]]]:
    """for each report the linear program that it is about, or None where it is about none, or the job couldn't be followed so far; and,
    by the report's place, the shift of the limits in a run of PARARHS"""
    try:
        run = Followed(text, reports)
    except UNKNOWN:
        return [None] * len(reports), {}
    try:
        run.run()
    except (ListingEnds, *UNKNOWN):
        pass
    return run.about + [None] * (len(reports) - len(run.about)), run.shifts
