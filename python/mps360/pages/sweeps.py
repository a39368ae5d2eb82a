"The section of a parametric run: its intervals, what moves in them as plots, and how it ends."
from __future__ import annotations

from collections.abc import Iterator, Mapping
from dataclasses import dataclass
from fractions import Fraction

from mps360.listings.made import OtherJob
from mps360.listings.read import Interval, Line, Parametric
from mps360.pages import certificates, plots
from mps360.pages.markup import Head, Html, folded, joined, paragraph, table, tag
from mps360.pages.shown import affine, interval, number, said
from mps360.pages.subject import Naming, Subject
from mps360.pages.tables import place
from mps360.text import as_text

MOST_FORMULAS = 20_000


@dataclass(frozen=True)
class Sweep:
    "a parametric run of a linear program, where that is known; shift is how its limits move with theta; is_cut that its end may be missing"
    report: Parametric
    naming: Naming
    subject: Subject | None
    shift: Mapping[str, Fraction]
    sense: str
    is_cut: bool

    @property
    def objective(self) -> str:
        "the objective's name"
        return self.subject.objective if self.subject else "the objective"

    @property
    def intervals(self) -> list[Interval]:
        "the intervals that are whole: of a run without an end the last one may be cut off"
        return self.report["intervals"] if "end" in self.report else self.report["intervals"][:-1]

    def html(self) -> Iterator[Html]:
        "the whole section"
        what, where = ("row", "the objective") if self.report["by"] == "paraobj" else ("set", "the rows' limits")
        yield tag("h2", f"Parametric run: theta times the {what} {as_text(self.report['change'])} is added to {where}")
        intervals = self.intervals
        if len({len(part["lines"]) for part in intervals}) > 1:
            raise OtherJob("the intervals have other rows and columns")
        if intervals:
            count = f"{len(intervals)} intervals" if len(intervals) > 1 else "one interval"
            yield paragraph("Theta goes from ", said(intervals[0]["from"]), " to ", said(intervals[-1]["to"]),
                            f", in {count}. In each one basis is optimal at every theta, the ends with it.")
            yield self.interval_table()
            yield from self.plots()
            yield self.formulas()
        yield from self.end()

    def interval_table(self) -> Html:
        "the best value in each interval"
        lines: list[Line] = []
        for part in self.intervals:
            constant, rate = plots.objective_of(part)
            low, high = (str(constant + rate * Fraction(theta)) for theta in (part["from"], part["to"]))
            lines.append({"from": part["from"], "to": part["to"], "constant": constant, "rate": rate, "low": low, "high": high})
        return table("Intervals", [Head("Theta", lambda line: interval(line["from"], line["to"])),
                                   Head("Best value", lambda line: affine(line["constant"], line["rate"])),
                                   Head("at the beginning", lambda line: number(line["low"])), Head("at the end", lambda line: number(line["high"]))], lines)

    def plots(self) -> Iterator[Html]:
        "the best value, and what moves, over theta"
        groups, left_out = plots.figures(self.intervals, as_text(self.objective))
        for title, group in groups:
            yield tag("h3", title)
            yield tag("div", *(tag("figure", tag("figcaption", name), Html(svg)) for name, svg in group), class_="plots")
        if left_out:
            yield paragraph(f"{'One more activity or price moves' if left_out == 1 else f'{left_out} more activities and prices move'}; the tables of the "
                            "intervals have all.")

    def formulas(self) -> Html:
        "every activity and price in every interval, where that are not too many"
        intervals = self.intervals
        if sum(len(part["lines"]) for part in intervals) > MOST_FORMULAS:
            return paragraph("The intervals have too many activities and prices for a page; listing2json.py --table intervals has them.")
        return folded("Every activity and price in every interval", *(self.formula_table(count, part) for count, part in enumerate(intervals, 1)))

    def formula_table(self, count: int, part: Interval) -> Html:
        "every activity and price of an interval"
        heads = [Head("Name", self.naming.name_cell), Head("Stands", lambda line: place(line["at"]), "text"),
                 Head("Activity", lambda line: affine(Fraction(line["value"]), Fraction(line["value_rate"]))),
                 Head("Price", lambda line: affine(Fraction(line["price"]), Fraction(line["price_rate"])))]
        return table(f"Interval {count}: theta from {as_text(part['from'])} to {as_text(part['to'])}", heads, part["lines"])

    def end(self) -> Iterator[Html]:
        "how the run ends, with what proves that"
        report, how = self.report, self.report.get("end")
        if how is None:
            yield paragraph("The listing is cut off here.")
            return
        past = report["at"]
        if how == "ends":
            yield paragraph("The run ends at theta = ", said(past), ", the last one that was asked for.")
        elif how == "infeasible":
            yield tag("div", tag("strong", "No plan "), "keeps all limits past theta = ", said(past), ".", class_="verdict infeasible")
            yield from self.conflict(past)
        else:
            yield tag("div", tag("strong", "No bound: "), "past theta = ", said(past), " the objective has no best value.", class_="verdict unbounded")
            yield from self.direction()

    def conflict(self, past: str) -> Iterator[Html]:
        "the sum that proves that there is no plan past this theta"
        if self.is_cut:
            yield paragraph(certificates.CUT)
        elif self.subject:
            yield from certificates.Conflict(self.subject, self.report["ray"], self.shift, past).html()
        else:
            yield from certificates.factors(self.report["ray"], self.naming)

    def direction(self) -> Iterator[Html]:
        "the direction along which the objective gets better without end"
        if self.is_cut:
            yield paragraph(certificates.CUT)
            return
        yield from certificates.direction(self.report["direction"], self.naming, self.subject)
        if self.subject:
            yield self.change(self.subject)

    def change(self, subject: Subject) -> Html:
        "by how much each unit of the way changes the objective with its part of the change row"
        program, lines = subject.program, self.report["direction"]
        step = Fraction(certificates.step_of(lines, program.objective))
        rows = [line for line in lines if line["number"] <= program.m]
        rate = next((Fraction(line["direction"]) for line in rows if line["name"] == self.report["change"]), Fraction(0))
        more = "more" if self.sense == "MAX" else "less"
        return paragraph(joined([f"Each unit changes {as_text(subject.objective)} + θ {as_text(self.report['change'])} by ", affine(step, rate)]),
                         f", which is {more} than 0 for every theta past ", said(self.report["at"]), ". A row or a bound that should stop this is missing.")
