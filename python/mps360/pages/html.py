"""Makes a page of a job and its listing: one HTML file without outside parts and without scripts.

    page(job, listing, names, origin, notes)        its text; NoListing, or OtherJob where the listing is one of another job"""
from __future__ import annotations

import hashlib
from collections.abc import Iterator, Sequence

from mps360.commands import called
from mps360.listings.follow import follow
from mps360.listings.read import NO_NAMES, Inserted, Filed, Names, Parametric, Punched, Report, Setup, Verdict, name_back, parse
from mps360.notes import of_table
from mps360.pages import certificates
from mps360.pages.markup import Html, content, folded, joined, paragraph, tag
from mps360.pages.origin import Origin, now
from mps360.pages.shown import said
from mps360.pages.style import STYLE
from mps360.pages.subject import Naming, Subject, unit_span
from mps360.pages.sweeps import Sweep
from mps360.pages.tables import plan
from mps360.text import as_text, counted
from mps360.units import units_of

STOPS = {"4": "the program was called with words that it doesn't know", "8": "the control program has a fault", "10": "a statement can't be done",
         "12": "a deck has a fault", "13": "a card has a fault", "16": "the limit on steps was reached", "17": "the limit on statements was reached",
         "20": "a number became too large to be kept", "24": "the job couldn't be read", "25": "the listing couldn't be written",
         "26": "the deck couldn't be punched", "28": "there wasn't enough memory"}
MOST_SHOWN_BYTES = 1_000_000
CLAIMS = ("verdict", "parametric")
POLICY = "default-src 'none'; style-src 'unsafe-inline'; base-uri 'none'; form-action 'none'"
SWITCHES = (("exact", "Exact fractions"), ("most", "Leave out columns at 0 and rows without a price"))
PROVED = ("The listing below has each verdict and number exactly. Where the proved program prints a listing, or the proved checker attests it, each of its "
          "claims about the linear program on the job's cards is proved: that no plan is better, that no plan is there, that there is no bound, and that "
          "the intervals are exact.")
SHOWN = ("This page was made of the listing by a script that is tested, not proved. Its own are: decimals (a number after ≈ is rounded, the others are "
         "exact), names that were put back from a table, sums, sentences and units, a constant that was added, and the pictures. Where they differ, the "
         "listing counts. That the cards say what is meant nobody can prove.")


class Page:
    "a page of a job and its listing; notes are what was changed, left out or chosen, those of the table of names where none are given"

    def __init__(self, job: str, listing: str, names: Names = NO_NAMES, origin: Origin | None = None, notes: Sequence[str] | None = None) -> None:
        self.job, self.listing, self.origin = job, listing, origin or Origin(now())
        self.parsed = parse(listing)
        self.reports = self.parsed["reports"]
        self.about, self.shifts = follow(job, self.reports)
        self.has_constant = name_back(self.parsed, names)
        self.naming = Naming.of(names[0], units_of(job))
        self.sense = "MIN"
        self.notes = list(of_table(names[0]) if notes is None else notes)

    def subject(self, k: int) -> Subject | None:
        "the linear program that a report is about, where it is known"
        program = self.about[k]
        return Subject(program, self.naming) if program else None

    def is_cut(self, k: int) -> bool:
        "whether the listing may be cut off in this report"
        return self.parsed["end"] is None and k == len(self.reports) - 1

    def objective(self, k: int) -> tuple[str, str]:
        "the name and the unit of the objective of the report at this place"
        subject = self.subject(k)
        return (as_text(subject.objective), self.naming.unit(subject.objective)) if subject else ("the objective", "")

    # ---- verdicts

    def verdict(self, k: int, report: Verdict) -> Iterator[Html]:
        "the verdict in a sentence, what was changed, and what proves that there is no plan, or no best one"
        if report["by"] in ("paraobj", "pararhs"):
            yield paragraph(f"At the first value of theta {report['by'].upper()} finds no best plan, so there are no intervals.")
        kind = report["verdict"]
        check = "" if report["checked"] else " The second check met a number too large to be kept, and stopped; it found nothing wrong."
        yield tag("div", tag("strong", f"{kind.capitalize()}. "), self.sentence(k, report), check, class_=f"verdict {kind}", role="status")
        yield self.notes_box()
        steps = counted(report["steps"], "step")
        yield paragraph(f"After {steps} of the simplex path{', and checked again' if report['checked'] else ''}.", class_="soft")
        if kind != "optimal":
            yield from self.certificate(k, report)

    def sentence(self, k: int, report: Verdict) -> Html:
        "what the verdict says"
        kind, (name, unit) = report["verdict"], self.objective(k)
        most, more = ("greatest", "more") if self.sense == "MAX" else ("least", "less")
        if kind == "optimal":
            total = report.get("objective_with_constant", report["objective"])
            parts = [f"The {most} value of {name} is ", said(total), unit_span(unit), f": the plan below reaches it, and no plan that keeps all limits has {more}."]
            if total != report["objective"]:
                parts += [" That is ", said(report["objective"]), " and the constant ", said(report["objective_constant"]), "."]
            return joined(parts)
        if kind == "unbounded":
            return joined([f"There is no best plan: {name} {'grows' if self.sense == 'MAX' else 'falls'} without end."])
        if "crossed" in report:
            return joined([f"No plan keeps all limits: the lower limit of {self.crossed_name(k, report)} is above its upper one."])
        if self.is_cut(k):
            return joined(["No plan keeps all limits."])
        return joined([f"No plan keeps all limits: {certificates.conflict_of(report['ray'])} conflict."])

    def crossed_name(self, k: int, report: Verdict) -> str:
        "the name of the variable whose limits cross"
        subject = self.subject(k)
        return as_text(subject.name(report["crossed"] - 1)) if subject else f"number {report['crossed']}"

    def certificate(self, k: int, report: Verdict) -> Iterator[Html]:
        "the sum or the direction that proves the verdict"
        subject = self.subject(k)
        if self.is_cut(k):
            yield paragraph(certificates.CUT)
        elif "crossed" in report and subject:
            ray = certificates.crossed_ray(subject.name(report["crossed"] - 1), report["crossed"])
            yield from certificates.Conflict(subject, ray, {}).html()
        elif "ray" in report:
            yield from certificates.Conflict(subject, report["ray"], {}).html() if subject else certificates.factors(report["ray"], self.naming)
        elif "direction" in report:
            yield from certificates.direction(report["direction"], self.naming, subject)
            if subject:
                yield self.change(subject, report)

    def change(self, subject: Subject, report: Verdict) -> Html:
        "by how much each unit of the way changes the objective"
        row = subject.program.objective
        step = certificates.step_of(report["direction"], row)
        name = as_text(subject.objective)
        return paragraph(f"Each unit changes {name} by ", certificates.change_of(report["direction"], subject, row), said(step),
                         unit_span(self.naming.unit(subject.objective)), ". A row or a bound that should stop this is missing, or MIN stands for MAX.")

    def notes_box(self) -> Html:
        "what was changed, left out or chosen of the file, once: under the first verdict, or at the end where there is none"
        if not self.notes:
            return Html("")
        lines, self.notes = tag("ul", *(tag("li", note) for note in self.notes)), []
        return tag("div", tag("strong", "What was changed, left out or chosen in reading the file:"), lines, class_="notes", role="note")

    # ---- reports

    def report(self, k: int, report: Report) -> Iterator[Html]:
        "a report as it is shown"
        if report["report"] == "verdict":
            yield from self.verdict(k, report)
        elif report["report"] == "parametric":
            yield from self.parametric(k, report)
        elif report["report"] == "solution" or report["report"] == "ranges":
            yield from self.plan(k)
        elif report["report"] == "title":
            if k:
                yield tag("h2", report["text"] or "(no title)")
        else:
            yield paragraph(self.line(report), class_="soft")

    def line(self, report: Filed | Punched | Inserted | Setup) -> str:
        "a report of one line, as a sentence"
        name = as_text(report["name"])
        if report["report"] == "setup":
            self.sense = report["sense"]
            return f"{name or 'The problem'} is set up: the objective is to be {'greatest (MAX)' if self.sense == 'MAX' else 'least (MIN)'}."
        if report["report"] == "convert" or report["report"] == "revise":
            done, entries = "read" if report["report"] == "convert" else "revised", f"{report['entries']} {'entry' if report['entries'] == 1 else 'entries'}"
            return f"Problem {name or '(no name)'}, {done}: {counted(report['rows'], 'row')}, {counted(report['columns'], 'column')}, {entries}."
        if report["report"] == "insert":
            return f"The basis of the deck {name or '(no name)'} was taken: {counted(report['basic'], 'column', 'is', 'are')} basic."
        what = "deck" if report["report"] == "bcdout" else "basis"
        return f"The {what} of {name} was punched, in {counted(report['cards'], 'card')}."

    def parametric(self, k: int, report: Parametric) -> Iterator[Html]:
        "a parametric run"
        yield from Sweep(report, self.naming, self.subject(k), self.shifts.get(k, {}), self.sense, self.is_cut(k)).html()

    def plan(self, k: int) -> Iterator[Html]:
        "a SOLUTION with the RANGE beside it, or one of the two alone; the second of them shows nothing"
        here, after = self.reports[k], self.reports[k + 1] if k + 1 < len(self.reports) else None
        before = self.reports[k - 1] if k else None
        kinds = {"solution": "ranges", "ranges": "solution"}
        if before and before["report"] == kinds[here["report"]]:
            return
        found = [here, *([after] if after and after["report"] == kinds[here["report"]] else [])]
        solution = next((report for report in found if report["report"] == "solution"), None)
        ranges = next((report for report in found if report["report"] == "ranges"), None)
        yield from plan(solution, ranges, self.naming, self.objective(k)[1])

    # ---- the page

    def end(self) -> Iterator[Html]:
        "a listing that has no END line"
        end = self.parsed["end"]
        if end is None:
            yield tag("div", tag("strong", "Cut off. "), "The listing has no end: what is here isn't all of it.", class_="verdict stop")
        elif end["text"].startswith("STOP"):
            why = STOPS.get(str(end["status"]), "see the line")
            yield tag("div", tag("strong", f"Stopped with status {end['status']}: "), f"{why}. ", tag("code", end["text"].split("\n")[0]),
                      f" The reports above stand. {called('explain')} JOB LISTING says what to do.", class_="verdict stop", role="status")

    def title(self) -> str:
        "the title of the first report, or what comes nearest"
        for report in self.reports[:1]:
            found = report["text"] if report["report"] == "title" else str(report.get("name", ""))
            if found.strip():
                return found.strip()
        return "A listing of mps360"

    def whole(self) -> str:
        "the text of the page"
        parts = [part for k, report in enumerate(self.reports) for part in self.report(k, report)]
        has_claims = any(report["report"] in CLAIMS for report in self.reports)
        title = self.title()
        head = [Html('<meta charset="utf-8">'), Html('<meta name="viewport" content="width=device-width,initial-scale=1">'),
                Html(f'<meta http-equiv="Content-Security-Policy" content="{POLICY}">'), tag("title", title), Html(f"<style>{STYLE}</style>")]
        tools = Html('<a class="skip" href="#page">To the page</a>\n') + "".join(
            f'<input class="tools" type="checkbox" id="{key}"> <label class="tools" for="{key}">{words}</label>\n' for key, words in SWITCHES)
        main = tag("main", tag("h1", title), self.origin.box(has_claims), *parts, *self.end(), self.notes_box(), tag("section", *self.proved(), class_="end"), id="page")
        return f'<!DOCTYPE html>\n<html lang="en"><head>{joined(head)}</head>\n<body>\n{tools}{main}\n</body></html>\n'

    def proved(self) -> Iterator[Html]:
        "what is proved, and what this page only shows, with the listing and the job themselves"
        yield tag("h2", "What is proved, and what this page only shows")
        yield paragraph(PROVED)
        yield paragraph(SHOWN)
        for what, text in (("The listing", self.listing), ("The job", self.job)):
            digest = hashlib.sha256(text.encode("latin-1", "replace")).hexdigest()
            shown = tag("pre", Html("\n".join(content(line) for line in text.split("\n"))))
            if len(text) > MOST_SHOWN_BYTES:
                shown = paragraph(f"It has {len(text)} bytes, and isn't shown.")
            yield paragraph(f"{what}: ", tag("span", f"SHA-256 {digest}", class_="sum"))
            yield folded(what, shown)


def page(job: str, listing: str, names: Names = NO_NAMES, origin: Origin | None = None, notes: Sequence[str] | None = None) -> str:
    "the page of a job and its listing, as text; the notes are those of the table of names where none are given"
    return Page(job, listing, names, origin, notes).whole()
