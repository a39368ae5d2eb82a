"""Where an answer comes from: which program or checker proved it, by which route, with whose basis, of which file. Each form of an answer says it."""
from __future__ import annotations

from collections.abc import Sequence
from dataclasses import dataclass
from typing import TYPE_CHECKING, Literal

from mps360.commands import who_proves

if TYPE_CHECKING:
    from mps360.at_hand import Kind
    from mps360.routes import Outcome, Tried

CHECKER = "mps360check"
ProvedBy = Literal["program", "checker", "none"]
# the columns of CSV, on each line of a table
CSV_COLUMNS = ("proved_by", "route", "solver", "file_sha256", "program_sha256")


@dataclass(frozen=True)
class Provenance:
    "where an answer comes from; a checksum is the SHA-256 in hexadecimal, None where the file isn't known"
    kind: Kind                          # of the program, or of the checker
    by_checker: bool
    route: str                          # the words of the route
    routes: tuple[Tried, ...] = ()      # all that were tried, in the order in which they began
    solver: str = ""                    # whose basis or answer it is; empty where it is nobody's
    version: str = ""
    file_sha256: str | None = None
    program_sha256: str | None = None
    has_verdict: bool = True
    checker: str = ""                   # the name of the checker that attested it; empty where none did

    @classmethod
    def of(cls, outcome: Outcome, file_sha256: str | None) -> Provenance:
        "of what the routes came to"
        attempt, tool = outcome.attempt, outcome.tool
        solver = attempt.solver.title if attempt.solver else ""
        return cls(tool.kind, attempt.by_checker, attempt.words, tuple(outcome.routes), solver, outcome.version, file_sha256, tool.checksum,
                   attempt.verdict is not None, tool.name if attempt.by_checker else "")

    @property
    def proved_by(self) -> ProvedBy:
        "who proved it: none where what ran isn't proved, or there is no verdict"
        return "none" if self.kind != "proved" or not self.has_verdict else "checker" if self.by_checker else "program"

    @property
    def checker_title(self) -> str:
        "what the checker is called: mps360check is the checker, and the one of any length has its name"
        return "checker" if self.checker in ("", CHECKER) else f"checker {self.checker}"

    @property
    def solver_words(self) -> str:
        "the solver with its version"
        return f"{self.solver} {self.version}".strip()

    def as_json(self) -> dict[str, object]:
        "the fields of `run` in JSON"
        return {"proved_by": self.proved_by, "checker": self.checker or None, "route": self.route,
                "routes": [{"words": tried.words, "seconds": tried.seconds, "why": tried.why} for tried in self.routes],
                "solver": {"name": self.solver, "version": self.version} if self.solver else None,
                "file_sha256": self.file_sha256, "program_sha256": self.program_sha256}

    def cells(self) -> dict[str, str]:
        "the cells of CSV_COLUMNS"
        return dict(zip(CSV_COLUMNS, (self.proved_by, self.route, self.solver_words, self.file_sha256 or "", self.program_sha256 or "")))

    def route_sentence(self) -> str:
        "by which route it was found, for people"
        if not self.has_verdict:
            return f"No route came to a verdict: {tried_words(self.routes)}." if self.routes else ""
        others = f" ({self.solver_words})" if self.version else ""
        failed = [f"{tried.words}: {tried.why}" for tried in self.routes if tried.why]
        if not self.routes:
            return ""
        return f"By {self.route}{others}{'; before, or beside it: ' if failed else ''}{'; '.join(failed)}."

    def checksum_sentence(self) -> str:
        "the checksums, for people; empty where none is known"
        what = self.checker_title if self.by_checker else "program"
        parts = [f"{name} {value}" for name, value in (("file", self.file_sha256), (what, self.program_sha256)) if value]
        return f"SHA-256: {', '.join(parts)}" if parts else ""

    def line(self) -> str:
        "who proved the answer, or why it isn't proved, and by which route, in a line"
        if not self.has_verdict:
            return f"no verdict: {tried_words(self.routes)}"
        what = self.checker_title if self.by_checker else "program"
        who = {"proved": f"proved by the {what}", "unproved": f"not proved, since the {what} ran unproved",
               "other": f"not proved, since another {what} ran"}[self.kind]
        return f"{who}: by {self.route}{f' ({self.solver_words})' if self.version else ''}"

    def sentence(self) -> str:
        "whether the listing is proved, for people"
        proved_one = who_proves("scripts/build.sh builds the proved one")
        if self.by_checker:
            return {"proved": f"The proved {self.checker_title} attested the listing, so its verdict and numbers are proved for the job's cards.",
                    "unproved": f"Not proved: the {self.checker_title} ran unproved ({proved_one}).",
                    "other": "Not proved: another program than the proved checker attested this."}[self.kind]
        return {"proved": "The proved program printed the listing, so its verdict and numbers are proved for the job's cards.",
                "unproved": f"Not proved: the program ran unproved ({proved_one}).",
                "other": "Not proved: another program printed this."}[self.kind]

    def page_sentence(self) -> str:
        "who printed the listing, as a page says it"
        if self.by_checker:
            return {"proved": f"The proved {self.checker_title} attested the listing.", "unproved": f"An UNPROVED run of the {self.checker_title} attested the listing.",
                    "other": "Another program than the proved checker attested the listing."}[self.kind]
        return {"proved": "The proved program printed the listing.", "unproved": "An UNPROVED run of the program printed the listing.",
                "other": "Another program than the proved one printed the listing."}[self.kind]


def tried_words(routes: Sequence[Tried]) -> str:
    "the routes in a line, as a summary has them"
    return "; ".join(f"{tried.words}: {tried.why or 'the answer'}" for tried in routes)
