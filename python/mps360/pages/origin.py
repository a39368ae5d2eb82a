"""Where a page's answer comes from, at its top: whether it is proved and by what, the way it came, the file and the program with their checksums, and
when the page was made."""
from __future__ import annotations

from collections.abc import Iterator
from dataclasses import dataclass
from datetime import datetime, timezone
from typing import Literal

from mps360.commands import called
from mps360.pages.markup import Html, joined, paragraph, tag
from mps360.provenance import Provenance
from mps360.version import version

State = Literal["PROVED", "UNPROVED", "NO VERDICT"]
UNKNOWN = f"this page can't see which program printed the listing. {called('mps360check')} JOB LISTING says whether its numbers prove what it says."
NOTHING = "the listing has no verdict, so nothing is claimed of the problem."


@dataclass(frozen=True)
class Origin:
    "where a listing comes from; what isn't known is empty. A checksum is the SHA-256 in hexadecimal; made is the time at which the page was made"
    made: str
    file: str = ""
    file_sha256: str = ""
    is_proved: bool = False
    who: str = UNKNOWN                  # printed or attested the listing, as a sentence
    route: str = ""
    tried: tuple[str, ...] = ()         # the other routes, each with why it came to nothing
    program: str = ""                   # with its version
    program_sha256: str = ""

    @classmethod
    def of(cls, provenance: Provenance, file: str) -> Origin:
        "of what the routes came to, for this file"
        solver = f" ({provenance.solver_words})" if provenance.version else ""
        name = provenance.checker if provenance.by_checker else "mps360"
        program = f"another program in place of {name}" if provenance.kind == "other" else f"{name}, {version()}"
        return cls(now(), "standard input" if file == "-" else file, provenance.file_sha256 or "", provenance.kind == "proved",
                   lowered(provenance.page_sentence()), f"{provenance.route}{solver}" if provenance.has_verdict or not provenance.routes else "",
                   tuple(f"{tried.words}: {tried.why}" for tried in provenance.routes if tried.why), program, provenance.program_sha256 or "")

    def state(self, has_claims: bool) -> State:
        "whether the answer is proved; has_claims says whether the listing says something of the problem"
        return "NO VERDICT" if not has_claims else "PROVED" if self.is_proved else "UNPROVED"

    def items(self) -> Iterator[tuple[str, tuple[Html, ...]]]:
        "what is known: a name, and its lines"
        def line(text: str, sum_: str) -> tuple[Html, ...]:
            return joined([text]), *([tag("span", f"SHA-256 {sum_}", class_="sum")] if sum_ else [])
        if self.route or self.tried:
            tried = "tried too" if self.route else "tried"
            yield "Route", (*([joined([self.route])] if self.route else []), *(joined([f"{tried}: {words}"]) for words in self.tried))
        if self.file:
            yield "File", line(self.file, self.file_sha256)
        if self.program:
            yield "Program", line(self.program, self.program_sha256)
        yield "Page made", (joined([self.made]),)

    def box(self, has_claims: bool) -> Html:
        "the box at the top of the page"
        state = self.state(has_claims)
        words = NOTHING if state == "NO VERDICT" else self.who
        lines = [part for name, parts in self.items() for part in (tag("dt", name), *(tag("dd", line) for line in parts))]
        said = paragraph(tag("strong", state), f": {words}")
        kind = "proved" if state == "PROVED" else "unproved"
        return tag("section", said, tag("dl", *lines), class_=f"origin {kind}", aria_label="Where this answer comes from")


def lowered(sentence: str) -> str:
    "a sentence to stand behind a colon"
    return sentence[:1].lower() + sentence[1:]


def now() -> str:
    "the present time, in UTC, to the minute"
    return datetime.now(timezone.utc).strftime("%Y-%m-%d %H:%M UTC")
