"""The files that HiGHS writes: its solution file in the raw style, which has the basis at its end, and its basis file.

    basis = read_basis(text, model)       by the names of the model; Refused names the line, where it is no such basis"""
from __future__ import annotations

import re
from collections.abc import Sequence
from fractions import Fraction

from mps360.bases import BASIC, FREE, LOWER, UPPER, Basis, opening, opening_of
from mps360.errors import Refused
from mps360.model import Model

HEAD = re.compile(r"HiGHS(?:_basis_file)? v\d+")
SECTION = re.compile(r"# (Columns|Rows) (\d{1,9})")
STATUS = {"0": LOWER, "1": BASIC, "2": UPPER, "3": FREE}
STATUSES = (*STATUS, "4")   # 4 is nonbasic, and the file doesn't say at which limit


def refused(cause: str, line: int, word: str | None = None) -> Refused:
    return Refused(cause, word, line)


class Lines:
    "the lines of a file, from its basis on"

    def __init__(self, text: str) -> None:
        self.lines = text.rstrip().split("\n")
        heads = [k for k, line in enumerate(self.lines) if HEAD.fullmatch(line.strip())]
        if not heads:
            raise Refused("it has no basis of HiGHS, which begins with HiGHS v1")
        self.at = heads[-1] + 1

    def take(self) -> str:
        "the next line"
        if self.at == len(self.lines):
            raise refused("the file ends before its basis does", self.at)
        self.at += 1
        return self.lines[self.at - 1].strip()

    def section(self, what: str, names: Sequence[str]) -> list[str]:
        "the statuses of the columns or of the rows: numbers alone, or a name before each"
        found = SECTION.fullmatch(self.take())
        if not found or found[1] != what:
            raise refused(f"# {what} is due here", self.at)
        if int(found[2]) != len(names):
            raise refused(f"it is of {found[2]} {what.lower()}, and the model has {len(names)}", self.at, found[2])
        words: list[tuple[int, str]] = []
        each = 1
        while len(words) < len(names) * each:
            more = self.take().split()
            if not words and more and more[0] not in STATUSES:
                each = 2
            words += [(self.at, word) for word in more]
        for (line, word), name in zip(words[::2], names) if each == 2 else ():
            if word != name:
                raise refused(f"the model has another name than {word[:30]} in this place", line, word)
        statuses = words[each - 1::each]
        for line, word in statuses + words[len(names) * each:]:
            if word not in STATUSES or len(statuses) > len(names):
                raise refused(f"{word[:30]} isn't a status from 0 to 4, for one of {len(names)} {what.lower()}", line, word)
        return [word for _, word in statuses]


def read_basis(text: str, model: Model) -> Basis:
    "the basis that stands in a basis file or at the end of a solution file; rows are those that aren't N"
    lines = Lines(text)
    valid = lines.take()
    if valid != "Valid":
        raise refused(f"the basis isn't called valid: {valid[:30]}", lines.at)
    columns, rows = list(model.columns), [row for row, kind in model.rows.items() if kind != "N"]
    basis = opening(model)
    basis.writer = "highs"
    for name, word in zip(columns, lines.section("Columns", columns)):
        basis.columns[name] = standing(word, model.column_limits(name))
    for name, word in zip(rows, lines.section("Rows", rows)):
        basis.rows[name] = standing(word, model.row_limits(name))
    if sum(status == BASIC for table in (basis.rows, basis.columns) for status in table.values()) != len(model.rows):
        raise Refused("the basis hasn't as many basic variables as there are rows")
    return basis


def standing(word: str, limits: tuple[Fraction | None, Fraction | None]) -> str:
    "where a variable stands with this status: at the limit that it has, where it is said to stand at one that it hasn't"
    status = STATUS.get(word)
    if status == BASIC:
        return BASIC
    lower, upper = limits
    if status == UPPER and upper is not None and lower != upper or status == LOWER and lower is not None:
        return status
    return opening_of(limits)
