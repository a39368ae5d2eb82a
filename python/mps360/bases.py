"""Reads the files in which other solvers write a basis, and makes a basis deck of one. basis2deck.py and prove import it.

    basis = read_text(TEXT, model, writer=None)     a Basis, or mps_file.Refused, which names the line and shows the word
    basis = read_file(PATH, model, writer=None)     the same of a file; OSError where it can't be read
    deck = deck_of(basis, job)                      its deck, by the names of a job of mps_file

The model is one of mps_file, by whose names the file speaks. The writer is one of WRITERS, or None where the file is to tell it.

A basis is one way to say which limits a plan keeps exactly. Of m rows and n columns m are basic, each other one stands at a limit, or is free
and at 0. Programs that write XU, XL, UL and LL mean the same by basic, but not by upper and lower:
    clp and QSopt_ex name a row by the limit at which its activity stands, but QSopt_ex says lower of an L row without a range
    lp_solve turns L rows, and E rows with a range below 0: what it calls lower is their upper limit
    glpsol has no such cards: its -w writes one line for each row that isn't N, and each column, by their numbers
So where a row has one limit, or two that are equal, the code is of no use, and where it has two that differ it goes by the writer."""
import re
from collections.abc import Collection
from dataclasses import dataclass, field
from fractions import Fraction

from mps360.errors import Refused
from mps360.files import unzipped
from mps360.jobs.write import Job
from mps360.model import Model, of_set
from mps360.text import some_of

BASIC, LOWER, UPPER, FREE = "BS", "LL", "UL", "FR"
WRITERS = ("clp", "esolver", "lp_solve", "glpsol", "activity")
EXCHANGES = {"XU": UPPER, "XL": LOWER}
STANDS = {"UL": UPPER, "LL": LOWER}
NO_ROW = "_dummy_"
LP_SOLVE_NAME = 8
LETTERS = {"b": BASIC, "l": LOWER, "u": UPPER, "f": FREE, "s": LOWER}
MOST_TEXT = 50_000_000


@dataclass
class Basis:
    "where each row and each column stands: BS, LL, UL or FR, by the names of the model"
    rows: dict[str, str]
    columns: dict[str, str]
    writer: str | None = None
    said: list[str] = field(default_factory=list)

    @property
    def notes(self) -> tuple[str, ...]:
        "a sentence for each column that stands otherwise than the file says"
        return tuple(self.said)


def opening_of(limits: tuple[Fraction | None, Fraction | None]) -> str:
    "where a column stands that no line names: at its lower limit, or else at its upper one, or else it is free"
    lower, upper = limits
    return LOWER if lower is not None else UPPER if upper is not None else FREE


def opening(model: Model) -> Basis:
    "the basis at which a model opens: rows basic, columns at a limit or free"
    return Basis({row: BASIC for row in model.rows}, {column: opening_of(model.column_limits(column)) for column in model.columns})


def writer_told(lines: list[str]) -> str | None:
    "the writer of a file, as far as its form tells"
    header = next((line for line in lines if line.strip() and not line.startswith("*")), "")
    if header.startswith(("c ", "s ")):
        return "glpsol"
    cards = [line for line in lines if line.startswith(" ")]
    if re.search(r" Rows \d+ Cols \d+ Iters -?\d+ *$", header):
        return "lp_solve"
    if re.match(r"NAME {10}\S.* {7}(VALUES|IEEE|FREEIEEE)?$", header) or any(f" {NO_ROW} " in card + " " for card in cards):
        return "clp"
    if re.match(r"NAME {4}\S", header) and all(re.fullmatch(r" [XUL][UL] \S+( \S+)?", card) for card in cards):
        return "esolver"
    return None


class Cards:
    "reads a basis of cards"

    def __init__(self, model: Model, writer: str | None) -> None:
        self.model, self.writer, self.basis = model, writer, opening(model)
        self.named: dict[tuple[str, str], int] = {}
        self.basis.writer = writer
        self.has_blanks = any(" " in name for name in (*model.rows, *model.columns))
        self.values: re.Match[str] | None = None
        self.section: str | None = None
        self.text = ""
        self.line = 0

    def read(self, lines: list[str]) -> Basis:
        "the basis of the lines of a file"
        try:
            for self.line, self.text in enumerate(lines, 1):
                if self.text.strip() and not self.text.startswith("*") and self.section != "ENDATA":
                    self.take(self.text.rstrip(" \t"))
            if self.section != "ENDATA":
                raise Refused("the file ends before ENDATA", line=len(lines))
        except Refused as cause:
            if cause.line is None:
                cause.line = self.line
            raise
        return self.basis

    def take(self, text: str) -> None:
        "a line that isn't blank"
        word = text.split()[0]
        if text[0] not in " \t":
            if word not in ("NAME", "ENDATA") or (word == "NAME") == (self.section is not None):
                raise Refused(f"{word[:30]} has no place here: a basis has NAME, cards and ENDATA", word)
            self.section = word
            self.values = re.search(r" (VALUES|IEEE|FREEIEEE)$", text)
        elif self.section is None:
            raise Refused("a card before NAME", word)
        elif word in EXCHANGES:
            column, row = self.pair(text, word)
            self.place(self.basis.rows, row, self.row_status(row, EXCHANGES[word]))
            self.place(self.basis.columns, column, BASIC)
        elif word in STANDS:
            column = self.column(text, word)
            self.place(self.basis.columns, column, self.column_status(column, STANDS[word]))
        else:
            raise Refused(f"{word[:30]} isn't XU, XL, UL or LL", word)

    # ---- names

    def rest(self, text: str, code: str) -> str:
        "what follows the code: without the value behind it, if the file has such"
        rest = text.strip()[len(code):].strip()
        if self.values and " " in rest:
            rest = rest.rsplit(None, 1)[0].rstrip()
        return rest

    def whole_name(self, names: Collection[str], name: str) -> str | None:
        "the name of the model that is meant; lp_solve cuts names"
        if name in names and not (self.writer == "lp_solve" and len(name) == LP_SOLVE_NAME):
            return name
        if self.writer == "lp_solve" and len(name) == LP_SOLVE_NAME:
            meant = [other for other in names if other.startswith(name)]
            if len(meant) > 1:
                raise Refused(f"lp_solve cuts names at {LP_SOLVE_NAME} characters, and {name} may be {some_of(meant)}", name)
            return meant[0] if meant else None
        return None

    def pair(self, text: str, code: str) -> tuple[str, str]:
        "the column and the row that a card exchanges"
        rest = self.rest(text, code)
        words = rest.split()
        parts = [(rest[:found.start()], rest[found.end():]) for found in re.finditer(r"[ \t]+", rest)] + [(text[4:12].rstrip(), text[14:22].rstrip())]
        if not self.has_blanks:
            parts = [(words[0], words[1])] if len(words) == 2 else []
        named = {(self.whole_name(self.model.columns, column), self.whole_name(self.model.rows, row)) for column, row in parts}
        pairs = [(column, row) for column, row in named if column is not None and row is not None]
        if len(pairs) == 1:
            return pairs[0]
        if pairs:
            raise Refused("the names on this line can be read in two ways", words[0])
        if len(words) < 2:
            raise Refused(f"{code} wants a column and a row", code)
        if not self.has_blanks and len(words) > 2:
            raise Refused("this is more than a column and a row", words[2])
        if self.whole_name(self.model.columns, words[0]) is None:
            raise Refused(f"the model has no column {words[0][:30]}", words[0])
        raise Refused(f"the model has no row {words[-1][:30]}", words[-1])

    def column(self, text: str, code: str) -> str:
        "the column of a card that names no row"
        rest = self.rest(text, code)
        if rest.endswith(" " + NO_ROW):
            rest = rest[:-len(NO_ROW)].rstrip()
        meant = [self.whole_name(self.model.columns, name) for name in (rest, *([text[4:12].rstrip()] if self.has_blanks else []))]
        names = {name for name in meant if name is not None}
        if len(names) != 1:
            raise Refused(f"the model has no column {rest[:30]}" if rest else f"{code} wants a column", rest.split()[0] if rest else code)
        return names.pop()

    # ---- limits

    def place(self, statuses: dict[str, str], name: str, status: str) -> None:
        "a row or a column stands so; Refused where a line before has named it"
        what = "row" if statuses is self.basis.rows else "column"
        if (what, name) in self.named:
            raise Refused(f"line {self.named[what, name]} has named {what} {name[:30]} before", name)
        self.named[what, name] = self.line
        statuses[name] = status

    def is_turned(self, row: str) -> bool:
        "whether lp_solve has turned the row, so that its lower limit is the upper one"
        model = self.model
        return model.rows[row] == "L" or model.rows[row] == "E" and of_set(model.ranges, model.range_set).get(row, Fraction(0)) < 0

    def row_status(self, row: str, said: str) -> str:
        "at which limit a row stands of which a card says upper or lower"
        lower, upper = self.model.row_limits(row)
        if lower is None and upper is None:
            raise Refused(f"row {row[:30]} has no limit, so it stays basic", row)
        if lower is None or upper is None or lower == upper:
            return UPPER if lower is None else LOWER
        if self.writer is None:
            raise Refused(f"row {row[:30]} has two limits, and programs name them differently: say --from {', '.join(WRITERS[:-1])} or "
                          f"{WRITERS[-1]}", row)
        if self.writer == "lp_solve" and self.is_turned(row):
            return LOWER if said == UPPER else UPPER
        return said

    def column_status(self, column: str, said: str) -> str:
        "where a column stands of which a card says upper or lower"
        lower, upper = limits = self.model.column_limits(column)
        if lower is not None and lower == upper:
            return LOWER
        if (lower if said == LOWER else upper) is not None:
            return said
        return other_status(self.basis, self.line, column, said, limits)


def other_status(basis: Basis, line: int, column: str, said: str, limits: tuple[Fraction | None, Fraction | None]) -> str:
    "where a column stands that is said to stand at a limit which isn't there"
    status, what = opening_of(limits), {LOWER: "lower", UPPER: "upper"}
    where = f"it stands at its {what[status]} one" if status in what else "it is free, at 0"
    basis.said.append(f"line {line}: column {column[:30]} has no {what[said]} limit; {where}")
    return status


class Numbered:
    "reads what glpsol -w writes: a line for each row that isn't N and each column, by their numbers"

    def __init__(self, model: Model) -> None:
        self.model, self.basis = model, opening(model)
        self.basis.writer = "glpsol"
        self.rows = [row for row, kind in model.rows.items() if kind != "N"]
        self.columns = list(model.columns)
        self.line = 0
        self.named: set[tuple[str, int]] = set()

    def read(self, lines: list[str]) -> Basis:
        "the basis of the lines of a file"
        try:
            for self.line, text in enumerate(lines, 1):
                words = text.split()
                if not words or words[0] == "c":
                    continue
                if words[0] == "s":
                    self.check_sizes(words)
                elif words == ["e", "o", "f"]:
                    return self.whole(lines)
                elif words[0] in "ij":
                    self.take(words)
                else:
                    raise Refused(f"{words[0][:30]} isn't c, s, i, j or e", words[0])
            raise Refused("the file ends before its line e o f", line=len(lines))
        except Refused as cause:
            if cause.line is None:
                cause.line = self.line
            raise

    def check_sizes(self, words: list[str]) -> None:
        "Refused where the first line isn't of a basis of this size"
        if words[1:2] != ["bas"]:
            raise Refused("this isn't the solution of a basis: glpsol -w writes one by the simplex method alone", "s")
        if words[2:4] != [str(len(self.rows)), str(len(self.columns))]:
            raise Refused(f"it is of {' rows and '.join(words[2:4])} columns, and the model has {len(self.rows)} and {len(self.columns)}", "s")

    def take(self, words: list[str]) -> None:
        "the line of a row or a column"
        names = self.rows if words[0] == "i" else self.columns
        statuses = self.basis.rows if words[0] == "i" else self.basis.columns
        if len(words) < 3 or not words[1].isdecimal() or not 1 <= int(words[1]) <= len(names) or words[2] not in LETTERS:
            raise Refused("a number and b, l, u, f or s are wanted here", words[0])
        if (words[0], int(words[1])) in self.named:
            raise Refused("an earlier line has this number", words[1])
        self.named.add((words[0], int(words[1])))
        name = names[int(words[1]) - 1]
        limits = self.model.row_limits(name) if words[0] == "i" else self.model.column_limits(name)
        statuses[name] = self.status(name, limits, LETTERS[words[2]], words[0] == "i")

    def status(self, name: str, limits: tuple[Fraction | None, Fraction | None], said: str, is_row: bool) -> str:
        "where a row or a column stands, by the letter on its line"
        lower, upper = limits
        if said == BASIC:
            return BASIC
        if said == FREE and (lower is not None or upper is not None):
            raise Refused(f"{'row' if is_row else 'column'} {name[:30]} isn't free", "f")
        if is_row and (lower is None or upper is None):
            return UPPER if lower is None else LOWER
        if lower is not None and lower == upper or said == FREE:
            return opening_of(limits)
        return said if (lower if said == LOWER else upper) is not None else other_status(self.basis, self.line, name, said, limits)

    def whole(self, _lines: list[str]) -> Basis:
        "the basis, whose lines are all there"
        if len(self.named) < len(self.rows) + len(self.columns):
            raise Refused("rows or columns are missing before this line", "e")
        basic = sum(status == BASIC for status in self.basis.columns.values())
        out = sum(status != BASIC for status in self.basis.rows.values())
        if basic != out:
            raise Refused(f"{basic} columns are basic, and {out} rows aren't: these are to be as many", "e")
        return self.basis


def read_text(text: str, model: Model, writer: str | None = None) -> Basis:
    "the basis of a text; Refused names the line"
    lines = re.split(r"\r\n|\n|\r", text)
    if len(lines) > 1 and not lines[-1]:
        lines.pop()
    told = writer_told(lines)
    try:
        if writer == "glpsol" or writer is None and told == "glpsol":
            return Numbered(model).read(lines)
        return Cards(model, writer or told).read(lines)
    except Refused as cause:
        if cause.text is None and cause.line:
            cause.text = lines[cause.line - 1]
            word = cause.word if isinstance(cause.word, str) else ""
            at = cause.text.find(word) if word else -1
            cause.span = (at, at + len(word)) if at >= 0 else None
        raise


def text_of(data: bytes) -> str:
    "the text of a file, gzipped or not, in UTF-8 or Latin-1"
    data = unzipped(data, MOST_TEXT)
    try:
        return data.decode("utf-8-sig")
    except UnicodeDecodeError:
        return data.decode("latin-1")


def read_file(path: str, model: Model, writer: str | None = None) -> Basis:
    "the basis of a file, gzipped or not"
    with open(path, "rb") as source:
        return read_text(text_of(source.read(MOST_TEXT + 1)), model, writer)


def deck_of(basis: Basis, job: Job) -> str:
    "the basis deck, as PUNCH would write it: the k-th basic column beside the k-th row that isn't, then the columns at their upper limit"
    model = job.model
    if job.split:
        from mps360.long_answers import basis_in_short
        basis = basis_in_short(basis, job.split)
    columns = [column for column, status in basis.columns.items() if status == BASIC]
    rows = [row for row, status in basis.rows.items() if status != BASIC]
    cards = [f"NAME          {job.problem}".rstrip()]
    for column, row in zip(columns, rows, strict=True):
        cards.append(f" {'XU' if basis.rows[row] == UPPER else 'XL'} {job.columns[column]:<10}{job.rows[row]}")
    for column, status in basis.columns.items():
        if status == UPPER and opening_of(model.column_limits(column)) != UPPER:
            cards.append(f" UL {job.columns[column]}")
    return "\n".join([*cards, "ENDATA"]) + "\n"


def with_insert(job: Job, basis: Basis) -> str:
    "the job of a model with the basis taken in before PRIMAL"
    statements, primal, decks = job.text.partition("         PRIMAL\n")
    return f"{statements}         INSERT\n{primal}{decks}{deck_of(basis, job)}"
