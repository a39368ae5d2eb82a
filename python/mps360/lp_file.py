"""Reads CPLEX LP files in exact fractions.

    model = read_text(TEXT, Reading(..))     a Model, or Refused, which names the line and shows the word

(mps.read_text calls it where a text begins as such a file does.)

The form is that of CPLEX's own manual, as far as glpsol and HiGHS read it: an objective with its sense, its name and a constant; constraints with a
number at the right, at the left, or on both sides; bounds; general, integer and binary columns; End. A word of a section counts as such where it
begins a line; a name that stands where only a section can begin is refused by them all. What isn't linear, and all that programs have added for
themselves, is refused.

The model has one set of right-hand sides, of ranges and of bounds, where something is in it, and the columns in the order in which the file names
them. Rows without a name are c1, c2 and so on, by their place among the constraints; an objective without a name is obj."""
from __future__ import annotations

import re
from fractions import Fraction
from typing import Iterator, NamedTuple

from mps360.errors import Refused
from mps360.model import MOST, Limits, Model, Place
from mps360.model_checks import Choices, warnings
from mps360.numbers import decimal_text, finite_number, has_text, nearest, shortest_double, text_of
from mps360.reading import Reading, numbers_told
from mps360.text import counted, lines_text, some_of

LETTERS = r"[^\W\d]|[!\"#$%&(),;?@_`'{}|~/\u0080-\U0010ffff]"
TOKEN = re.compile(
    rf"(?P<number>(?:[0-9]+\.?[0-9]*|\.[0-9]+)(?:[eE][+-]?[0-9]+)?)|(?P<name>(?:{LETTERS})(?:{LETTERS}|[0-9.])*)|(?P<arrow>->|::)|"
    r"(?P<sense><=|=<|>=|=>|<|>|=)|(?P<sign>[+-])|(?P<colon>:)|(?P<other>[^ \t])")
SENSES = {"<": "L", "<=": "L", "=<": "L", ">": "G", ">=": "G", "=>": "G", "=": "E"}
TURNED = {"L": "G", "G": "L", "E": "E"}
OBJECTIVES = {**dict.fromkeys(("minimize", "minimise", "minimum", "min"), "MIN"), **dict.fromkeys(("maximize", "maximise", "maximum", "max"), "MAX")}
SUBJECT_TO = ("subject to", "such that", "st", "s.t.", "st.")
SECTIONS = {**OBJECTIVES, **dict.fromkeys(SUBJECT_TO, "constraints"), **dict.fromkeys(("bounds", "bound"), "bounds"),
            **dict.fromkeys(("general", "generals", "gen", "integer", "integers", "int"), "general"),
            **dict.fromkeys(("binary", "binaries", "bin"), "binary"), "end": "end"}
# sections that ask for more than a linear program, by their first words
OTHERS = ("sos", "sos1", "sos2", "semi", "semis", "semi-continuous", "lazy constraints", "user cuts", "general constraints", "general constraint",
          "gencons", "pwlobj", "scenario", "multi-objectives", "indicators")
INFINITE = ("inf", "infinity")
DEFAULT_OBJECTIVE, ROW_STEM = "obj", "c"
RHS_SET, RANGE_SET, BOUND_SET = "RHS", "RNG", "BND"
BRACKETS = {"[": "begins what is quadratic", "]": "ends what is quadratic", "^": "raises to a power", "*": "multiplies two columns"}


class Token(NamedTuple):
    "a word of a file, where it stands (its line counted from 1, its columns from 0), and the section that it may begin: \"\" if none"
    kind: str
    text: str
    line: int
    start: int
    end: int
    section: str = ""
    sure: bool = False  # whether it begins a section wherever a name might stand too


# ---- tokens

def section_of(line: str, start: int, end: int) -> tuple[str, int] | None:
    "the section that the words from here on begin, and where these words end"
    word, rest = line[start:end].lower(), line[end:].split()
    hyphened = re.match(r"-[a-z]+", line[end:], re.I)
    pairs = ((f"{word} {rest[0].lower()}", line.index(rest[0], end) + len(rest[0])),) if rest else ()
    pairs += ((word + hyphened[0].lower(), end + hyphened.end()),) if hyphened else ()
    for words, after in (*pairs, (word, end)):
        if words in OTHERS:
            return "other", after
        if words in SECTIONS:
            return SECTIONS[words], after
    return None


def tokens_of(lines: list[str]) -> Iterator[Token]:
    "the words of a file, and its end; comments are left out"
    for count, line in enumerate(lines, 1):
        text, at, first = line.split("\\", 1)[0], 0, True
        while found := TOKEN.search(text, at):
            kind, start, at = str(found.lastgroup), found.start(), found.end()
            begun = section_of(text, start, at) if kind == "name" and (first or text[start:at].lower() in ("st", "s.t.", "st.", "subject", "such")) else None
            if begun:
                at = begun[1]
                alone = first and not text[at:].strip()
                yield Token(kind, text[start:at], count, start, at, begun[0], alone or first and start == 0 and begun[0] != "other")
            else:
                yield Token(kind, found[0], count, start, at)
            first = False
    yield Token("end of file", "", len(lines), len(lines[-1]) if lines else 0, len(lines[-1]) + 1 if lines else 1)


def is_name(token: Token) -> bool:
    "whether a word may name a row or a column: two words of a section don't"
    return token.kind == "name" and (not token.section or " " not in token.text and "-" not in token.text)


# ---- the file

class Side(NamedTuple):
    "a number beside a sense, as a limit: None where it is infinite"
    value: Fraction | None
    token: Token


class Reader:
    "takes the words of a file one after the other into a model; Refused where one of them is not as it may be"

    def __init__(self, reading: Reading) -> None:
        self.reading, self.model = reading, Model()
        self.lines: list[str] = []
        self.tokens: list[Token] = []
        self.labels: set[str] = set()
        self.at = self.entries = 0
        self.bounds: dict[str, Limits] = {}
        self.whole: dict[str, int] = {}
        self.notes: dict[str, list[int]] = {}
        self.unnamed: list[str] = []

    def read(self, text: str) -> Model:
        "the model of a text"
        self.lines = re.split(r"\r\n|\n|\r", text)
        self.tokens = list(tokens_of(self.lines))
        self.labels = {token.text for token, after in zip(self.tokens, self.tokens[1:]) if after.kind == "colon"}
        for sets, what in ((self.reading.rhs_set, "--rhs"), (self.reading.range_set, "--ranges"), (self.reading.bound_set, "--bounds")):
            if sets is not None:
                raise Refused(f"{what} names a set, and an LP file has no sets")
        self.read_objective()
        self.read_constraints()
        while (section := self.section()) != "end":
            self.take()
            if section == "bounds":
                self.read_bounds()
            elif section in ("general", "binary"):
                self.read_whole(section)
            else:
                raise self.refused("this section has no place here", self.tokens[self.at - 1])
        self.take()
        if self.peek().kind != "end of file":
            self.model.said.append(f"line {self.peek().line}: what follows End isn't read")
        return self.ended()

    # ---- tokens

    def peek(self, further: int = 0) -> Token:
        return self.tokens[min(self.at + further, len(self.tokens) - 1)]

    def take(self) -> Token:
        token = self.peek()
        self.at = min(self.at + 1, len(self.tokens) - 1)
        return token

    def refused(self, cause: str, token: Token | None = None) -> Refused:
        token = token or self.peek()
        if token.kind == "end of file":
            cause = f"the file ends, and {cause}"
        refusal = Refused(cause, token.text, token.line)
        refusal.text, refusal.span = self.lines[token.line - 1], (token.start, token.end)
        return refusal

    def section(self) -> str:
        "the section that the next word begins, where that is asked; what can't be kept is refused here"
        token = self.peek()
        if token.section == "other":
            raise self.refused(f"the section {token.text[:30]} asks for more than a linear program, and can't be kept", token)
        if token.section:
            return token.section
        if token.kind == "end of file":
            raise self.refused("its last line is to be End: without it the file may be cut off", token)
        raise self.refused(f"{token.text[:30]} has no place here", token)

    def begins_section(self) -> bool:
        "whether the next word begins a section, and isn't the name of a row or a column"
        token, after = self.peek(), self.peek(1)
        if not token.section or after.kind == "colon":
            return False
        return token.sure or after.kind in ("name", "number", "end of file")

    def note(self, kind: str, token: Token) -> None:
        self.notes.setdefault(kind, []).append(token.line)

    def most(self, what: str, count: int, token: Token) -> None:
        if count >= MOST[what]:
            raise self.refused(f"a job holds at most {MOST[what]:,} {what}", token)

    # ---- numbers

    def value(self, token: Token, sign: int = 1, is_constant: bool = False) -> Fraction:
        "the number of a word, as the model has it: rounded where that is asked for"
        after = self.lines[token.line - 1][token.end:token.end + 1]
        if after in ("e", "E"):
            raise self.refused(f"{token.text[:30]}{after} is a number without its exponent, or a name too close to it", token)
        try:
            exact, word = finite_number(token.text), token.text
        except Refused as cause:
            raise self.refused(cause.cause, token) from None
        if self.reading.doubles and (short := shortest_double(word)) is not None:
            self.model.doubles.append((token.line, word, short))
            exact, word = finite_number(short), short
        if is_constant or has_text(word):
            return sign * exact
        if self.reading.numbers == "exact":
            self.model.long.setdefault(sign * exact, Place(token.text, token.line, self.lines[token.line - 1], (token.start, token.end)))
            return sign * exact
        near = nearest(exact)
        if near is None:
            raise self.refused(f"{token.text[:30]} is too large for the 12 columns of a job's number", token)
        if self.reading.numbers != "round":
            raise self.refused(f"{token.text[:30]} has no exact form of 12 columns; --round takes the nearest, {text_of(near)}", token)
        self.model.rounded.append((token.line, token.text, near))
        return sign * near

    def take_sign(self) -> int:
        sign = 1
        while self.peek().kind == "sign":
            sign = -sign if self.take().text == "-" else sign
        return sign

    def is_number(self, further: int = 0) -> bool:
        token = self.peek(further)
        return token.kind == "number" or token.kind == "name" and token.text.lower() in INFINITE

    def side(self, lower: bool) -> Side:
        "a number with its sign that is a lower or an upper limit"
        sign, token = self.take_sign(), self.take()
        infinite = token.kind == "name" and token.text.lower() in INFINITE
        if token.kind != "number" and not infinite:
            raise self.refused("a number is wanted here: columns stand at the left of the sense, and a number alone at its right", token)
        if not infinite and self.is_below_infinity(token):
            return Side(self.value(token, sign), token)
        if (sign < 0) != lower:
            raise self.refused(f"a limit of {'-' if sign < 0 else ''}{token.text[:30]} is infinite, and leaves no number", token)
        if not infinite:
            self.note("infinite", token)
        return Side(None, token)

    def is_below_infinity(self, token: Token) -> bool:
        try:
            return finite_number(token.text) < self.reading.infinity
        except Refused as cause:
            raise self.refused(cause.cause, token) from None

    # ---- linear forms

    def label(self) -> Token | None:
        if is_name(self.peek()) and self.peek(1).kind == "colon":
            token = self.take()
            self.take()
            return token
        return None

    def term(self) -> tuple[Token, str | None, Fraction]:
        "a coefficient and a column; the column is None of a constant"
        sign, token = self.take_sign(), self.peek()
        if token.kind == "number":
            self.take()
            after = self.peek()
            if not is_name(after) or after.line > token.line and self.begins_section():
                return token, None, self.value(token, sign, True)
            value = self.value(token, sign)
            return self.take(), after.text, value
        if is_name(token):
            return self.take(), token.text, Fraction(sign)
        raise self.refused(self.why_no_term(token), token)

    def why_no_term(self, token: Token) -> str:
        if token.kind == "arrow":
            return f"{token.text} asks for more than a linear program, and can't be kept"
        if token.text in BRACKETS:
            return f"{token.text} {BRACKETS[token.text]}, and only linear forms can be kept"
        return "a coefficient or the name of a column is wanted here"

    def linear(self, row: str, constant: bool) -> Fraction:
        "a linear form, whose entries go to the columns; its constant, where it may have one"
        total = Fraction(0)
        while True:
            token, column, value = self.term()
            if column is None and not constant:
                raise self.refused("a number without a column: it belongs to the right-hand side", token)
            if column is None:
                total += value
            else:
                self.add_entry(row, column, value, token)
            after = self.peek()
            if after.kind == "sign":
                continue
            if after.kind in ("other", "arrow"):
                raise self.refused(self.why_no_term(after), after)
            return total

    def add_entry(self, row: str, column: str, value: Fraction, token: Token) -> None:
        entries = self.column(column, token)
        if row in entries:
            raise self.refused(f"{column[:30]} stands a second time in this row", token)
        self.most("entries", self.entries, token)
        self.entries += 1
        entries[row] = value

    def column(self, name: str, token: Token) -> dict[str, Fraction]:
        if name.lower() in INFINITE:
            raise self.refused(f"{name} isn't the name of a column: it is infinite", token)
        if name not in self.model.columns:
            self.most("columns", len(self.model.columns), token)
            self.model.columns[name] = {}
        found: dict[str, Fraction] = self.model.columns[name]
        return found

    # ---- sections

    def read_objective(self) -> None:
        "the sense, the objective and its constant"
        token = self.take()
        if token.section not in ("MIN", "MAX"):
            raise self.refused("an LP file begins with Minimize or Maximize", token)
        if self.peek().kind == "colon":
            raise self.refused("the objective's name stands before this; the LP form of lp_solve is another one: lp_solve -S3 MODEL -wfmps FILE writes MPS")
        self.model.sense = self.reading.sense or token.section
        name = self.label()
        self.model.objective = objective = name.text if name else DEFAULT_OBJECTIVE
        self.model.rows[objective] = "N"
        if self.reading.objective not in (None, objective):
            raise Refused(f"the objective is {objective[:30]}, and no other row can be one in an LP file")
        if not self.begins_section():
            constant = self.linear(objective, True)
            if constant:
                self.model.rhs_set, self.model.rhs = RHS_SET, {RHS_SET: {objective: -constant}}

    def read_constraints(self) -> None:
        if not self.begins_section() or self.section() != "constraints":
            raise self.refused("Subject To is wanted behind the objective, where an operator or a sense is missing or too much")
        self.take()
        while not self.begins_section():
            if self.peek().kind == "end of file":
                self.section()
            self.read_constraint()

    def read_constraint(self) -> None:
        "one constraint: its name, its sum, and a sense with a number on one side or on both"
        begin, label = self.peek(), self.label()
        row = label.text if label else self.made_name()
        if row in self.model.rows:
            raise self.refused(f"a second row {row[:30]}", label or begin)
        self.most("rows", len(self.model.rows), label or begin)
        self.model.rows[row] = "N"
        if not label:
            self.unnamed.append(row)
        signs = 0
        while self.peek(signs).kind == "sign":
            signs += 1
        left = None
        if self.is_number(signs) and self.peek(signs + 1).kind == "sense":
            kind = TURNED[SENSES[self.peek(signs + 1).text]]
            left = kind, self.side(kind == "G")
            self.take()
        self.linear(row, False)
        if self.peek().kind == "sense":
            kind = SENSES[self.take().text]
            self.limit_row(row, left, (kind, self.side(kind == "G")))
            self.check_right()
        elif left:
            self.limit_row(row, None, left)
        else:
            raise self.refused(self.why_no_term(self.peek()) if self.peek().kind in ("other", "arrow") else f"<=, >= or = is wanted in row {row[:30]}")

    def made_name(self) -> str:
        "the name of a row that has none"
        count = len(self.model.rows)
        while (name := f"{ROW_STEM}{count}") in self.model.rows or name in self.labels:
            count += 1
        return name

    def check_right(self) -> None:
        "nothing else stands at the right of a number, on the same line"
        token, before = self.peek(), self.tokens[self.at - 1]
        if token.line == before.line and (token.kind != "name" or not token.section and self.peek(1).kind != "colon"):
            raise self.refused(self.why_no_term(token) if token.kind == "arrow" else "a number alone stands at the right of the sense", token)

    def limit_row(self, row: str, left: tuple[str, Side] | None, right: tuple[str, Side]) -> None:
        "gives a row its sense, its right-hand side and its range, of what stands at its left and at its right"
        kind, side = right
        if side.value is None or left and left[1].value is None:
            raise self.refused("a limit of a row that is infinite: leave it out", side.token if side.value is None else left[1].token if left else None)
        self.model.rows[row] = kind
        self.set_right(row, side.value)
        if left:
            other, begin = left
            if "E" in (kind, other) or kind == other or begin.value is None:
                raise self.refused("a row with two limits has the same sense twice, as in 2 <= x + y <= 5", begin.token)
            span = side.value - begin.value if kind == "L" else begin.value - side.value
            if span < 0:
                raise self.refused(f"the lower limit of row {row[:30]} is above its upper one, so there is no plan", begin.token)
            self.model.range_set = RANGE_SET
            self.model.ranges.setdefault(RANGE_SET, {})[row] = span

    def set_right(self, row: str, value: Fraction) -> None:
        if value:
            self.model.rhs_set = RHS_SET
            self.model.rhs.setdefault(RHS_SET, {})[row] = value

    # ---- bounds

    def read_bounds(self) -> None:
        while not self.begins_section():
            if self.peek().kind == "end of file":
                self.section()
            self.read_bound()

    def read_bound(self) -> None:
        "one line of bounds: a column between two numbers, beside one, or free"
        left = None
        if self.peek().kind in ("sign", "number") or self.is_number():
            begin = self.at
            signs = 0
            while self.peek(signs).kind == "sign":
                signs += 1
            if not self.is_number(signs) or self.peek(signs + 1).kind != "sense":
                raise self.refused("a bound is a number, a sense and a column, or a column, a sense and a number", self.tokens[begin + signs])
            kind = TURNED[SENSES[self.peek(signs + 1).text]]
            left = kind, self.side(kind == "G")
            self.take()
        token = self.take()
        if token.kind != "name":
            raise self.refused("the name of a column is wanted here", token)
        if token.text not in self.model.columns:
            self.note("bounds alone", token)
        self.column(token.text, token)
        limits = self.bounds.setdefault(token.text, Limits())
        if left:
            self.touch(limits, *left)
        if self.peek().kind == "sense":
            kind = SENSES[self.take().text]
            self.touch(limits, kind, self.side(kind == "G"))
            self.check_right()
        elif not left:
            self.take_free(limits)

    def take_free(self, limits: Limits) -> None:
        token = self.take()
        if token.text.lower() != "free":
            raise self.refused("a sense or free is wanted behind a column", token)
        for kind in "GL":
            self.touch(limits, kind, Side(None, token))

    def touch(self, limits: Limits, kind: str, side: Side) -> None:
        "sets an end of a column's limits, or both; refused where another line sets it to another value"
        if kind == "E" and side.value is None:
            raise self.refused("a column isn't equal to what is infinite", side.token)
        for end, word in (("lower", "G"), ("upper", "L")):
            if kind not in (word, "E"):
                continue
            before = getattr(limits, end + "_line")
            if before and getattr(limits, end) != side.value:
                raise self.refused(f"a second bound on the {end} limit of this column, which line {before} has set: some programs take the first, some the last",
                                   side.token)
            setattr(limits, end, side.value)
            setattr(limits, end + "_line", before or side.token.line)

    # ---- whole numbers

    def read_whole(self, section: str) -> None:
        "a section of columns whose values are to be whole"
        heading = self.tokens[self.at - 1]
        while not self.begins_section():
            token = self.take()
            if token.kind == "end of file":
                self.at = len(self.tokens) - 1
                self.section()
            if token.kind != "name" or self.peek().kind in ("sense", "colon"):
                raise self.refused("the name of a column is wanted here", token)
            if not self.reading.relax:
                raise self.refused(f"columns of whole numbers ({heading.text}); --relax takes them as columns of any numbers", heading)
            if token.text not in self.model.columns:
                self.note("whole alone", token)
            self.column(token.text, token)
            self.whole[token.text] = token.line
            if section == "binary":
                limits = self.bounds.setdefault(token.text, Limits())
                self.touch(limits, "G", Side(Fraction(0), token))
                self.touch(limits, "L", Side(Fraction(1), token))

    # ---- the end

    def ended(self) -> Model:
        self.end_bounds()
        model = self.model
        if self.bounds:
            model.bound_set, model.bounds = BOUND_SET, {BOUND_SET: self.bounds}
        model.relaxed = list(self.whole)
        self.tell()
        model.warned = warnings(model, Choices())
        model.said += model.warned
        return model

    def end_bounds(self) -> None:
        "puts the limits of columns, and those of binary ones, into the set of bounds"
        for column, limits in self.bounds.items():
            if limits.upper is None or limits.upper >= 0 or limits.lower_line:
                continue
            if self.reading.negative_up is None:
                refusal = Refused(f"a negative upper limit alone on column {column[:30]}: say --negative-up keep (lower limit 0, so no plan) or free (no lower "
                                  "limit)", column, limits.upper_line)
                refusal.text = self.lines[limits.upper_line - 1]
                raise refusal
            if self.reading.negative_up == "free":
                limits.lower = None
            self.notes.setdefault("negative " + self.reading.negative_up, []).append(limits.upper_line)

    def tell(self) -> None:
        "a sentence for each thing that was left out, chosen or rounded"
        sentences = {"infinite": f"a limit of {decimal_text(self.reading.infinity)} and more is none",
                     "bounds alone": "a column that no row names", "whole alone": "a column that no row names",
                     "negative keep": "a negative upper limit alone: the lower limit stays at 0, so there is no plan",
                     "negative free": "a negative upper limit alone: the lower limit is taken away"}
        model = self.model
        model.said += [f"{lines_text(lines)}: {sentences[kind]}" for kind, lines in self.notes.items()]
        if self.unnamed:
            model.said.append(f"{counted(len(self.unnamed), 'row', 'has', 'have')} no name: {some_of(self.unnamed)}")
        model.said += numbers_told(model)
        if model.relaxed:
            model.said.append(f"{counted(len(model.relaxed), 'column')} should have whole numbers ({some_of(model.relaxed)}): any numbers are allowed here")


def read_text(text: str, reading: Reading = Reading()) -> Model:
    return Reader(reading).read(text)
