"""Reads MPS files in exact fractions.

    model = read_file(PATH, Reading(..))      a Model, or Refused, which names the line and shows the word; OSError where PATH can't be read
    model = read_text(TEXT, Reading(..))      the same of a text

Reading says how a file is read where programs differ, and which numbers are taken: "exact" takes every decimal number, "job" refuses
one that a job can't hold, "round" rounds to the nearest number that 12 columns hold. PATH may be gzipped, or - for standard input."""
from typing import Any
import codecs
import re
import sys
from dataclasses import replace
from fractions import Fraction
from mps360.commands import called
from mps360.errors import Refused
from mps360.fields import LAST_COLUMN, Line
from mps360.files import unzipped
from mps360.model import MOST, Limits, Model, Place
from mps360.model_checks import Choices, warnings
from mps360.numbers import NUMBER, decimal_text, has_text, nearest, number, shortest_double, text_of
from mps360.reading import Reading, numbers_told
from mps360.text import counted, lines_text, some_of
from mps360.units import units_of

MOST_TEXT = 300_000_000
SENSES = {"MAX": "MAX", "MAXIMIZE": "MAX", "MAXIMISE": "MAX", "MAXIMUM": "MAX", "MIN": "MIN", "MINIMIZE": "MIN", "MINIMISE": "MIN", "MINIMUM": "MIN"}
COMBINATIONS = ("DN", "DL", "DG", "DE")
SECTIONS = ("ROWS", "COLUMNS", "RHS", "RANGES", "BOUNDS")
# of each bound type: which ends it touches, whether it takes a number, whether it asks for whole numbers
BOUNDS = {"UP": ("upper", True, False), "LO": ("lower", True, False), "FX": ("both", True, False), "FR": ("both", False, False),
          "MI": ("lower", False, False), "PL": ("upper", False, False), "BV": ("both", False, True), "LI": ("lower", True, True),
          "UI": ("upper", True, True)}
# the NAME line of a free deck of a job; the name stands in columns 15 to 22
FREE_DECK = re.compile(r"NAME.{18}  FREE")
WORD, NO_BLANK = re.compile(r"[^\s\\:]+"), re.compile(r"\S")


class Reader:
    "takes the lines of a file one after the other; line is the number of the present one, counted from 1"
    def __init__(self, reading: Reading) -> None:
        self.reading, self.model = reading, Model(constant_sign=-1 if reading.constant == "minus" else 1)
        self.sets: dict[str, dict[str, dict[str, Any]]] = {"RHS": self.model.rhs, "RANGES": self.model.ranges, "BOUNDS": self.model.bounds}
        self.entries = self.line = 0
        self.section = ""
        self.said_sense: str | None = None
        self.said_objective: tuple[str, int] | None = None
        self.last_column: str | None = None
        # the type and the name on the line of ROWS before, where that is a combination's
        self.combining: tuple[str, str] | None = None
        self.last_set: dict[str, str] = {}
        self.whole: dict[str, int] = {}
        self.marked: dict[str, int] = {}
        self.lines: dict[str, list[int]] = {}
        self.named = self.between_markers = False
        self.exact = reading.numbers == "exact"
        self.takes = {"ROWS": self.take_row, "COLUMNS": self.take_column, "RHS": self.take_value, "RANGES": self.take_value, "BOUNDS": self.take_bound}

    def note(self, kind: str) -> None:
        "the present line is one of this kind"
        self.lines.setdefault(kind, []).append(self.line)

    def read(self, text: str) -> Model:
        "the model of a whole text"
        lines = re.split(r"\r\n|\n|\r", text)
        try:
            for self.line, line in enumerate(lines, 1):
                line = line.rstrip(" \t")
                if line.startswith("*"):
                    self.take_comment(line)
                elif line and self.section == "ENDATA":
                    self.note("after")
                elif line:
                    self.take(line)
            if self.section != "ENDATA":
                raise Refused("the file ends before ENDATA", line=len(lines))
            self.end()
        except Refused as cause:
            self.show(cause, lines)
            raise
        return self.model

    def show(self, cause: Refused, lines: list[str]) -> None:
        "gives a refusal its line, and the part of that which is meant"
        if cause.line and cause.text is None:
            cause.text = lines[cause.line - 1]
            if isinstance(cause.word, str):
                cause.span = Line(cause.text, False).span_of(cause.word)

    def take_comment(self, line: str) -> None:
        "a remark; one that asks for the greatest objective is told, since remarks aren't read"
        if re.match(r"\*\s*sense\s*:\s*max", line, re.I):
            self.lines.setdefault("maximizing", []).append(self.line)

    def take(self, text: str) -> None:
        "a line that isn't blank and no remark"
        line = None
        try:
            if text[0] not in " \t":
                line = Line(text, False)
                self.take_section(line)
            elif self.section in SECTIONS:
                line = Line(text, self.reading.form == "fixed")
                if line.fixed and line.text[LAST_COLUMN:]:
                    self.note("past")
                line.cut_remark(self.section, self.model.columns.keys() if self.section == "BOUNDS" else self.model.rows.keys())
                self.takes[self.section](line)
            else:
                line = Line(text, False)
                self.take_word(line)
        except Refused as cause:
            cause.line, cause.text = self.line, text
            if cause.word is not None:
                cause.span = (line or Line(text, False)).span_of(cause.word)
            raise

    def take_section(self, line: Line) -> None:
        "the line that begins a section"
        section, rest = line.words[0].upper(), line.words[1:]
        if self.section in ("OBJSENSE", "OBJNAME"):
            raise Refused(f"{self.section} says nothing before this section", 0)
        if section in ("OBJSENSEMAX", "OBJSENSEMIN"):
            section, rest = "OBJSENSE", [section[8:]]
        if section == "NAME":
            if self.named:
                raise Refused("a second NAME", 0)
            self.named = True
            self.model.name = line.text[4:].strip(" \t")
            if FREE_DECK.fullmatch(line.text) and self.reading.form != "fixed":
                self.model.name, self.reading = line.text[14:22].strip(), replace(self.reading, form="free")
                self.model.said.append("the file is a free deck, as its NAME line says: fields are words")
        elif section in ("OBJSENSE", "OBJNAME"):
            self.section = section
            if rest:
                self.take_word(line, 1 if len(line.words) > 1 else 0, rest[0])
            return
        elif section in ("VAR", "PARAM", "SET") and not self.named and not self.section:
            raise Refused(MATHPROG, 0)
        elif section not in (*SECTIONS, "ENDATA"):
            raise Refused(f"the section {section[:30]} can't be kept", 0)
        elif rest:
            self.note("header")
        self.section = section

    def take_word(self, line: Line, place: int = 0, word: str | None = None) -> None:
        "the word of OBJSENSE or of OBJNAME"
        word = word or line.words[place]
        if self.section == "OBJSENSE" and word.upper() in SENSES and len(line.words) <= place + 1:
            self.said_sense = SENSES[word.upper()]
        elif self.section == "OBJNAME":
            self.said_objective = line.text[line.spans[place][0]:], self.line
        elif self.section == "OBJSENSE":
            raise Refused(f"OBJSENSE is MAX or MIN, not {word[:30]}", place)
        elif word == "PROGRAM":
            raise Refused(f"this is a job already, and no MPS file: {called('mps360')} runs it, {called('solve')} too", place)
        else:
            raise Refused("a data line where no section takes one", place)
        self.section = ""

    def is_infinite(self, value: Fraction | float) -> bool:
        "whether a number is infinite, or as large as what is read as that"
        return isinstance(value, float) or abs(value) >= self.reading.infinity

    def most(self, what: str, count: int) -> None:
        "Refused where there are so many already, and one more than a job holds"
        if count >= MOST[what]:
            raise Refused(f"a job holds at most {MOST[what]:,} {what}")

    def value(self, place: int, line: Line) -> Fraction | float:
        "the number of a word, as the model has it: rounded where that is asked for"
        word = line.words[place]
        try:
            value = number(word)
            if self.reading.doubles and (short := shortest_double(word)) is not None:
                self.model.doubles.append((self.line, word, short))
                word, value = short, number(short)
        except Refused as cause:
            cause.word = place
            raise
        if isinstance(value, Fraction) and self.exact and not has_text(word):
            self.model.long.setdefault(value, Place(word, self.line, line.text, line.spans[place]))
        if self.exact or has_text(word) or self.section not in ("ROWS", "COLUMNS") and self.is_infinite(value):
            return value
        if isinstance(value, float) or self.section == "RHS" and self.model.rows[line.words[place - 1]] == "N":
            return value
        near = nearest(value)
        if near is None:
            raise Refused(f"{word[:30]} is too large for the 12 columns of a job's number", place)
        if self.reading.numbers != "round":
            raise Refused(f"{word[:30]} has no exact form of 12 columns; --round takes the nearest, {text_of(near)}", place)
        self.model.rounded.append((self.line, word, near))
        return near

    def take_row(self, line: Line) -> None:
        "a line of ROWS: a plain row, or a part of a combination"
        words = [word for word in line.words if word] if not line.fixed else line.words[:2] + [word for word in line.words[2:] if word]
        kind = words[0].upper()
        if kind not in ("N", "L", "G", "E", *COMBINATIONS):
            raise Refused("a row's type is N, L, G or E, or of a combination DN, DL, DG or DE", 0)
        if len(words) < 2 or not words[1]:
            raise Refused("a row wants a name", 1)
        goes_on, self.combining = self.combining == (kind, words[1]), (kind, words[1]) if kind in COMBINATIONS else None
        if kind in COMBINATIONS:
            self.take_combination(kind[1], line, goes_on)
            return
        if len(words) > 2:
            raise Refused("one name stands after a row's type (names with blanks: --fixed)", 2)
        if words[1] in self.model.rows:
            raise Refused(f"a second row {words[1][:30]}", 1)
        self.most("rows", len(self.model.rows))
        self.model.rows[words[1]] = kind

    def take_combination(self, kind: str, line: Line, goes_on: bool) -> None:
        "a line of a row that is a sum of multiples of earlier rows; it begins one, or goes on with that of the line before"
        if not line.fixed and (len(line.words) % 2 or len(line.words) > 6):
            raise Refused("a combination wants a name, and none, one or two pairs of a row and a multiplier (names with blanks: --fixed)", len(line.words) - 1)
        name, rows = line.words[1], self.model.rows
        if not goes_on:
            if name in rows:
                raise Refused(f"a second row {name[:30]}", 1)
            self.most("rows", len(rows))
            rows[name] = kind
        parts = self.model.parts.setdefault(name, {})
        places = [(a, b) for a, b in ((2, 3), (4, 5)) if b < len(line.words) and (line.words[a] or line.words[b])]
        self.check_form(line, (name, [(line.words[a], line.words[b]) for a, b in places]))
        for at, number_at in places:
            row = line.words[at]
            if row not in rows or row == name:
                raise Refused(f"no row before it is named {row[:30]}", at)
            if row in parts:
                raise Refused(f"a second part on row {row[:30]}", at)
            value = self.value(number_at, line)
            if isinstance(value, float):
                raise Refused("a multiplier can't be infinite", number_at)
            parts[row] = value

    def pairs(self, line: Line) -> tuple[int | None, list[tuple[int, int]]]:
        "the place of the name in front, or None where it is blank, and the places of the pairs"
        if line.fixed:
            words = line.words
            if words[0]:
                raise Refused("no type stands here", 0)
            name = 1 if words[1] else None
            places = [(a, b) for a, b in ((2, 3), (4, 5)) if words[a] or words[b]]
            if places == [(4, 5)]:
                raise Refused("fields 5 and 6 are filled, and fields 3 and 4 are blank", 4)
        else:
            count = len(line.words)
            if count > 5 or count == 0:
                raise Refused(f"{count} words stand here, where a name and one or two pairs are wanted (names with blanks: --fixed)", min(count, 5))
            name = 0 if count % 2 else None
            places = [(place, place + 1) for place in range(count % 2, count, 2)]
        for row, _ in places:
            if line.words[row] not in self.model.rows:
                raise Refused(f"no row is named {line.words[row][:30]}", row)
        return name, places

    def check_form(self, line: Line, read: tuple[str, list[tuple[str, str]]]) -> None:
        "refuses a line whose fields, by their columns, say another thing than its words"
        if self.reading.form != "either" or (fields := line.by_columns()) is None or [part for part in fields if part] == line.words:
            return
        kind, name = fields[:2]
        pairs = [pair for pair in ((fields[2], fields[3]), (fields[4], fields[5])) if any(pair)]
        lawful: object
        if self.section == "BOUNDS":
            takes = BOUNDS.get(kind.upper(), (None, None))[1]
            lawful = takes is not None and len(pairs) == 1 and pairs[0][0] in self.model.columns and (NUMBER.fullmatch(pairs[0][1]) or not takes)
        elif self.section == "ROWS":
            lawful = kind.upper() in COMBINATIONS and name and pairs and all(row in self.model.rows and NUMBER.fullmatch(word) for row, word in pairs)
        else:
            lawful = not kind and pairs and all(row in self.model.rows and NUMBER.fullmatch(word) for row, word in pairs)
        if lawful and (name, pairs) != read:
            raise Refused("this line's words say one thing, its fields by their columns another: --free or --fixed says which counts")

    def take_marker(self, line: Line) -> None:
        "a line that begins or ends columns of whole numbers"
        words = [word.strip("'\"").upper() for word in line.words]
        kind = next((word for word in words if word in ("INTORG", "INTEND")), None)
        if kind is None:
            raise Refused("a MARKER for other things than whole numbers can't be kept")
        if not self.reading.relax:
            raise Refused("columns of whole numbers (MARKER); --relax takes them as columns of any numbers", "'MARKER'")
        self.between_markers = kind == "INTORG"

    def take_column(self, line: Line) -> None:
        "a line of COLUMNS"
        if "'MARKER'" in line.words:
            self.take_marker(line)
            return
        place, places = self.pairs(line)
        if place is None:
            if self.last_column is None or not line.fixed and (line.text[:14].strip(" ") or "\t" in line.text):
                raise Refused("a column's name is wanted first" if self.last_column is None else
                              "a column's name is missing; it is that of the card before only where columns 1 to 14 are blank", 0)
            name = self.last_column
        else:
            name = line.words[place]
        self.check_form(line, (name if place is not None else "", [(line.words[a], line.words[b]) for a, b in places]))
        if name != self.last_column:
            if name in self.model.columns:
                raise Refused(f"the lines of column {name[:30]} don't stand together", place)
            self.most("columns", len(self.model.columns))
        self.last_column = name
        column = self.model.columns.setdefault(name, {})
        if self.between_markers:
            self.whole[name] = self.marked[name] = self.line
        for row, at in places:
            if line.words[row] in self.model.parts:
                raise Refused(f"the row {line.words[row][:30]} is a combination, whose numbers are sums of its parts: no column has an entry on it", row)
            if line.words[row] in column:
                raise Refused(f"a second entry on row {line.words[row][:30]}", row)
            value = self.value(at, line)
            if isinstance(value, float):
                raise Refused("an entry can't be infinite", at)
            self.most("entries", self.entries)
            self.entries += 1
            column[line.words[row]] = value

    def set_named(self, name: str, place: int) -> dict[str, Any]:
        "the items of the set of this name; a blank name beside others is refused, or is as the reading says"
        sets = self.sets[self.section]
        if name not in sets and (sets and not name or "" in sets):
            if self.reading.blank_set is None:
                raise Refused("a blank name of a set beside a named one: some programs take one set here, some two; "
                              "say --blank-set same or own", place)
            if self.reading.blank_set == "same":
                if name:
                    sets[name] = sets.pop("")
                else:
                    name = self.last_set[self.section]
        self.last_set[self.section] = name
        return sets.setdefault(name, {})

    def take_value(self, line: Line) -> None:
        "a line of RHS or RANGES"
        place, places = self.pairs(line)
        if not places:
            raise Refused("a row and a number are wanted", 1)
        name = line.words[place] if place is not None else ""
        self.check_form(line, (name, [(line.words[a], line.words[b]) for a, b in places]))
        items = self.set_named(name, place if place is not None else places[0][0])
        for at, number_at in places:
            row = line.words[at]
            if row in items:
                raise Refused(f"a second value on row {row[:30]}", at)
            if self.section == "RHS":
                self.take_rhs(items, row, number_at, line)
            else:
                self.take_range(items, row, number_at, line)

    def take_rhs(self, items: dict[str, Fraction], row: str, at: int, line: Line) -> None:
        "a right-hand side, or the constant of an N row"
        value = self.value(at, line)
        if self.model.rows[row] != "N" and self.is_infinite(value):
            also = " (or say --infinity NUMBER, of more than it)" if not isinstance(value, float) and nearest(value) is not None else ""
            raise Refused(f"a right-hand side of {decimal_text(self.reading.infinity)} and more is infinite in some programs; "
                          f"make the row an N row, or leave it out{also}", at)
        if isinstance(value, float):
            raise Refused("a constant can't be infinite", at)
        items[row] = value

    def take_range(self, items: dict[str, Fraction], row: str, at: int, line: Line) -> None:
        "a range of a row"
        value = self.value(at, line)
        if self.model.rows[row] == "N":
            self.note("range on N")
        elif isinstance(value, Fraction) and abs(value) < self.reading.infinity:
            items[row] = value
        elif self.model.rows[row] == "E":
            raise Refused("an infinite range on an E row", at)
        else:
            self.note("infinite range")

    def bound_parts(self, line: Line) -> tuple[str, int | None, int, int | None]:
        "the type of a bound, and the places of set, column and number, None where there is none"
        kind = line.words[0].upper()
        if kind == "SC":
            raise Refused("a bound SC asks for a gap, and can't be kept", 0)
        if kind not in BOUNDS:
            raise Refused(f"the bound type {kind[:10] or 'blank'} is unknown", 0)
        takes = BOUNDS[kind][1]
        if line.fixed:
            if line.words[4] or line.words[5]:
                raise Refused("fields 5 and 6 of a bound are blank", 4)
            return kind, 1 if line.words[1] else None, 2, 3 if line.words[3] or takes else None
        count = len(line.words)
        least = 3 if takes else 2
        if not least <= count <= 4:
            raise Refused("a bound wants a set, a column and a number (names with blanks: --fixed)", min(count, 4))
        if count == least:
            return kind, None, 1, 2 if takes else None
        return kind, 1, 2, 3 if count == 4 else None

    def take_bound(self, line: Line) -> None:
        "a line of BOUNDS"
        kind, place, at, number_at = self.bound_parts(line)
        ends, takes, whole = BOUNDS[kind]
        name, column = line.words[place] if place is not None else "", line.words[at]
        if column not in self.model.columns:
            raise Refused(f"no column is named {column[:30]}", at)
        self.check_form(line, (name, [(column, line.words[number_at] if number_at is not None else "")]))
        if whole:
            if not self.reading.relax:
                raise Refused(f"a bound {kind} asks for whole numbers; --relax takes any numbers", 0)
            self.whole[column] = self.line
        if not takes and number_at is not None:
            self.note("number on " + kind)
        value = self.limit(kind, number_at, line) if takes and number_at is not None else None
        limits = self.set_named(name, place if place is not None else at).setdefault(column, Limits())
        if ends in ("lower", "both"):
            self.touch(limits, "lower", Fraction(0) if kind == "BV" else value, at)
        if ends in ("upper", "both"):
            self.touch(limits, "upper", Fraction(1) if kind == "BV" else value, at)

    def limit(self, kind: str, at: int, line: Line) -> Fraction | None:
        "a limit, or None where it is infinite"
        value = self.value(at, line)
        if isinstance(value, Fraction) and abs(value) < self.reading.infinity:
            return value
        if (value > 0) != (kind in ("UP", "UI")) or kind == "FX":
            raise Refused(f"a bound {kind} of {line.words[at][:30]} is infinite, and leaves no number", at)
        self.note("infinite bound")
        return None

    def touch(self, limits: Limits, end: str, value: Fraction | None, at: int) -> None:
        "sets an end of a column's limits; refused where another line sets it to another value"
        before = getattr(limits, end + "_line")
        if before and getattr(limits, end) != value:
            raise Refused(f"a second bound on the {end} limit of this column, which line {before} has set: some programs take the first, "
                          "some the last", at)
        setattr(limits, end, value)
        setattr(limits, end + "_line", before or self.line)

    def end(self) -> None:
        "what can be known at the end alone"
        if not any(kind == "N" for kind in self.model.rows.values()):
            raise Refused("there is no N row, so no objective")
        self.end_bounds()
        self.end_markers()
        self.choose()
        self.tell()
        self.model.warned = warnings(self.model, self.choices())
        self.model.said += self.model.warned

    def end_bounds(self) -> None:
        "negative upper limits where nothing is said of the lower one"
        for items in self.model.bounds.values():
            for column, limits in items.items():
                if limits.upper is None or limits.upper >= 0 or limits.lower_line:
                    continue
                if self.reading.negative_up is None:
                    raise Refused(f"a negative UP alone on column {column[:30]}: say --negative-up keep (lower limit 0, so no plan) or free "
                                  "(no lower limit)", column, limits.upper_line)
                if self.reading.negative_up == "free":
                    limits.lower = None
                self.lines.setdefault("negative " + self.reading.negative_up, []).append(limits.upper_line)

    def end_markers(self) -> None:
        "the upper limits of whole-number columns between markers of which no bound says one"
        sets = list(self.model.bounds.values()) or [{}]
        changed = {}
        for column, line in self.marked.items():
            for items in sets:
                limits = items.get(column, Limits())
                if limits.upper_line:
                    continue
                if self.reading.marker_upper is None or self.reading.marker_upper == "1" and limits.lower_line:
                    raise Refused(f"column {column[:30]} between markers has no upper bound: some programs then take 1, some none; "
                                  "say --marker-upper 1 or none, or write a bound PL or UP", column, line)
                if self.reading.marker_upper == "1":
                    changed[column] = line
                    items.setdefault(column, limits).upper = Fraction(1)
        if changed:
            if not self.model.bounds:
                self.model.bounds["MARKERS"] = sets[0]
            self.model.said.append(f"{counted(len(changed), 'column', 'has', 'have')} no bound between markers ({some_of(list(changed))}): the "
                                   "upper limit is 1, as you said")
        self.model.relaxed = list(self.whole)

    def choose(self) -> None:
        "the objective, the sense and the sets that are taken"
        model, reading = self.model, self.reading
        first = next(row for row, kind in model.rows.items() if kind == "N")
        said, line = self.said_objective or (None, None)
        model.objective = reading.objective or said or first
        if model.rows.get(model.objective) != "N":
            raise Refused(f"the objective {model.objective[:30]} isn't an N row", model.objective, None if reading.objective else line)
        model.sense = reading.sense or self.said_sense or "MIN"
        for attribute, what in (("rhs_set", "RHS"), ("range_set", "RANGES"), ("bound_set", "BOUNDS")):
            sets = self.sets[what]
            wanted = getattr(reading, attribute)
            if wanted is not None and wanted not in sets:
                raise Refused(f"no set of {what} is named {wanted[:30]}")
            setattr(model, attribute, wanted if wanted is not None else next(iter(sets), None))

    def choices(self) -> Choices:
        "what the file or the reading says, so that nothing was chosen here"
        reading = self.reading
        named = {"RHS": reading.rhs_set, "RANGES": reading.range_set, "BOUNDS": reading.bound_set}
        return Choices((reading.sense or self.said_sense) is not None, (reading.objective or self.said_objective) is not None,
                       frozenset(what for what, name in named.items() if name is not None))

    def tell(self) -> None:
        "a sentence for each thing that was left out or chosen"
        model, told = self.model, self.model.said
        sentences = {"after": "what follows ENDATA isn't read", "header": "what follows the name of a section isn't read",
                     "range on N": "a range on an N row says nothing, and is left out",
                     "infinite range": f"a range of {decimal_text(self.reading.infinity)} and more is none, and is left out",
                     "infinite bound": f"a bound of {decimal_text(self.reading.infinity)} and more is no limit",
                     "past": f"what stands past column {LAST_COLUMN} isn't read",
                     "maximizing": "a remark speaks of maximizing, and remarks aren't read; --max does so",
                     "negative keep": "a negative UP alone: the lower limit stays at 0, so there is no plan",
                     "negative free": "a negative UP alone: the lower limit is taken away"}
        if self.reading.sense or model.sense == "MAX":
            self.lines.pop("maximizing", None)
        for kind, lines in self.lines.items():
            told.append(f"{lines_text(lines)}: {sentences.get(kind) or 'a ' + kind + ' is not read'}")
        if model.relaxed:
            told.append(f"{counted(len(model.relaxed), 'column')} should have whole numbers ({some_of(model.relaxed)}): any numbers are allowed here")
        taken = {"RHS": model.rhs_set, "RANGES": model.range_set, "BOUNDS": model.bound_set}
        for what, sets in self.sets.items():
            if len(sets) > 1 and what in self.choices().sets:
                told.append(f"{what} has {len(sets)} sets; {taken[what] or 'the one without a name'} is taken")
        others = [row for row, kind in model.rows.items() if kind == "N"]
        if len(others) > 1 and self.choices().objective:
            told.append(f"there are {len(others)} N rows; the objective is {model.objective}")
        told += numbers_told(model)


# forms that files of models come in, and what helps
COMPRESSED = ((b"\xfd7zXZ\0", "xz", "unxz"), (b"BZh", "bzip2", "bunzip2"), (b"\x28\xb5\x2f\xfd", "zstd", "unzstd"), (b"PK\x03\x04", "zip", "unzip"))
MATHPROG = "it is a model in the language MathProg or AMPL: glpsol --check -m MODEL.mod --wfreemps MODEL.mps makes an MPS file of a MathProg model"


def first_word(text: str) -> str:
    "the first word behind the remarks of an MPS file and the comments of an LP file; empty where there is none"
    found = NO_BLANK.search(text)
    while found and (found[0] == "\\" or found[0] == "*" and text[found.start() - 1:found.start()] in ("", "\n")):
        end = text.find("\n", found.start())
        found = NO_BLANK.search(text, end if end >= 0 else len(text))
    word = found and WORD.match(text, found.start())
    return word[0] if word else ""


def is_lp(text: str, name: str = "") -> bool:
    "whether a text is a CPLEX LP file: by its first word, or by its name where that word begins no MPS file either"
    word = first_word(text).upper()
    is_named = name.lower().removesuffix(".gz").endswith(".lp")
    return word in SENSES or is_named and word not in ("NAME", "OBJSENSE", "OBJNAME", *SECTIONS)


def read_text(text: str, reading: Reading = Reading(), name: str = "") -> Model:
    "the model of a text; Refused names the line"
    if is_lp(text, name):
        from mps360 import lp_file  # pylint: disable=import-outside-toplevel
        model = lp_file.read_text(text, reading)
    else:
        model = Reader(reading).read(text)
    model.units = units_of(text)
    return model


def refuse_other_forms(data: bytes, name: str) -> None:
    "refuses what is compressed otherwise than by gzip, and models in another language, and says what makes an MPS file of it"
    for begin, how, unpacks in COMPRESSED:
        if data.startswith(begin):
            raise Refused(f"it is compressed by {how}: {unpacks} unpacks it (what gzip has compressed is read as it is)")
    if name.lower().endswith(".mod"):
        raise Refused(MATHPROG)


def read_bytes(data: bytes, reading: Reading = Reading(), name: str = "") -> Model:
    "the model of the bytes of a file, gzipped or not, in UTF-8 or Latin-1; its name may tell its form"
    refuse_other_forms(data, name)
    data = unzipped(data, MOST_TEXT)
    if data[:2] in (codecs.BOM_UTF16_LE, codecs.BOM_UTF16_BE):
        raise Refused("it is UTF-16; save it as UTF-8")
    try:
        return read_text(data.decode("utf-8-sig"), reading, name)
    except UnicodeDecodeError as cause:
        if data.startswith(codecs.BOM_UTF8):
            raise Refused("it begins as UTF-8, and has a byte that isn't", line=cause.object[:cause.start].count(b"\n") + 1) from None
        model = read_text(data.decode("latin-1"), reading, name)
    model.said.append("the file isn't UTF-8: its letters are read as Latin-1")
    return model


def read_file(path: str, reading: Reading = Reading()) -> Model:
    "the model of a file; - is standard input"
    if str(path) == "-":
        return read_bytes(sys.stdin.buffer.read(), reading)
    with open(path, "rb") as source:
        return read_bytes(source.read(), reading, str(path))
