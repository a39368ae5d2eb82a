#!/usr/bin/env python3
"""MPS files made at random in all forms, and the decks that glpk-utils installs: whether mps2job.py makes jobs of them that say the same, with the
same answer.

usage: random_mps.py COUNT [SEED] | --models
  COUNT [SEED]    COUNT random files from SEED on; a thousand take a few minutes
  --models        the decks of glpk-utils, and its models in its own language, as glpsol writes them; they take some minutes

Each random model is made in fractions and written twice: in the form under test, and in the plainest form, without a constant, for esolver of
qsopt-ex. The job is read back by a reader of this script's own and compared with the fractions; then it is run, and its objective is to be
esolver's, and with the constant the generator's. The decks of glpk-utils go to esolver as glpsol writes them. The program that runs jobs is
MPS360_PROGRAM, or the proved one where it is fresh, else oracle/listing.py. What isn't installed is left out, and said.
It ends with 1 where a result is another, with 64 for wrong use."""
import collections
import gzip
import pathlib
import random
import re
import shutil
import subprocess
import sys
import tempfile
from fractions import Fraction

from mps_house import SECONDS, House, verdict_of

DECKS = pathlib.Path("/usr/share/doc/glpk-utils/examples")
OVERFLOW = "STOP 20 OVERFLOW"
MOST_MODEL = 30_000  # bytes of a model as glpsol writes it


class Card:
    "the fields of a card, a remark behind them, and whether it is written as a whole line"

    def __init__(self, *fields, remark=None):
        self.fields, self.remark = [*fields, *[""] * (6 - len(fields))], remark

    def fixed(self):
        fields = list(self.fields)
        line = "".join([" ", f"{fields[0]:<3}", f"{fields[1]:<10}", f"{fields[2]:<10}", f"{fields[3]:>12}   "])
        line = line if not fields[4] else f"{line}{fields[4]:<10}{fields[5]:>12}"
        if self.remark is None or fields[4]:
            return line.rstrip(" ")
        return f"{line:<14}$ {self.remark}" if not fields[2] else f"{line:<39}$ {self.remark}"

    def free(self, rng):
        words = [word for word in self.fields if word] + ([] if self.remark is None else ["$", self.remark])
        return " " + rng.choice((" ", "  ", "\t")).join(words)


def decimal(rng, low=-9, high=9, places=2):
    return Fraction(rng.randint(low * 10 ** places, high * 10 ** places), 10 ** places)


def spelled(rng, value, width=12):
    "a text of this decimal value"
    sign, digits = "-" if value < 0 else rng.choice(("", "", "", "+")), abs(value)
    whole, rest = divmod(digits * 10 ** 4, 10 ** 4)
    plain = f"{whole}.{int(rest):04}"
    short = plain.rstrip("0").rstrip(".") if "." in plain else plain
    forms = [sign + short, sign + short, sign + plain, sign + short.lstrip("0") if "." in short and not whole else sign + short,
             f"{sign}{digits * 10 ** 4}e-4", f"{sign}{digits * 10 ** 4}D-04", f"{sign}{short}E+00", f"{sign}0{short}"]
    return rng.choice([form for form in forms if len(form) <= width])


INFINITE = ("1e20", "1e30", "1E+30", "Inf", "infinity", "1e31", "9.9e99")


class Random:
    """a random model in fractions, and the file of it. What is expected of the job: rows {name: (lower, upper)}, columns {name: (lower, upper,
    entries)}, the objective's name, the sense and the constant."""

    def __init__(self, seed):
        self.rng = rng = random.Random(seed)
        self.words, self.said = [], []
        self.is_fixed = rng.random() < 0.5
        self.blanks = self.is_fixed and rng.random() < 0.3
        self.relax, self.long = rng.random() < 0.3, not self.is_fixed and rng.random() < 0.3
        self.name_style = rng.choice(("short", "short", "long", "letters", "digits")) if not self.is_fixed else rng.choice(("short", "letters"))
        self.used = set()
        self.make_rows()
        self.make_columns()
        self.make_limits()
        self.make_values()

    def name(self, prefix):
        rng = self.rng
        while True:
            number = rng.randint(1, 99)
            name = {"short": f"{prefix}{number}", "long": f"{prefix}_a_long_name_{number}", "letters": f"{prefix}ü'{number}é",
                    "digits": str(number)}[self.name_style]
            if self.blanks and rng.random() < 0.5:
                name = f"{prefix} {number}"
            if name not in self.used:
                self.used.add(name)
                return name

    def number(self, value):
        return spelled(self.rng, value)

    def any_number(self):
        "a number and its text; with --round one of too many digits, which is rounded to 11 digits behind the point"
        rng = self.rng
        if not self.long or rng.random() < 0.6:
            value = decimal(rng) or Fraction(1)
            return value, self.number(value)
        digits, last = rng.randint(10 ** 9, 10 ** 10 - 1) * 10 + rng.randint(0, 8), rng.choice((1, 2, 3, 4, 6, 7, 8, 9))
        value = Fraction(digits + (last > 5), 10 ** 11)
        self.said.append((f"{digits}", last))
        return value, f"0.{digits}{last}"

    def make_rows(self):
        rng = self.rng
        kinds = [rng.choice("LGE") for _ in range(rng.randint(1, 4))] + ["N"] * rng.choice((1, 1, 2, 3))
        rng.shuffle(kinds)
        self.kinds, self.parts, self.part_texts = {self.name("R"): kind for kind in kinds}, {}, {}
        for place, row in enumerate(self.kinds if rng.random() < 0.3 else ()):
            # a column without entries has its card on a plain row, so there is one
            if rng.random() < 0.4 and len(self.parts) + 1 < len(self.kinds):
                parts = rng.sample(list(self.kinds)[:place], min(place, rng.randint(0, 4)))
                self.parts[row] = {part: Fraction(rng.randint(-3, 3)) for part in parts}
                self.part_texts[row] = [(part, self.number(times)) for part, times in self.parts[row].items()]
        free = [name for name, kind in self.kinds.items() if kind == "N"]
        self.objective, self.objective_form = free[0], None
        if rng.random() < 0.5:
            self.objective, self.objective_form = rng.choice(free), rng.choice(("section", "line", "word"))
        self.sense = rng.choice(("MIN", "MAX"))
        self.sense_form = rng.choice(("section", "line", "word", "long")) if self.sense == "MAX" else rng.choice((None, "section", "line", "word"))

    def make_columns(self):
        rng = self.rng
        self.entries, self.column_cards, markers, self.marked, self.texts = {}, [], 0, set(), {}
        for _ in range(rng.randint(1, 5)):
            name = self.name("X")
            inside = self.relax and rng.random() < 0.3
            if inside:
                markers += 1
                self.marked.add(name)
                self.column_cards.append(Card("", f"MARK{markers}", "'MARKER'", "", "'INTORG'"))
            rows = [row for row in self.kinds if row not in self.parts and rng.random() < 0.6]
            rng.shuffle(rows)
            pairs, entries = [], {}
            for row in rows:
                entries[row], text = self.any_number()
                pairs.append((row, text))
            self.entries[name] = entries
            self.column_cards += self.paired(name, pairs, True) or [Card("", name)]
            if inside:
                self.column_cards.append(Card("", f"MARK{markers}", "'MARKER'", "", "'INTEND'"))

    def sums(self):
        "the entries of the columns, and what they have on combinations"
        sums = {column: dict(entries) for column, entries in self.entries.items()}
        for numbers in sums.values():
            for row, parts in self.parts.items():
                numbers[row] = sum((times * numbers.get(part, 0) for part, times in parts.items()), Fraction(0))
        return sums

    def row_lines(self, row, kind):
        "the cards of a row, or of a combination with its parts"
        rng, remark = self.rng, self.rng.choice((None, None, "remark"))
        word = ("D" if row in self.parts else "") + kind
        word = rng.choice((word, word if self.is_fixed else word.lower()))
        if row not in self.parts:
            return [Card(word, row, remark=remark)]
        cards = [Card(word, *card.fields[1:], remark=card.remark) for card in self.paired(row, self.part_texts[row], False)]
        return cards or [Card(word, row, remark=remark)]

    def paired(self, name, pairs, repeats):
        "the cards of these pairs, one or two on each; in a fixed form a name may be left blank where it repeats"
        rng, cards, pairs = self.rng, [], list(pairs)
        while pairs:
            shown = "" if repeats and cards and self.is_fixed and rng.random() < 0.3 else name
            first = pairs.pop(0)
            second = pairs.pop(0) if pairs and rng.random() < 0.5 else ()
            cards.append(Card("", shown, *first, *second, remark=rng.choice((None, None, None, "COST 7", "remark"))))
        return cards

    def bound(self, kind, column, value=None):
        self.bound_lines.append((kind, column, "" if value is None else value if isinstance(value, str) else self.number(value)))

    def make_limits(self):
        "limits of the columns, by bounds of the set that is taken"
        self.limits, self.bound_lines, self.negative = {}, [], None
        self.marker_upper = self.rng.choice(("1", "none"))
        for column in self.entries:
            self.limits[column] = self.limited(column)
        if self.marked:
            self.words += ["--marker-upper", self.marker_upper]
        if self.relax:
            self.words.append("--relax")
        if self.long:
            self.words.append("--round")
        if self.negative:
            self.words += ["--negative-up", self.negative]

    def limited(self, column):
        rng, low = self.rng, decimal(self.rng, -9, 5)
        high, zero = low + decimal(rng, 0, 9), Fraction(0)
        kinds = ["none", "UP", "LO", "both", "FX", "FR", "MI", "MI UP", "PL", "infinite", "negative", "twice"]
        kind = rng.choice(kinds + ["BV", "LI", "UI", "LI UI"] * self.relax)
        if column in self.marked and kind in ("LO", "MI", "LI"):
            kind = "both"
        if kind == "none":
            return zero, Fraction(1) if column in self.marked and self.marker_upper == "1" else None
        if kind in ("UP", "UI", "twice"):
            high = abs(high)
            for _ in range(2 if kind == "twice" else 1):
                self.bound("UI" if kind == "UI" else "UP", column, high)
            return zero, high
        if kind in ("LO", "LI"):
            self.bound(kind, column, low)
            return low, None
        if kind in ("both", "LI UI"):
            ends = [("LO", low), ("UP", high)] if kind == "both" else [("LI", low), ("UI", high)]
            rng.shuffle(ends)
            for name, value in ends:
                self.bound(name, column, value)
            return low, high
        if kind == "FX":
            self.bound("FX", column, low)
            return low, low
        if kind == "MI UP":
            self.bound("MI", column)
            self.bound("UP", column, low)
            return None, low
        if kind == "infinite":
            self.bound("UP", column, rng.choice(INFINITE))
            self.bound("LO", column, "-" + rng.choice(INFINITE))
            return None, None
        if kind == "negative":
            self.negative = self.negative or rng.choice(("keep", "free", "free", "free"))
            high = -abs(decimal(rng)) - 1
            self.bound("UP", column, high)
            return (zero if self.negative == "keep" else None), high
        self.bound(kind, column)
        return {"FR": (None, None), "MI": (None, None), "PL": (zero, None), "BV": (zero, Fraction(1))}[kind]

    def point(self):
        "a point within the limits of the columns, where these have one"
        place = {}
        for column, (low, high) in self.limits.items():
            step = abs(decimal(self.rng, 0, 3))
            place[column] = low + min(step, high - low) if low is not None and high is not None else low + step if low is not None else (
                high - step if high is not None else step - 1)
        return place

    def make_values(self):
        "right-hand sides and ranges of the rows, which a point keeps, mostly; and constants"
        rng, point, sums = self.rng, self.point(), self.sums()
        self.rhs, self.ranges, self.row_limits, self.rhs_texts, self.range_texts = {}, {}, {}, {}, {}
        for row, kind in self.kinds.items():
            if kind == "N":
                if rng.random() < 0.4:
                    self.rhs[row], self.rhs_texts[row] = (value := decimal(rng)), self.number(value)
                continue
            at = sum((numbers.get(row, Fraction(0)) * point[column] for column, numbers in sums.items()), Fraction(0))
            at = Fraction(round(at * 100), 100) if kind != "E" or rng.random() < 0.9 else decimal(rng)
            self.make_row(row, kind, at)
        self.constant_form = rng.choice(("minus", "minus", "plus"))
        if self.constant_form == "plus":
            self.words += ["--constant", "plus"]
        self.constant = self.rhs.get(self.objective, Fraction(0)) * (1 if self.constant_form == "plus" else -1)

    def make_row(self, row, kind, at):
        rng, slack = self.rng, abs(decimal(self.rng, 0, 3)) + Fraction(1, 100)
        span, infinite = slack + abs(decimal(rng, 0, 3)), False
        limit = at + slack if kind == "L" else at - slack if kind == "G" else at
        limit = Fraction(0) if rng.random() < 0.1 else limit
        if limit or rng.random() < 0.5:
            self.rhs[row], self.rhs_texts[row] = limit, self.number(limit)
        low, high = (None, limit) if kind == "L" else (limit, None) if kind == "G" else (limit, limit)
        if rng.random() < 0.4:
            infinite = kind != "E" and rng.random() < 0.3
            signed = span * rng.choice((1, -1))
            self.ranges[row], self.range_texts[row] = signed, rng.choice(INFINITE) if infinite else self.number(signed)
            if not infinite:
                low, high = {"L": (limit - span, limit), "G": (limit, limit + span), "E": (limit + min(signed, 0), limit + max(signed, 0))}[kind]
        self.row_limits[row] = low, high

    def with_sets(self, word, cards, others):
        "the cards of a section, with the name of their set; perhaps those of another set before or behind, or with blanks for the name"
        rng, blank = self.rng, self.rng.random() < 0.3
        name = "" if blank else self.name("S")
        if not cards:
            return []
        for card in cards:
            card.fields[1] = name
        if blank:
            return cards
        if others and rng.random() < 0.3:
            other = self.name("S")
            for card in others:
                card.fields[1] = other
            if rng.random() < 0.5:
                return cards + others
            self.words += [word, name]
            return others + cards
        if rng.random() < 0.3:
            for card in cards[1:]:
                if rng.random() < 0.5:
                    card.fields[1], self.blank_set = "", "same"
        return cards

    def sections(self):
        "all cards of the file, section by section"
        rng, self.blank_set = self.rng, None

        def remark():
            return rng.choice((None, None, "remark"))

        def others():
            return [Card("", "", row, self.number(decimal(rng) or Fraction(1))) for row, kind in self.kinds.items() if kind != "N"][:2]

        rows = [card for name, kind in self.kinds.items() for card in self.row_lines(name, kind)]
        bounds = [Card(kind, "", column, text, remark=remark() if text else None) for kind, column, text in self.bound_lines]
        other_bounds = [] if self.marked else [Card("UP", "", next(iter(self.entries)), "7")]
        return {"ROWS": rows, "COLUMNS": self.column_cards,
                "RHS": self.with_sets("--rhs", self.paired("", self.rhs_texts.items(), False), others()),
                "RANGES": self.with_sets("--ranges", self.paired("", self.range_texts.items(), False), others()),
                "BOUNDS": self.with_sets("--bounds", bounds, other_bounds)}

    def file(self):
        rng, sections = self.rng, self.sections()
        if self.blank_set:
            self.words += ["--blank-set", self.blank_set]
        if self.blanks:
            self.words.append("--fixed")
        lines = ["* a remark", rng.choice(("NAME", "NAME          RANDOM", "NAME  a random model"))]
        lines += {"section": ["OBJSENSE", f"    {self.sense}"], "line": [f"OBJSENSE {self.sense.lower()}"],
                  "long": ["OBJSENSE", "    Maximize"]}.get(self.sense_form, [])
        self.words += ["--" + self.sense.lower()] if self.sense_form == "word" else []
        lines += {"section": ["OBJNAME", f"    {self.objective}"], "line": [f"OBJNAME {self.objective}"]}.get(self.objective_form, [])
        self.words += ["--objective", self.objective] if self.objective_form == "word" else []
        for section, cards in sections.items():
            lines += [section] if cards or section in ("ROWS", "COLUMNS") else []
            for card in cards:
                lines += ["* another", ""] * (rng.random() < 0.1)
                lines.append(card.fixed() if self.is_fixed else card.free(rng))
        data = rng.choice(("\n", "\r\n")).join([*lines, "ENDATA", ""]).encode()
        data = rng.choice((b"", b"", b"\xef\xbb\xbf")) + data
        return gzip.compress(data) if rng.random() < 0.2 else data

    def plain(self):
        "the model for esolver: short names, two rows for two limits, no sets, no constant, to be minimized"
        rows, sign = [("N", "COST", self.objective, None)], 1 if self.sense == "MIN" else -1
        for row, (low, high) in self.row_limits.items():
            if low is not None and low == high:
                rows.append(("E", f"E{len(rows)}", row, low))
                continue
            rows += [("G", f"G{len(rows)}", row, low)] if low is not None else []
            rows += [("L", f"L{len(rows)}", row, high)] if high is not None else []
        lines = ["NAME P", "ROWS", *(f" {kind} {short}" for kind, short, _, _ in rows), "COLUMNS"]
        for place, numbers in enumerate(self.sums().values()):
            for kind, short, row, _ in rows:
                value = numbers.get(row, Fraction(0)) * (sign if kind == "N" else 1)
                lines += [f" X{place} {short} {written(value)}"] if value or kind == "N" else []
        lines += ["RHS", *(f" B {short} {written(value)}" for _, short, _, value in rows if value)]
        lines.append("BOUNDS")
        for place, (low, high) in enumerate(self.limits.values()):
            lines += [f" MI B X{place}"] if low is None else [f" LO B X{place} {written(low)}"] if low else []
            lines += [f" UP B X{place} {written(high)}"] if high is not None else []
        return "\n".join(lines + ["ENDATA", ""])

    def answer(self, house):
        "esolver's verdict, the objective in the model's sense"
        if any(low is not None and high is not None and low > high for low, high in [*self.limits.values(), *self.row_limits.values()]):
            return "infeasible", None
        verdict, value = house.exact(self.plain())
        return verdict, value if value is None or self.sense == "MIN" else -value


def written(value):
    "a decimal text of a decimal fraction"
    digits = value.numerator * 10 ** 11 // value.denominator
    return f"{'-' if digits < 0 else ''}{abs(digits) // 10 ** 11}.{abs(digits) % 10 ** 11:011}"


def without_zeros(entries):
    return [(column, {row: value for row, value in items.items() if value}) for column, items in entries.items()]


def job_read(job, names):
    "what a job says, read apart from mps360/mps.py, by the file's names: the same as a Random holds"
    cards = [card for card in job.split("\n") if card and not card.startswith("*")]
    end = next(place for place, card in enumerate(cards) if card.strip() == "PEND")
    program = " ".join(card.strip() for card in cards[:end])
    section, kinds, parts, entries, sets = None, {}, {}, {}, {"RHS": {}, "RANGES": {}, "BOUNDS": {}}
    rows, columns = ((lambda short, table=names[key]: table.get(short, short)) for key in ("rows", "columns"))
    for card in cards[end + 1:]:
        kind, name, other, number = card[1:3].strip(), card[4:12].rstrip(), card[14:22].rstrip(), card[24:36].strip()
        if card[0] != " ":
            section = card.split()[0]
        elif section == "ROWS":
            kinds[rows(name)] = kind[-1]
            if kind.startswith("D"):
                parts.setdefault(rows(name), {}).update({rows(other): Fraction(number)} if other else {})
        elif section == "COLUMNS":
            entries.setdefault(columns(name), {})[rows(other)] = Fraction(number)
        elif section == "BOUNDS":
            sets[section].setdefault(name, []).append((kind, columns(other), number))
        else:
            sets[section].setdefault(name, {})[rows(other)] = Fraction(number)
    named = {word: found[1] if (found := re.search(rf"'{word}','(.*?)'", program)) else None for word in ("BOUND", "RANGE")}
    moved = {cell: found[1] if (found := re.search(rf"MOVE\({cell},'(.*?)'\)", program)) else None for cell in ("XOBJ", "XRHS")}
    rhs = sets["RHS"].get(moved["XRHS"]) if moved["XRHS"] is not None else next(iter(sets["RHS"].values()), {})
    ranges = sets["RANGES"][named["RANGE"]] if named["RANGE"] is not None else {}
    limits = {column: [Fraction(0), None] for column in entries}
    for kind, column, number in sets["BOUNDS"][named["BOUND"]] if named["BOUND"] is not None else []:
        if kind in ("LO", "FX", "FR", "MI"):
            limits[column][0] = Fraction(number) if number else None
        if kind in ("UP", "FX", "FR", "PL"):
            limits[column][1] = Fraction(number) if number else None
    row_limits = {}
    for row, kind in kinds.items():
        limit, span = rhs.get(row, Fraction(0)), ranges.get(row)
        if kind != "N":
            far = span or 0
            row_limits[row] = {"E": (limit + min(far, 0), limit + max(far, 0)), "L": (None if span is None else limit - abs(far), limit),
                               "G": (limit, None if span is None else limit + abs(far))}[kind]
    objective = rows(moved["XOBJ"]) if moved["XOBJ"] is not None else next(row for row, kind in kinds.items() if kind == "N")
    return {"kinds": list(kinds.items()), "parts": parts, "entries": without_zeros(entries), "row_limits": row_limits,
            "limits": {column: tuple(ends) for column, ends in limits.items()}, "objective": objective,
            "sense": "MAX" if "'MAX'" in program else "MIN", "rhs on objective": rhs.get(objective, Fraction(0))}


def check_random(house, seed):
    "the job of a random file says what the file does, and has its answer; the verdict. AssertionError where it hasn't"
    model = Random(seed)
    data = model.file()
    status, job, names, said = house.convert(data, model.words)
    if status != 0:
        shown = gzip.decompress(data) if data[:2] == b"\x1f\x8b" else data
        assert False, f"random file {seed}: refused: {said}\n{model.words}\n{shown.decode()}"
    wanted = {"kinds": list(model.kinds.items()), "parts": model.parts, "entries": without_zeros(model.entries), "limits": model.limits, "row_limits": model.row_limits,
              "objective": model.objective, "sense": model.sense, "rhs on objective": model.rhs.get(model.objective, Fraction(0))}
    found = job_read(job, names)
    for key, value in wanted.items():
        assert found[key] == value, f"random file {seed}: {key}: {found[key]}, not {value}"
    assert len(names["rounded"]) == len(model.said), f"random file {seed}: rounded: {names['rounded']}"
    return check_answer(house, seed, model, job)


def check_answer(house, seed, model, job):
    "the verdict of a random model's job is esolver's; the verdict, or why there is nothing to compare with"
    reports = house.solved(job)
    verdict, objective, whole = verdict_of(reports)
    if not house.esolver:
        return "not compared with esolver"
    if house.end.startswith(OVERFLOW):
        return "stopped for overflow"
    known, value = model.answer(house)
    found = None if objective is None else Fraction(objective)
    assert (verdict, found) == (known, value), f"random file {seed}: {verdict} {found}, and esolver has {known} {value}\n{job}"
    if value is not None:
        with_constant = None if not model.constant else str(value + model.constant)
        assert whole == with_constant, f"random file {seed}: with its constant {whole}, not {with_constant}"
        solution = next((report for report in reports if report["report"] == "solution"), {"columns": []})
        assert [line["name"] for line in solution["columns"]] == list(model.entries), f"random file {seed}: the names of the columns"
    return known


def compared(house, data, plain, words):
    "whether a job of a file has the objective that esolver has for a plain form of it, in a word"
    status, job, _, said = house.convert(data, words)
    if status:
        return "refused" if status == 65 and re.search(r": line \d+: ", said) else f"ends with {status}: {said}"
    try:
        verdict, objective, _ = verdict_of(house.solved(job))
        if house.end.startswith(OVERFLOW):
            return "stopped for overflow"
        known = house.exact(plain)
    except subprocess.TimeoutExpired:
        return f"left out (no answer in {SECONDS} seconds)"
    return "the same" if (verdict, objective and Fraction(objective)) == known else f"{verdict} {objective}, and esolver has {known}"


def decks(models=False):
    "the decks of glpk-utils, and where they are wanted its models"
    return sorted([*DECKS.glob("*.mps"), *(DECKS.glob("*.mod") if models else [])])


def can_compare(house):
    "whether esolver and glpsol are there"
    return bool(house.esolver and shutil.which("glpsol"))


def deck_outcome(house, path):
    "what a deck, or a model as glpsol writes it, came to; AssertionError where its answer is another than esolver's"
    again = house.folder / "again.mps"
    again.unlink(missing_ok=True)
    subprocess.run(["glpsol", "--mps" if path.suffix == ".mps" else "-m", path, "--check", "--wfreemps", again], capture_output=True, timeout=SECONDS, check=False)
    plain = again.read_text() if again.exists() else ""
    if path.suffix == ".mps":
        outcome = compared(house, path.read_bytes(), plain, ("--relax", "--blank-set", "same", "--marker-upper", "none"))
    elif not plain or len(plain) > MOST_MODEL or "\nRHS" not in plain or not re.search("\nCOLUMNS\n ", plain):
        outcome = "left out (large, or without variables)"
    else:
        outcome = compared(house, plain.encode(), plain, ("--relax", "--round", "--marker-upper", "1"))
    assert outcome in ("the same", "refused", "stopped for overflow") or outcome.startswith("left out"), f"{path.name}: {outcome}"
    return outcome


def main(words):
    if words != ["--models"] and not (1 <= len(words) <= 2 and all(word.isdigit() for word in words)):
        print(__doc__)
        return 0 if words[:1] in (["-h"], ["--help"]) else 64
    wrong, told = 0, collections.Counter()
    with tempfile.TemporaryDirectory() as folder:
        house = House(folder)
        tried = decks(True) if words == ["--models"] else range(int((words + ["0"])[1]), int((words + ["0"])[1]) + int(words[0]))
        for one in tried:
            try:
                told[deck_outcome(house, one) if words == ["--models"] else check_random(house, one)] += 1
            except AssertionError as cause:
                wrong += 1
                print(f"random_mps.py: {str(cause)[:3000]}", file=sys.stderr)
    print(f"{len(tried)} files: {', '.join(f'{number} {what}' for what, number in sorted(told.items()))}; {wrong} wrong")
    return 1 if wrong else 0


if __name__ == "__main__":
    sys.exit(main(sys.argv[1:]))
