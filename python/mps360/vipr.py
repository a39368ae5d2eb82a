"""VIPR certificates (VER 1.0, and of VER 1.1 what has all multipliers) of linear programs that were solved to their end: read,
checked, made of a listing, and made a model and an answer.
The form is described in Cheung, Gleixner, Steffy: Verifying Integer Programming Results (IPCO 2017).

    certificate = read(TEXT)           a Certificate, or NoCertificate, which names the line
    check(certificate)                 Wrong, where its solutions or its multipliers don't prove what it states
    claims_of(JOB, LISTING)            of a job and its listing each verdict that has a proof, as a certificate
    model_of(certificate)              the linear program as a Model, and what became of each constraint

Variables and constraints are numbered from 0, as in the form itself; a sum of variables is a dictionary {number: factor}, without zeros."""
import re
from collections.abc import Callable, Iterable, Iterator, Mapping
from dataclasses import dataclass, field
from fractions import Fraction

from mps360.jobs.selection import LinearProgram
from mps360.listings.follow import follow
from mps360.listings.read import Line, Parser, Report, Solution, Verdict
from mps360.listings.write import Answer
from mps360.model import Limits, Model, Place
from mps360.numbers import MOST_DIGITS, NUMBER_COLUMNS, text_of
from mps360.text import counted

Sum = dict[int, Fraction]
ZERO = Fraction(0)
SET = "LIMITS"
MOST_COUNT = 10 ** 7
OPPOSITE = {"L": "G", "G": "L", "E": "E"}
ENDING = {"E": "_fixed", "G": "_lower", "L": "_upper"}
DIGITS = rf"\d{{1,{MOST_DIGITS}}}"
VALUE = re.compile(rf"[+-]?(?:{DIGITS}/(?=0*[1-9]){DIGITS}|(?:{DIGITS}(?:\.(?:{DIGITS})?)?|\.{DIGITS})(?:[eE][+-]?\d{{1,3}})?)", re.A)
TOO_LONG = re.compile(r"[+-]?(?:\d+/0*[1-9]\d*|(?:\d+\.?\d*|\.\d+)(?:[eE][+-]?\d{1,3})?)", re.A)
READABLE = re.compile(r"[A-Za-z_][!-$&-z|~]*")
COMMENT = "% written by listing2vipr.py of mps360: the linear program of a listing's report, and the proof that the report gives"


class NoCertificate(Exception):
    "the text isn't a certificate of this form; the message names the line"


class Wrong(Exception):
    "what a certificate states isn't so"


class NoClaim(Exception):
    "a listing's numbers don't prove what it says; the message names the line"


@dataclass
class Constraint:
    "a sum of variables that is at most (L), at least (G) or equal to (E) its side; a derived one has the multipliers of those before it"
    name: str
    sense: str
    side: Fraction
    entries: Sum
    multipliers: Sum | None = None
    line: int = 0

    def holds(self, value: Fraction) -> bool:
        "whether a sum of this value keeps the constraint"
        return value == self.side if self.sense == "E" else value <= self.side if self.sense == "L" else value >= self.side

    def is_absurd(self) -> bool:
        "whether nothing keeps it, since its sum is empty"
        return not self.entries and not self.holds(ZERO)

    def implies(self, other: "Constraint") -> bool:
        "whether what keeps this one keeps the other"
        same = self.entries == other.entries and self.sense in ("E", other.sense)
        return self.is_absurd() or same and other.holds(self.side)


@dataclass
class Certificate:
    "a linear program, solutions of it, and derived constraints; bounds is None where it is to have no plan, else its ends, None for no end"
    variables: list[str] = field(default_factory=list)
    integers: list[int] = field(default_factory=list)
    sense: str = "min"
    objective: Sum = field(default_factory=dict)
    constraints: list[Constraint] = field(default_factory=list)
    derived: list[Constraint] = field(default_factory=list)
    bounds: tuple[Fraction | None, Fraction | None] | None = None
    solutions: list[tuple[str, Sum]] = field(default_factory=list)
    limits: int = 0  # how many of the constraints are limits of single variables
    long: dict[Fraction, Place] = field(default_factory=dict)  # of the linear program: each number that no card holds, and where it stands first


def value_of(entries: Mapping[int, Fraction], point: Mapping[int, Fraction]) -> Fraction:
    "a sum of variables at a point"
    return sum((factor * point[k] for k, factor in entries.items() if k in point), ZERO)


def nonzero(entries: Mapping[int, Fraction]) -> Sum:
    "the same without zeros"
    return {k: value for k, value in entries.items() if value}


# ---- reading

class Words:
    "the words of a certificate, one after the other"
    def __init__(self, text: str) -> None:
        self.lines = text.split("\n")
        self.words = [(found[0], number, found.start()) for number, line in enumerate(self.lines, 1) if not line.lstrip().startswith("%")
                      for found in re.finditer(r"\S+", line)]
        self.at = 0
        # of the numbers of the linear program, those that no card holds
        self.long: dict[Fraction, Place] = {}
        self.is_stated = False

    @property
    def line(self) -> int:
        "the line of the word that was taken last"
        return self.words[min(max(self.at, 1), len(self.words)) - 1][1] if self.words else 1

    def refused(self, cause: str) -> NoCertificate:
        "what is wrong with the word that was taken last"
        return NoCertificate(f"line {self.line}: {cause}")

    def peek(self) -> str:
        "the next word; empty at the end"
        return self.words[self.at][0] if self.at < len(self.words) else ""

    def take(self) -> str:
        "the next word"
        self.at += 1
        if self.at > len(self.words):
            raise self.refused("the certificate ends too early")
        return self.words[self.at - 1][0]

    def one_of(self, *wanted: str) -> str:
        "the next word, which is one of these"
        word = self.take()
        if word not in wanted:
            raise self.refused(f"{' or '.join(wanted)} is due, and not {word[:30]!r}")
        return word

    def count(self, below: int, least: int = 0) -> int:
        "a whole number from least on and below a limit"
        word = self.take()
        if not re.fullmatch(r"-?\d{1,11}", word, re.A) or not least <= int(word) < below:
            raise self.refused(f"a whole number from {least} to {below - 1} is due, and not {word[:30]!r}")
        return int(word)

    def value(self) -> Fraction:
        "a number, as a fraction or a decimal"
        word = self.take()
        if not VALUE.fullmatch(word):
            raise self.refused(f"{word[:30]!r} has more than {MOST_DIGITS:,} digits above or below the line" if TOO_LONG.fullmatch(word) else
                               f"a number is due, and not {word[:30]!r}")
        value = Fraction(word)
        if not (self.is_stated or word.isdigit() and len(word) <= NUMBER_COLUMNS):
            self.keep(value, word)
        return value

    def keep(self, value: Fraction, word: str) -> None:
        "the place of the number that was taken last, where no card holds it"
        _, line, start = self.words[self.at - 1]
        if value not in self.long and text_of(value) is None:
            self.long[value] = Place(word, line, self.lines[line - 1], (start, start + len(word)))

    def end(self, none: str) -> Fraction | None:
        "a number, or the word that stands for none"
        if self.peek() == none:
            self.take()
            return None
        return self.value()

    def sum(self, below: int) -> Sum:
        "a count, and as many pairs of a number of a variable and its factor"
        entries: Sum = {}
        for _ in range(self.count(below + 1)):
            k = self.count(below)
            if k in entries:
                raise self.refused(f"the number {k} stands twice in a sum")
            entries[k] = self.value()
        return nonzero(entries)

    def constraint(self, found: Certificate) -> Constraint:
        "a name, a sense, a side and a sum, or OBJ for the sum of the objective"
        name, sense, side, line = self.take(), self.one_of("E", "L", "G"), self.value(), self.line
        if self.peek() == "OBJ":
            self.take()
            return Constraint(name, sense, side, found.objective, line=line)
        return Constraint(name, sense, side, self.sum(len(found.variables)), line=line)

    def derivation(self, found: Certificate) -> Constraint:
        "a constraint with its multipliers between braces, and the number after which it isn't used, which isn't needed here"
        one = self.constraint(found)
        self.one_of("{")
        if (kind := self.take()) != "lin":
            raise self.refused(f"{one.name[:30]} is derived by {kind[:20]!r}; of a linear program all is derived by lin")
        if self.peek() in ("weak", "incomplete"):
            raise self.refused(f"{one.name[:30]} is {self.take()}, and leaves multipliers to a solver: viprcomp of VIPR writes them all")
        one.multipliers = self.sum(len(found.constraints) + len(found.derived))
        self.one_of("}")
        self.count(10 ** 9, -1)
        return one


def read(text: str) -> Certificate:
    "the certificate that a text is; NoCertificate where it is none, or has derivations other than by multipliers"
    words, found = Words(text), Certificate()
    words.one_of("VER")
    words.one_of("1.0", "1.1")
    words.one_of("VAR")
    found.variables = [words.take() for _ in range(words.count(MOST_COUNT))]
    words.one_of("INT")
    found.integers = [words.count(len(found.variables)) for _ in range(words.count(len(found.variables) + 1))]
    words.one_of("OBJ")
    found.sense = words.one_of("min", "max")
    found.objective = words.sum(len(found.variables))
    words.one_of("CON")
    count = words.count(MOST_COUNT)
    found.limits = words.count(count + 1)
    found.constraints = [words.constraint(found) for _ in range(count)]
    found.long, words.is_stated = words.long, True
    words.one_of("RTP")
    if words.one_of("infeas", "range") == "range":
        found.bounds = words.end("-inf"), words.end("inf")
    words.one_of("SOL")
    found.solutions = [(words.take(), words.sum(len(found.variables))) for _ in range(words.count(MOST_COUNT))]
    words.one_of("DER")
    for _ in range(words.count(MOST_COUNT)):
        found.derived.append(words.derivation(found))
    if words.peek():
        words.take()
        raise words.refused("words follow the last derivation")
    return found


# ---- checking

def combined(constraints: list[Constraint], multipliers: Sum) -> Constraint | None:
    "the sum of constraints times their multipliers; None where at-most and at-least constraints are mixed"
    senses, side, entries = set(), ZERO, dict[int, Fraction]()
    for index, times in multipliers.items():
        one = constraints[index]
        senses.add(one.sense if times > 0 else OPPOSITE[one.sense])
        side += times * one.side
        for k, factor in one.entries.items():
            entries[k] = entries.get(k, ZERO) + times * factor
    senses.discard("E")
    return None if len(senses) == 2 else Constraint("", senses.pop() if senses else "E", side, nonzero(entries))


def check_solutions(found: Certificate) -> None:
    "Wrong, where a solution breaks a constraint, or has a broken number where a whole one is due"
    for name, point in found.solutions:
        for k in found.integers:
            if point.get(k, ZERO).denominator != 1:
                raise Wrong(f"in the solution {name} {found.variables[k]} isn't whole")
        for one in found.constraints:
            if not one.holds(value_of(one.entries, point)):
                raise Wrong(f"the solution {name} breaks {one.name}, line {one.line}")


def check(found: Certificate) -> None:
    "Wrong, where solutions or derivations don't prove what is stated"
    check_solutions(found)
    known = list(found.constraints)
    for one in found.derived:
        whole = combined(known, one.multipliers or {})
        if whole is None or not whole.implies(one):
            raise Wrong(f"line {one.line}: {one.name} isn't what its multipliers make of the constraints before it")
        known.append(one)
    if found.bounds is None:
        if found.solutions or not known or not known[-1].is_absurd():
            raise Wrong("it has a solution, or its last constraint can be kept, where there is to be no plan")
        return
    best, reached = found.bounds if found.sense == "min" else found.bounds[::-1]
    if best is not None:
        target = Constraint("", "G" if found.sense == "min" else "L", best, found.objective)
        if not known or not known[-1].implies(target):
            raise Wrong(f"the last constraint doesn't prove that no objective is better than {best}")
    if reached is not None:
        target = Constraint("", "L" if found.sense == "min" else "G", reached, {})
        if not any(target.holds(value_of(found.objective, point)) for _, point in found.solutions):
            raise Wrong(f"no solution has the objective {reached}")


# ---- the certificate of a listing's verdict

def limits_of(lp: LinearProgram) -> tuple[list[tuple[int, str, Fraction]], int]:
    "the constraints: (variable, sense, side), first those of rows, and how many they are; a variable with equal limits has one"
    listed: list[tuple[int, str, Fraction]] = []
    rows = 0
    for k, (lower, upper) in enumerate(zip(lp.lower, lp.upper)):
        if lower is not None and lower == upper:
            listed.append((k, "E", lower))
        else:
            listed += [(k, sense, end) for sense, end in (("G", lower), ("L", upper)) if end is not None]
        rows = len(listed) if k < lp.m else rows
    return listed, rows


def used(listed: list[tuple[int, str, Fraction]], factors: Iterable[tuple[int, Fraction]], side_of: Callable[[Fraction], str]) -> Sum:
    "each variable's factor at the constraint of the side that it uses; Wrong where there is no such limit"
    place = {(k, sense): index for index, (k, sense, _) in enumerate(listed)}
    found: Sum = {}
    for k, factor in factors:
        index = place.get((k, "E"), place.get((k, side_of(factor))))
        if factor and index is None:
            raise Wrong(f"the factor of variable {k + 1} is at a limit that it hasn't")
        if factor and index is not None:
            found[index] = factor
    return found


def stated(lp: LinearProgram, names: list[str]) -> Certificate:
    "the linear program alone"
    listed, rows = limits_of(lp)
    entries: list[Sum] = [{} for _ in range(lp.m)]
    for j, column in enumerate(lp.columns):
        for i, value in column.items():
            entries[i][j] = value
    objective = nonzero({j: lp.cost(column) for j, column in enumerate(lp.columns)})
    found = Certificate(names[lp.m:], sense=lp.sense.lower(), objective=objective, limits=len(listed) - rows)
    for k, sense, side in listed:
        is_alone = k < lp.m and (sense == "E" or None in (lp.lower[k], lp.upper[k]))
        found.constraints.append(Constraint(names[k] + ("" if is_alone else ENDING[sense]), sense, side,
                                            nonzero(entries[k]) if k < lp.m else {k - lp.m: Fraction(1)}))
    return found


def numbers_of(lines: Iterable[Line], key: str) -> list[tuple[int, Fraction]]:
    "the numbers of a table's column, each with its variable, numbered from 0"
    return [(line["number"] - 1, Fraction(line[key])) for line in lines]


def of_optimum(lp: LinearProgram, report: Solution, names: list[str]) -> Certificate:
    "the proof of a SOLUTION: its plan, and its prices as multipliers of limits. Wrong where its lines aren't the linear program's"
    lines = [*report.get("rows", []), *report.get("columns", [])]
    point, found = dict(numbers_of(lines, "activity")), stated(lp, names)
    if len(lines) != lp.m + lp.n:
        raise Wrong("it isn't whole")
    found.solutions = [("plan", nonzero({k - lp.m: value for k, value in point.items() if k >= lp.m}))]
    activities = [ZERO] * lp.m
    for j, column in enumerate(lp.columns):
        for i, value in column.items():
            activities[i] += value * point[lp.m + j]
    shown = [(line["lower"], line["upper"]) for line in lines]
    if activities != [point[i] for i in range(lp.m)] or shown != [tuple(None if end is None else str(end) for end in ends) for ends in zip(lp.lower, lp.upper)]:
        raise Wrong("its rows aren't sums of its columns, or its limits are others")
    prices = numbers_of(report.get("rows", []), "dual") + numbers_of(report.get("columns", []), "reduced")
    multipliers = used(limits_of(lp)[0], prices, lambda price: "G" if (price > 0) == (lp.sense == "MIN") else "L")
    best = point[lp.objective]
    found.bounds = best, best
    found.derived = [Constraint("best", "G" if lp.sense == "MIN" else "L", best, found.objective, multipliers)]
    return found


def of_conflict(lp: LinearProgram, report: Verdict, names: list[str]) -> Certificate:
    "the proof that there is no plan: the ray's factors as multipliers of limits, or the two limits that cross"
    listed, found = limits_of(lp)[0], stated(lp, names)
    if "crossed" in report:
        multipliers = {index: Fraction(1 if sense == "L" else -1) for index, (k, sense, _) in enumerate(listed) if k == report["crossed"] - 1}
    else:
        multipliers = used(listed, numbers_of(report.get("ray", []), "multiplier"), lambda factor: "L" if factor > 0 else "G")
    side = sum((factor * listed[index][2] for index, factor in multipliers.items()), ZERO)
    found.derived = [Constraint("none", "L", side, {}, multipliers)]
    return found


def check_direction(lp: LinearProgram, report: Verdict) -> None:
    "Wrong, where the point isn't a plan, or the direction doesn't lead from plan to plan with an objective that gets better without end"
    lines = report.get("direction", [])
    point, ray = dict(numbers_of(lines, "activity")), dict(numbers_of(lines, "direction"))
    if len(point) != lp.m + lp.n:
        raise Wrong("it isn't whole")
    for vector in (point, ray):
        sums = [ZERO] * lp.m
        for j, column in enumerate(lp.columns):
            for i, value in column.items():
                sums[i] += value * vector[lp.m + j]
        if sums != [vector[i] for i in range(lp.m)]:
            raise Wrong("its rows aren't sums of its columns")
    for k, (lower, upper) in enumerate(zip(lp.lower, lp.upper)):
        if lower is not None and (point[k] < lower or ray[k] < 0) or upper is not None and (point[k] > upper or ray[k] > 0):
            raise Wrong(f"variable {k + 1} doesn't keep its limits")
    if sum((lp.cost(column) * ray[lp.m + j] for j, column in enumerate(lp.columns)), ZERO) * lp.better() <= 0:
        raise Wrong("the objective doesn't get better")


@dataclass
class Claim:
    "a verdict of a listing: the line where its report begins, and its certificate, None of one that is unbounded, for which VIPR has no form"
    line: int
    certificate: Certificate | None


def names_of(lp: LinearProgram, table: Mapping[str, Mapping[str, str]]) -> list[str]:
    "a name without blanks for each variable; where one has none, the kind and the number"
    shown = []
    for k, name in enumerate(lp.names):
        name = table.get("rows" if k < lp.m else "columns", {}).get(name, name)
        shown.append(name if READABLE.fullmatch(name) else f"row{k + 1}" if k < lp.m else f"column{k + 1 - lp.m}")
    return shown


def certificate_of(lp: LinearProgram, report: Report, table: Mapping[str, Mapping[str, str]]) -> Certificate | None:
    "the certificate of a report, or None where it claims nothing that has one; Wrong where it doesn't hold"
    if report["report"] == "solution" and report["mark"] == "optimal":
        found = of_optimum(lp, report, names_of(lp, table))
    elif report["report"] == "verdict" and report["verdict"] == "infeasible":
        found = of_conflict(lp, report, names_of(lp, table))
    else:
        if report["report"] == "verdict" and report["verdict"] == "unbounded":
            check_direction(lp, report)
        return None
    check(found)
    return found


def claims_of(job: str, listing: str, table: Mapping[str, Mapping[str, str]] | None = None) -> Iterator[Claim]:
    """each verdict of a job's listing that is infeasible or unbounded, and each SOLUTION of an optimum, in their order; what is read has passed its
    test. NoClaim where a report's numbers don't prove what it says, NoListing or OtherJob where the text isn't the listing of this job."""
    parser = Parser(listing)
    reports = parser.parse()["reports"]
    about, _ = follow(job, reports)
    pending: tuple[int, Verdict] | None = None
    for line, report, lp in zip(parser.begins, reports, about):
        if lp is None:
            continue
        try:
            found = certificate_of(lp, report, table or {})
        except (Wrong, ValueError, TypeError) as cause:
            raise NoClaim(f"line {line}: what begins there isn't the job's, or its numbers don't prove it: {cause}") from None
        if report["report"] == "verdict":
            pending = (line, report) if report["verdict"] == "optimal" else None
        if found and pending and found.bounds != (Fraction(pending[1]["objective"]),) * 2:
            raise NoClaim(f"line {pending[0]}: the SOLUTION of line {line} has another objective")
        if found or report["report"] == "verdict" and report["verdict"] == "unbounded":
            yield Claim(line, found)


# ---- as text

def pairs(entries: Mapping[int, Fraction]) -> str:
    "a count, and the number and the factor of each that isn't 0"
    kept = nonzero(entries)
    return " ".join([str(len(kept)), *(f"{k} {kept[k]}" for k in sorted(kept))])


def lines_of(found: Certificate, comment: str = COMMENT) -> Iterator[str]:
    "the lines of a certificate whose bounds, if it has any, meet; the comment is the first one"
    yield from (comment, "VER 1.0", f"VAR {len(found.variables)}", *found.variables, "INT 0", f"OBJ {found.sense}", pairs(found.objective))
    yield f"CON {len(found.constraints)} {found.limits}"
    yield from (f"{one.name} {one.sense} {one.side} {pairs(one.entries)}" for one in found.constraints)
    yield "RTP infeas" if found.bounds is None else f"RTP range {found.bounds[0]} {found.bounds[1]}"
    yield f"SOL {len(found.solutions)}"
    yield from (f"{name} {pairs(point)}" for name, point in found.solutions)
    yield f"DER {len(found.derived)}"
    for one in found.derived:
        yield f"{one.name} {one.sense} {one.side} {pairs(one.entries)} {{ lin {pairs(one.multipliers or {})} }} -1"


# ---- a model of a certificate, and its answer

def distinct(names: Iterable[str], kind: str) -> list[str]:
    "names that differ: one that comes again gets its kind and number behind it"
    listed: dict[str, None] = {}
    for k, name in enumerate(names):
        while name in listed:
            name = f"{name}_{kind}{k}"
        listed[name] = None
    return list(listed)


class Stated:
    "a certificate's linear program as a Model, and for each constraint the row that it is, or the column whose limit it is, with its factor"
    def __init__(self, found: Certificate) -> None:
        self.found, self.names = found, distinct(found.variables, "column")
        self.row_of: dict[int, str] = {}
        self.limit_of: dict[int, tuple[str, Fraction]] = {}
        rows = distinct((one.name for one in found.constraints), "row")
        objective = next(name for name in ("OBJ", *(f"OBJ{k}" for k in range(len(rows) + 1))) if name not in rows)
        self.model = model = Model(sense=found.sense.upper(), objective=objective, rows={objective: "N"}, bound_set=SET, long=found.long)
        model.columns = {name: {} for name in self.names}
        self.limits = {name: Limits(lower=None, upper=None) for name in self.names}
        model.bounds = {SET: self.limits}
        for k, value in found.objective.items():
            model.columns[self.names[k]][objective] = value
        for index, one in enumerate(found.constraints):
            if not self.is_limit(index, one):
                self.add_row(index, one, rows[index])
        if self.limit_of:
            model.said.append(f"{counted(len(self.limit_of), 'constraint')} of one variable: limits of columns")
        if model.rhs:
            model.rhs_set = "RHS"

    def is_limit(self, index: int, one: Constraint) -> bool:
        "whether a constraint of one variable can be a limit of its column: the first at each end, with a number that a card holds"
        if len(one.entries) != 1:
            return False
        (k, factor), = one.entries.items()
        limits, value, sense = self.limits[self.names[k]], one.side / factor, one.sense if factor > 0 else OPPOSITE[one.sense]
        takes_lower, takes_upper = sense != "L", sense != "G"
        if text_of(value) is None or takes_lower and limits.lower is not None or takes_upper and limits.upper is not None:
            return False
        limits.lower = value if takes_lower else limits.lower
        limits.upper = value if takes_upper else limits.upper
        self.limit_of[index] = self.names[k], factor
        return True

    def add_row(self, index: int, one: Constraint, name: str) -> None:
        "a constraint as a row"
        self.model.rows[name] = one.sense
        self.row_of[index] = name
        for k, value in one.entries.items():
            self.model.columns[self.names[k]][name] = value
        if one.side:
            self.model.rhs.setdefault("RHS", {})[name] = one.side

    def factors(self, multipliers: Sum, sign: int = 1) -> tuple[dict[str, Fraction], dict[str, Fraction]]:
        "multipliers of constraints as numbers of rows and of columns"
        rows: dict[str, Fraction] = {}
        columns: dict[str, Fraction] = {}
        for index, value in multipliers.items():
            if index in self.row_of:
                rows[self.row_of[index]] = sign * value
            else:
                name, factor = self.limit_of[index]
                columns[name] = columns.get(name, ZERO) + sign * value * factor
        return rows, {name: value for name, value in columns.items() if value}

    def crossed(self, multipliers: Sum) -> str | None:
        "a column among these whose limits cross"
        columns = [self.limit_of[index][0] for index in multipliers if index in self.limit_of]
        ends = {name: self.model.column_limits(name) for name in columns}
        return next((name for name, (lower, upper) in ends.items() if lower is not None and upper is not None and lower > upper), None)


def whole_multipliers(found: Certificate) -> Sum:
    "for the last constraint, or the first that nothing keeps, the multipliers of the problem's constraints of which it is made"
    made: list[Sum] = [{index: Fraction(1)} for index in range(len(found.constraints))]
    for one in found.derived:
        total: Sum = {}
        for index, factor in (one.multipliers or {}).items():
            for first, value in made[index].items():
                total[first] = total.get(first, ZERO) + factor * value
        made.append(nonzero(total))
        whole = combined(found.constraints, made[-1])
        if found.bounds is None and whole and whole.is_absurd():
            break
    return made[-1]


def model_of(found: Certificate) -> tuple[Model, Answer]:
    "the linear program of a certificate that was checked, and its answer by the names of the model; Wrong where its bounds don't meet"
    program, multipliers = Stated(found), whole_multipliers(found)
    if found.bounds is None:
        crossed = program.crossed(multipliers)
        if crossed is not None:
            return program.model, Answer("infeasible", crossed=("column", crossed))
        # a sum of at-most constraints below 0, or the opposite of one of at-least constraints above 0
        whole = combined(found.constraints, multipliers)
        rows, columns = program.factors(multipliers, -1 if whole and whole.side > 0 else 1)
        return program.model, Answer("infeasible", ray=rows, column_ray=columns)
    if found.bounds[0] is None or found.bounds[0] != found.bounds[1]:
        raise Wrong("its lower and its upper bound don't meet, so no plan is proved best")
    plan = next(point for _, point in found.solutions if value_of(found.objective, point) == found.bounds[0])
    rows, columns = program.factors(multipliers)
    return program.model, Answer("optimal", columns={program.names[k]: value for k, value in plan.items()}, prices=rows, reduced=columns)
