"""A job as its control program and its decks say it: which problem is on file, which linear program is selected, what each report of a listing is
to be about. Nothing is solved here; follow_listing.py goes along a listing with it. Work is linear in the cards, and in the sums of combinations."""
from collections.abc import Callable, Sequence
from typing import Any, NamedTuple, TypeVar
import copy
import functools
import re
from fractions import Fraction
from math import lcm

from mps360.jobs.decks import GAPS, SECTIONS, Bound, DeckFault, Problem, deck_name, fields, is_skipped, number

GREATEST = 2 ** 127 - 1
Read = TypeVar("Read")


class Options(NamedTuple):
    "what SETUP says: the set of bounds, the set of ranges, the sense"
    bound: str | None = None
    ranges: str | None = None
    sense: str = "MIN"


class Fault(Exception):
    "a job that is not lawful, or asks for what is not known here"


class VerbFault(Exception):
    "a statement that can't be done, with the number of its fault, what follows on its line, and the lines after that"
    def __init__(self, fault: int, more: str = "", lines: Sequence[str] = ()) -> None:
        super().__init__(fault)
        self.more, self.lines = more, lines


class Overflow(Exception):
    "a limit or a sum of the selection doesn't fit 127 bits"


def added(x: Fraction, y: Fraction) -> Fraction:
    "the sum; over the least common denominator neither numerator, nor their sum, nor the reduced result may be past 127 bits"
    a, b, c, d = x.numerator, x.denominator, y.numerator, y.denominator
    total, common = x + y, lcm(b, d)
    if max(abs(a * (common // b)), abs(c * (common // d)), abs(a * (common // b) + c * (common // d)), total.denominator) > GREATEST:
        raise Overflow
    return total


def multiplied(x: Fraction, y: Fraction) -> Fraction:
    "the product, which is to fit 127 bits"
    product = x * y
    if max(abs(product.numerator), product.denominator) > GREATEST:
        raise Overflow
    return product


# ---- a linear program: variables are numbered from 0, rows before columns

class LinearProgram:
    """what a selection makes of a problem: names, limits (None: none), numbers of columns by the numbers of rows. change is the row that is added to the
    objective, times a parameter, where a parametric run has reached that"""
    def __init__(self, problem: Problem, objective: str | None, rhs: str | None, options: Options) -> None:
        self.names = [*problem.rows, *problem.columns]
        self.m, self.n = len(problem.rows), len(problem.columns)
        place = {name: k for k, name in enumerate(problem.rows)}
        free = [name for name, kind in problem.rows.items() if kind == "N"]
        chosen = objective if objective is not None else next(iter(free), "")
        sets = problem.sets["RHS"]
        for fault, is_there in ((10, chosen in problem.rows), (11, chosen in free), (12, rhs is None or rhs in sets),
                                (13, options.ranges is None or options.ranges in problem.sets["RANGES"]),
                                (14, options.bound is None or options.bound in problem.sets["BOUNDS"])):
            if not is_there:
                raise VerbFault(fault)
        self.objective, self.sense = place[chosen], options.sense
        self.change: tuple[int, Fraction] | None = None
        values = sets[rhs] if rhs is not None else next(iter(sets.values()), {})
        self.rhs: list[Fraction] = [values.get(name, Fraction(0)) for name in problem.rows]
        ranges: dict[str, Fraction] = problem.sets["RANGES"][options.ranges] if options.ranges is not None else {}
        self.problem, self.place = problem, place
        self.lower: list[Fraction | None] = [None] * self.m + [Fraction(0)] * self.n
        self.upper: list[Fraction | None] = [None] * (self.m + self.n)
        for name, kind in problem.rows.items():
            k, b = place[name], self.rhs[place[name]]
            if kind in "GE":
                self.lower[k] = b
            if kind in "LE":
                self.upper[k] = b
            if name in ranges:
                r = ranges[name]
                if kind == "L" or kind == "E" and r < 0:
                    self.lower[k] = added(b, -abs(r))
                else:
                    self.upper[k] = added(b, abs(r))
        if problem.parts:
            self.test_sums(problem)
        self.limit_columns(problem, problem.sets["BOUNDS"][options.bound] if options.bound is not None else [])

    def limit_columns(self, problem: Problem, bounds: list[Bound]) -> None:
        "the limits of columns that a set of bounds says"
        number_of = {name: self.m + k for k, name in enumerate(problem.columns)}
        for kind, name, value in bounds:
            k = number_of[name]
            if kind in ("LO", "FX", "FR", "MI"):
                self.lower[k] = value if kind in ("LO", "FX") else None
            if kind in ("UP", "FX", "FR", "PL"):
                self.upper[k] = value if kind in ("UP", "FX") else None

    @functools.cached_property
    def columns(self) -> list[dict[int, Fraction]]:
        "the numbers of each column by the numbers of rows, made where they are asked for"
        combinations = self.problem.combinations()
        return [{self.place[row]: value for row, value in self.problem.summed(column, combinations).items()} for column in self.problem.columns]

    def test_sums(self, problem: Problem) -> None:
        "Overflow where a sum of a combination doesn't fit"
        combinations = problem.combinations()
        for column in problem.columns:
            numbers: dict[str, Fraction] = dict(problem.columns[column])
            for name in combinations:
                met = [(times, numbers[row]) for row, times in problem.parts[name].items() if row in numbers]
                if met:
                    numbers[name] = functools.reduce(added, (multiplied(*factors) for factors in met), Fraction(0))

    def opening(self) -> list[str]:
        "where each variable stands after SETUP"
        return ["BS"] * self.m + ["LL" if self.lower[k] is not None else "UL" if self.upper[k] is not None else "FR"
                                  for k in range(self.m, self.m + self.n)]

    def better(self) -> int:
        "1 where the objective is to rise, -1 where it is to fall"
        return 1 if self.sense == "MAX" else -1

    def cost(self, column: dict[int, Fraction]) -> Fraction:
        "the cost of a column, whose numbers these are: its number on the objective, and the parameter's share of the change row"
        own = column.get(self.objective, Fraction(0))
        return own + self.change[1] * column.get(self.change[0], Fraction(0)) if self.change else own

    def with_change(self, row: int, theta: Fraction) -> "LinearProgram":
        "the same with theta times this row added to the objective"
        changed = copy.copy(self)
        changed.change = row, theta
        return changed

    def with_limits(self, shift: list[Fraction], theta: Fraction) -> "LinearProgram":
        "the same with theta times its shift added to each limit"
        changed = copy.copy(self)
        changed.lower, changed.upper = ([end if end is None else end + theta * by for end, by in zip(ends, shift)] for ends in (self.lower, self.upper))
        return changed


# ---- a basis deck

CODES = {"XU": "UL", "XL": "LL", "UL": "UL", "LL": "LL"}


def stands_for(cards: list[str], lp: LinearProgram) -> list[str]:
    "where each variable stands by the cards of a basis deck, by its number; what no card names stands as after SETUP"
    column_of = {name: lp.m + k for k, name in enumerate(lp.names[lp.m:])}
    row_of = {name: k for k, name in enumerate(lp.names[:lp.m])}
    at, is_begun = lp.opening(), False
    named: set[int] = set()
    for place, card in enumerate(cards):
        if is_skipped(card):
            continue
        word = card.split(" ")[0]
        if not is_begun:
            if word != "NAME":
                raise DeckFault(1, place)
            is_begun = True
        elif word:
            if word != "ENDATA":
                raise DeckFault(1 if word in SECTIONS else 2, place)
            return at
        else:
            if any(card[column - 1:column].strip() for column in GAPS):
                raise DeckFault(20, place)
            code, column, row, *others = fields(card)
            code, is_exchange = code.strip(), code.strip() in ("XU", "XL")
            if code not in CODES:
                raise DeckFault(30, place)
            if column not in column_of:
                raise DeckFault(11, place)
            if is_exchange and row not in row_of:
                raise DeckFault(6, place)
            moved = [column_of[column]] + ([row_of[row]] if is_exchange else [])
            if named & set(moved):
                raise DeckFault(31, place)
            if (lp.upper if CODES[code] == "UL" else lp.lower)[moved[-1]] is None:
                raise DeckFault(32, place)
            if any(text.strip() for text in (others if is_exchange else [row, *others])):
                raise DeckFault(20, place)
            named |= set(moved)
            at[moved[0]] = "BS"
            at[moved[-1]] = CODES[code]
    raise DeckFault(13, len(cards) - 1)


# ---- a job

class Run:
    """goes through a job's statements. What solves or needs a basis is asked of whoever goes on from here: primal, dual, parametric, solution, ranges,
    basis_out and insert"""
    lp: LinearProgram
    card = 0
    verb = ""

    def __init__(self, text: str) -> None:
        self.cards = [line.rstrip(" \r") for line in text.split("\n")]
        if self.cards and not self.cards[-1]:
            self.cards.pop()
        if any(len(card) > 80 or re.search(r"[^ -~]", card) for card in self.cards):
            raise Fault("a card of more than 80 bytes, or with a byte that isn't printable")
        self.statements: list[tuple[int, str, list[str]]] = []
        self.labels: dict[str, int] = {}
        self.place = 0
        self.selected: dict[tuple[object, ...], LinearProgram] = {}
        self.problems: dict[str, Problem] = {}
        self.last: str | None = None
        self.setup: tuple[Problem, Options] | None = None
        self.mark: str | None = None
        self.lines: list[str] = []
        self.punched: list[str] = []
        self.compile()
        self.reset()

    def reset(self) -> None:
        "what INITIALZ does"
        self.cells: dict[str, Any] = {"XITERLIM": Fraction(10000), "XPARAM": Fraction(0)}
        self.demands: dict[str, int] = {}
        self.mark = None

    def compile(self) -> None:
        "the statements and the labels of the control program"
        for place, card in enumerate(self.cards, 1):
            if is_skipped(card):
                continue
            card = card[:72]
            if card[0] != " ":
                self.labels[card.split()[0]] = len(self.statements)
                card = card[len(card.split()[0]):]
            text = re.sub(r"^\s*((?:'[^']*'|[^' ])*).*$", r"\1", card)
            if text == "PEND":
                self.place = place
                return
            if not text.startswith("PROGRAM"):
                verb, _, rest = text.partition("(")
                self.statements.append((place, verb, re.findall(r"'[^']*'|[^,']+", rest[:-1])))
        raise Fault("no PEND")

    def deck(self) -> list[str]:
        "the next deck, or the next one of the name in XDATA"
        while True:
            while self.place < len(self.cards) and is_skipped(self.cards[self.place]):
                self.place += 1
            taken = []
            while self.place < len(self.cards):
                taken.append(self.cards[self.place])
                self.place += 1
                if taken[-1].split(" ")[0] == "ENDATA":
                    break
            if not taken:
                raise VerbFault(1)
            if self.cells.get("XDATA", deck_name(taken)) == deck_name(taken):
                return taken

    def read_deck(self, read: Callable[[list[str]], Read], cards: list[str]) -> Read:
        "what is read of the deck just taken; its fault names a card of the job"
        try:
            return read(cards)
        except DeckFault as fault:
            raise DeckFault(fault.number, self.place - len(cards) + (fault.place or 0) + 1, fault.more) from None

    def select(self) -> None:
        "the linear program of the present setup and cells; it is made once"
        if self.setup is None:
            raise VerbFault(3)
        problem, options = self.setup
        key = id(problem), self.cells.get("XOBJ"), self.cells.get("XRHS"), options
        if key not in self.selected:
            self.selected[key] = LinearProgram(problem, self.cells.get("XOBJ"), self.cells.get("XRHS"), options)  # (it keeps the problem)
        self.lp = self.selected[key]

    def filed(self, cell: str) -> Problem:
        "the problem on file whose name a cell has, or the last one"
        problem = self.problems.get(self.cells.get(cell, self.last))
        if problem is None:
            raise VerbFault(2)
        return problem

    def needs_mark(self, *marks: str) -> None:
        "the faults of a statement that needs such a verdict"
        if self.setup is None or self.mark is None or self.mark not in marks:
            raise VerbFault(3 if self.setup is None else 4 if self.mark is None else 5)

    def move(self, cell: str, value: str) -> None:
        "MOVE"
        if cell == "XITERLIM" and value == "NONE":
            self.cells[cell] = None
        else:
            self.cells[cell] = number(value) if cell in ("XITERLIM", "XPARAM", "XPARMAX") else value
        if cell in ("XOBJ", "XRHS"):
            self.mark = None

    def file(self, verb: str) -> None:
        "CONVERT and REVISE"
        old = self.filed("XOLDNAME") if verb == "REVISE" else None
        problem = self.read_deck(old.revised if old else Problem, self.deck())
        problem.name = self.cells.get("XPBNAME", problem.name)
        self.problems[problem.name], self.last, self.setup, self.mark = problem, problem.name, None, None
        self.lines.append(f"{verb:<7} {problem.name:<8} ROWS {len(problem.rows)} COLUMNS {len(problem.columns)} ENTRIES {problem.entries()}")

    def punch(self) -> None:
        "BCDOUT"
        problem = self.filed("XPBNAME")
        cards = list(problem.deck())
        self.punched += cards
        self.lines.append(f"BCDOUT  {problem.name:<8} CARDS {len(cards)}")

    def basis_taken(self) -> tuple[list[str], list[str]]:
        "the deck that INSERT takes, and where each variable stands by it"
        self.select()
        cards = self.deck()
        return cards, self.read_deck(lambda cards: stands_for(cards, self.lp), cards)

    def inserted(self, cards: list[str], at: list[str]) -> None:
        "INSERT has taken a deck"
        self.mark = None
        self.lines.append(f"INSERT  {deck_name(cards) or '':<8} BASIC {at[self.lp.m:].count('BS')}")

    # ---- what is asked of whoever goes on from here

    def set_up(self, words: list[str]) -> None:
        "SETUP with its arguments"
        raise NotImplementedError

    def path(self, verb: str) -> tuple[str, ...]:
        "the end of PRIMAL or DUAL: OPTIMAL, INFEASIBLE or UNBOUNDED, or LIMIT and how many steps"
        raise NotImplementedError

    def parametric(self, verb: str) -> tuple[str, ...]:
        "the end of PARAOBJ or PARARHS"
        raise NotImplementedError

    def solution(self) -> None:
        "SOLUTION"
        raise NotImplementedError

    def ranges(self) -> None:
        "RANGE"
        raise NotImplementedError

    def basis_out(self) -> None:
        "PUNCH"
        raise NotImplementedError

    def insert(self) -> None:
        "INSERT"
        raise NotImplementedError

    # ---- the run

    def run(self) -> int:
        "goes on to the end, whose status it gives"
        at = executed = 0
        while at < len(self.statements):
            if executed == 100_000:
                self.lines.append("STOP 17 STATEMENT LIMIT")
                return 17
            card, verb, words = self.statements[at]
            at, executed, self.card, self.verb = at + 1, executed + 1, card, verb
            words = [word.strip("'") for word in words]
            try:
                if verb == "EXIT":
                    break
                if verb == "GOTO":
                    at = self.labels[words[0]]
                elif verb in ("PRIMAL", "DUAL", "PARAOBJ", "PARARHS"):
                    end = self.parametric(verb) if verb.startswith("PARA") else self.path(verb)
                    if end[0] == "LIMIT":
                        self.lines.append(f"STOP 16 ITERATION LIMIT {end[1]} CARD {card}")
                        return 16
                    if end[0] != "OPTIMAL":
                        demand, status = ("XDOUNB", 2) if end[0] == "UNBOUNDED" else ("XDONFS", 1)
                        if demand not in self.demands:
                            self.lines.append(f"END {status}")
                            return status
                        at = self.demands[demand]
                else:
                    self.execute(verb, words)
            except VerbFault as fault:
                self.lines += [f"STOP 10 VERB FAULT {fault} CARD {card}{fault.more}", *fault.lines]
                return 10
            except Overflow as cause:
                self.lines.append(f"STOP 20 OVERFLOW {cause} CARD {card}")
                return 20
            except DeckFault as fault:
                self.lines.append(f"STOP 12 DECK FAULT {fault} CARD {fault.place}{fault.more}")
                return 12
        self.lines.append("END 0")
        return 0

    def execute(self, verb: str, words: list[str]) -> None:
        "a statement after which the next one follows"
        if verb == "TITLE":
            self.lines.append("TITLE " + (words[0] if words else ""))
        elif verb == "INITIALZ":
            self.reset()
        elif verb == "MOVE":
            self.move(words[0], words[1] if len(words) > 1 else "")
        elif verb == "MVADR":
            self.demands[words[0]] = self.labels[words[1]]
        elif verb in ("CONVERT", "REVISE"):
            self.file(verb)
        elif verb == "SETUP":
            self.set_up(words)
        elif verb == "SOLUTION":
            self.needs_mark("OPTIMAL", "INFEASIBLE", "UNBOUNDED")
            self.solution()
        elif verb == "RANGE":
            self.needs_mark("OPTIMAL")
            self.ranges()
        elif verb == "BCDOUT":
            self.punch()
        elif verb == "PUNCH":
            self.basis_out()
        elif verb == "INSERT":
            self.insert()
        else:
            raise Fault(f"verb {verb}")
