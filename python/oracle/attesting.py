"""Says whether the numbers of a listing prove what it says of a job, and all else in it is what the job prints: worked out apart from the
program, over Python's exact fractions, without a path and without a basis. A script, tested and not proved.

usage: dev/oracle attesting [--long] JOB LISTING       it prints one line, and ends with its status
       dev/oracle attesting [--long] --as-program      takes them as the programs do: the job on standard input, and the listing from the file
                                                       LISTING of the present folder

By the rules of mps360check, whose numbers have 127 bits; with --long by those of mps360long, which reads numbers of up to 100,000 digits above and
below the line.

  0 ATTESTED n REPORTS   all of it
 40 WRONG LINE n         what is due at line n isn't of its form, or fails a test
 41 OPEN LINE n          line n can't be attested: RANGE, PUNCH or INSERT, a stop whose cause needs a path, an optimum without SOLUTION
 42 UNCHECKED LINE n     an operation of a test, or of the linear program that is needed for it, doesn't fit 127 bits; with --long one of the linear
                        program, or a number is too long
 43 LONG LISTING         of more than 64,000,000 bytes
 64 wrong use; 66 a file can't be read; as the program: STOP 4 WORDS, with 4, and STOP 27 LISTING FAULT, with 27"""
from __future__ import annotations

import pathlib
import sys
from collections.abc import Callable, Sequence
from fractions import Fraction
from typing import Any, TypeVar

from oracle.claims import (ATTESTED, Changing, Checker, Claim, DEFAULTS, DEMAND_OF, Found, LONG, Listing, MOST_LISTING, MOST_STATEMENTS, Misses,
                           OF_128_BITS, OF_ANY_LENGTH, OPEN, Reader, Sheet, UNCHECKED, WRONG, ask, check_direction, check_equations, check_interval,
                           check_optimal, check_prices, cost, count, for_min, has_form, is_checked, is_open_stop, ray_sum, read_code, shown, total,
                           worth_of)
from oracle.deck_rules import BasisDeck, DataDeck, Problem, RevisionDeck
from oracle.rules import Argument, Program, Refused, Statement, Stop, cut, is_skipped, name_field, word_of
from oracle.selecting import LinearProgram, SelectionFault


# ---- the walk

Result = TypeVar("Result")
Options = tuple[str | None, str | None, str]   # of a SETUP: the bound set, the range set and the sense


class Walk:
    "goes through a job's statements, and takes from the listing what is due at each"
    card: int

    def __init__(self, job: bytes, listing: bytes, by: Checker = OF_128_BITS) -> None:
        self.listing, self.reports, self.by = Listing(listing.decode("latin-1")), 0, by
        # an optimum whose SOLUTION hasn't come yet, and its line
        self.pending: tuple[int, Claim] | None = None
        self.cards: list[str] = []
        self.place = 0
        self.problems: dict[str, Problem] = {}
        self.last: str | None = None
        self.setup: tuple[Problem, Options] | None = None
        self.mark: str | None = None
        # names and numbers
        self.cells: dict[str, Any] = dict(DEFAULTS)
        self.demands: dict[str, int] = {}
        self.job = job
        # of the control program: the next statement, and how many are executed
        self.next = self.executed = 0

    # -- what comes

    def open_stop(self) -> None:
        if is_open_stop(self.listing.peek() or ""):
            raise Found(OPEN, self.listing.line())

    def open_pending(self) -> None:
        if self.pending:
            raise Found(OPEN, self.pending[0])

    def due(self, text: str) -> None:
        "a line on which nothing is left to the listing"
        self.open_stop()
        if self.listing.peek() != text:
            raise self.wrong()
        self.listing.at += 1

    def ends(self, text: str) -> None:
        self.open_stop()
        self.open_pending()
        self.due(text)
        raise Found(*((ATTESTED, self.reports) if self.listing.is_over() else (WRONG, self.listing.line())))

    def reported(self, text: str) -> None:
        self.due(text)
        self.reports += 1

    def read(self, reading: Callable[[], Result]) -> Result:
        "a report that has numbers of its own; what the reading gives of it"
        line = self.listing.line()
        try:
            result = reading()
        except Misses:
            raise Found(WRONG, line) from None
        except Refused:
            raise Found(UNCHECKED, line) from None
        self.reports += 1
        return result

    # -- the run

    def run(self) -> None:
        try:
            self.cards = cut(self.job)
            program = Program(self.cards)
            self.place = program.ends or 0
            self.statements(program)
        except Stop as stop:
            self.ends(stop.text)

    def statements(self, program: Program) -> None:
        "executes the statements from the next on"
        while self.next < len(program.statements):
            if self.executed == MOST_STATEMENTS:
                self.ends("STOP 17 STATEMENT LIMIT")
            one = program.statements[self.next]
            self.next, self.executed = self.next + 1, self.executed + 1
            if one.verb == "EXIT":
                break
            if one.verb == "GOTO":
                self.next = program.labels[str(one.arguments[0])]
                continue
            demand = self.execute(one, program.labels)
            if demand:
                if demand not in self.demands:
                    self.ends("END 2" if demand == "XDOUNB" else "END 1")
                self.next = self.demands[demand]
        self.ends("END 0")

    def execute(self, one: Statement, labels: dict[str, int]) -> str | None:
        "a statement; the demand to which it goes, if any"
        self.card = one.card
        if one.verb == "MVADR":
            self.demands[str(one.arguments[0])] = labels[str(one.arguments[1])]
            return None
        verb: Callable[..., str | None] = getattr(self, "setup_" if one.verb == "SETUP" else one.verb.lower())
        return verb(*one.arguments)

    def fault(self, number: int) -> Stop:
        return Stop(f"STOP 10 VERB FAULT {number} CARD {self.card}")

    def clear_mark(self) -> None:
        self.open_pending()
        self.mark = None

    def initialz(self) -> None:
        self.clear_mark()
        self.cells, self.demands = dict(DEFAULTS), {}

    def title(self, text: str) -> None:
        self.reported("TITLE " + text)

    def move(self, cell: str, value: Argument) -> None:
        self.cells[cell] = value
        if cell in ("XOBJ", "XRHS"):
            self.clear_mark()

    # -- decks and problems

    def deck(self) -> tuple[list[str], int, str | None]:
        "the next deck, with the number of its first card; where XDATA was moved the next one of that name"
        while True:
            while self.place < len(self.cards) and is_skipped(self.cards[self.place]):
                self.place += 1
            first = self.place
            if first == len(self.cards):
                raise self.fault(1)
            while self.place < len(self.cards):
                self.place += 1
                if word_of(self.cards[self.place - 1]) == "ENDATA":
                    break
            name = name_field(self.cards[first]) if word_of(self.cards[first]) == "NAME" else None
            if "XDATA" not in self.cells or self.cells["XDATA"] == name:
                return self.cards[first:self.place], first + 1, name

    def filed(self, cell: str) -> Problem:
        problem = self.problems.get(self.cells.get(cell, self.last))
        if problem is None:
            raise self.fault(2)
        return problem

    def convert(self) -> None:
        cards, first, name = self.deck()
        self.file("CONVERT", DataDeck(cards, first, len(self.cards)), name)

    def revise(self) -> None:
        old = self.filed("XOLDNAME")
        cards, first, name = self.deck()
        self.file("REVISE", RevisionDeck(old, cards, first, len(self.cards)), name)

    def file(self, verb: str, deck: DataDeck, name: str | None) -> None:
        deck.read()
        problem = deck.problem
        problem.name = self.cells.get("XPBNAME", name)
        self.open_stop()
        self.clear_mark()
        self.reported(f"{verb:<7} {problem.name:<8} ROWS {len(problem.rows)} COLUMNS {len(problem.columns)} ENTRIES {problem.entries()}")
        self.problems[problem.name], self.last, self.setup = problem, problem.name, None

    def bcdout(self) -> None:
        problem = self.filed("XPBNAME")
        self.reported(f"BCDOUT  {problem.name:<8} CARDS {problem.punched_cards()}")

    def setup_lp(self, setup: tuple[Problem, Options]) -> LinearProgram:
        problem, options = setup
        try:
            return LinearProgram(problem, self.cells.get("XOBJ"), self.cells.get("XRHS"), options)
        except SelectionFault as fault:
            raise self.fault(fault.args[0]) from None

    def select(self) -> LinearProgram:
        if self.setup is None:
            raise self.fault(3)
        return self.setup_lp(self.setup)

    def problem_set_up(self) -> Problem:
        "the problem of the last SETUP, after select"
        assert self.setup is not None
        return self.setup[0]

    def not_refused(self, lp: LinearProgram) -> None:
        if lp.is_refused:
            raise Found(UNCHECKED, self.listing.line())

    def setup_(self, bound: str | None, ranges: str | None, sense: str) -> None:
        options = bound, ranges, sense
        problem = self.filed("XPBNAME")
        lp = self.setup_lp((problem, options))
        self.open_stop()
        self.clear_mark()
        self.not_refused(lp)
        self.reported(f"SETUP   {problem.name:<8} {sense}")
        self.setup = problem, options

    # -- verdicts

    def claim(self, verb: str, lp: LinearProgram, kinds: Sequence[str]) -> Claim:
        "a verdict of one of these kinds, read"
        words, reader = (self.listing.peek() or "").split(" "), Reader(self.by)
        sheet = Sheet(lp, reader)
        ask(len(words) > 5 and words[0] == verb and words[1] in kinds and words[2] == "STEPS")
        kind, steps, end = words[1], count(words[3]), words[4]
        if kind == "INFEASIBLE" and end == "RAY":
            word = is_checked(words[5:])
            self.listing.take()
            ray = sheet.ray(self.listing)
            reader.refuse_long()
            return Claim(kind, word, ray=ray)
        word = is_checked(words[6:])
        if kind == "INFEASIBLE":
            ask(end == "CROSSED" and steps == 0)
            crossed = count(words[5])
            ask(1 <= crossed <= sheet.size)
            self.listing.take()
            return Claim(kind, word, crossed=crossed - 1)
        ask(end == "OBJECTIVE")
        objective = reader.fraction(words[5])
        self.listing.take()
        point, direction = ([], []) if kind == "OPTIMAL" else sheet.table(self.listing, 0, 0)
        reader.refuse_long()
        return Claim(kind, word, objective=objective, point=point, direction=direction)

    def tested_claim(self, verb: str, lp: LinearProgram, kinds: Sequence[str], made: Callable[[], LinearProgram]) -> Claim:
        "a verdict that passes its test in a linear program, which is made once the verdict is read"
        line, claim = self.listing.line(), self.claim(verb, lp, kinds)
        lp = made()
        claim.test(self.by, lp)
        self.met(line, lp, claim)
        return claim

    def met(self, line: int, lp: LinearProgram, claim: Claim) -> None:
        "what follows of a claim that has passed its test; nothing here"

    def primal(self) -> str | None:
        return self.solve("PRIMAL")

    def dual(self) -> str | None:
        return self.solve("DUAL")

    def solve(self, verb: str) -> str | None:
        lp = self.select()
        self.open_stop()
        self.open_pending()
        self.not_refused(lp)
        line, kinds = self.listing.line(), ("OPTIMAL", "INFEASIBLE") + (("UNBOUNDED",) if verb == "PRIMAL" else ())
        claim = self.read(lambda: self.tested_claim(verb, lp, kinds, lambda: lp))
        self.mark, self.pending = claim.kind, (line, claim) if claim.kind == "OPTIMAL" else None
        return DEMAND_OF.get(claim.kind)

    # -- SOLUTION, and what can't be read without a basis

    def needs_mark(self, *marks: str) -> tuple[Problem, Options]:
        "the present setup; the fault of a statement that needs one of these marks where there is none"
        if self.setup is None or self.mark is None or self.mark not in marks:
            raise self.fault(3 if self.setup is None else 4 if self.mark is None else 5)
        return self.setup

    def solution(self) -> None:
        "SOLUTION: its numbers are tested, and with them an optimum that is pending"
        setup = self.needs_mark("OPTIMAL", "INFEASIBLE", "UNBOUNDED")
        self.open_stop()
        lp, line = self.setup_lp(setup), self.listing.line()
        claimed = self.read(lambda: self.tested_solution(lp))
        if self.mark != "OPTIMAL":
            return
        if self.pending:
            first, claim = self.pending
            if claim.objective != claimed.objective or not self.by.takes(claim.is_checked):
                raise Found(WRONG, first)
            self.pending = None
        self.met(line, lp, claimed)

    def tested_solution(self, lp: LinearProgram) -> Claim:
        "the tables of SOLUTION, which are read and tested"
        listing, reader, by = self.listing, Reader(self.by), self.by
        sheet = Sheet(lp, reader)
        ask(listing.take() == f"SOLUTION {self.mark}")
        point, prices, slacks = [], [], []
        for k in range(sheet.size + 1):
            if k == 0:
                ask((listing.take(), listing.take()) == ("SECTION 1 - ROWS", "NUMBER ROW AT ACTIVITY SLACK LOWER UPPER DUAL"))
            if k == lp.m:
                ask((listing.take(), listing.take()) == ("SECTION 2 - COLUMNS", "NUMBER COLUMN AT ACTIVITY COST LOWER UPPER REDUCED"))
            if k == sheet.size:
                break
            words = sheet.values(listing.take(), k)
            ask(len(words) == 6)
            read_code(words[0])
            point.append(reader.fraction(words[1]))
            if k < lp.m:
                slacks.append(reader.fraction(words[2]))
            else:
                ask(words[2] == str(cost(by, lp, lp.columns[k - lp.m])))
            ask(words[3:5] == [shown(lp.lower[k]), shown(lp.upper[k])])
            prices.append(reader.fraction(words[5]))
        reader.refuse_long()
        check_equations(by, lp, point)
        check_prices(by, lp, prices)
        for right, value, slack in zip(lp.rhs, point, slacks):
            ask(by.subtract(right, value) == slack)
        if self.mark == "OPTIMAL":
            check_optimal(by, lp, point, prices)
        return Claim("OPTIMAL", True, objective=point[lp.objective], point=point, prices=prices)

    def is_by_basis(self, text: str, has_count: bool = False) -> bool:
        "whether the line of a report that needs the basis is due there, which then is open: a text, and where it has one a count"
        self.open_stop()
        line = self.listing.peek() or ""
        if not (line.startswith(text) and has_form([line[len(text):]], ["#"]) if has_count else line == text):
            return False
        self.untold()
        return True

    def untold(self) -> None:
        "the report that can't be tested begins at the next line"
        raise Found(OPEN, self.listing.line())

    def wrong(self) -> Found:
        return Found(WRONG, self.listing.line())

    def range(self) -> None:
        self.needs_mark("OPTIMAL")
        if not self.is_by_basis("RANGE"):
            raise self.wrong()

    def punch(self) -> None:
        lp = self.select()
        if not self.is_by_basis(f"PUNCH   {self.problem_set_up().name:<8} CARDS ", has_count=True):
            self.not_refused(lp)
            raise self.wrong()

    def insert(self) -> None:
        "INSERT: its deck is read for its faults, and what it leads to is open"
        lp = self.select()
        try:
            cards, first, name = self.deck()
            BasisDeck(lp, cards, first, len(self.cards)).read()
        except Stop:
            self.open_stop()
            self.open_pending()
            self.not_refused(lp)
            raise
        if not self.is_by_basis(f"INSERT  {name:<8} BASIC ", has_count=True):
            self.open_pending()
            self.not_refused(lp)
            raise self.wrong()
        self.clear_mark()

    # -- parametric runs

    def paraobj(self) -> str | None:
        return self.parametric("PARAOBJ")

    def pararhs(self) -> str | None:
        return self.parametric("PARARHS")

    def parametric(self, verb: str) -> str | None:
        "PARAOBJ or PARARHS; the demand to which it goes, if any"
        lp = self.select()
        if lp.is_refused:
            self.open_stop()
            self.open_pending()
            self.not_refused(lp)
        problem, cells = self.problem_set_up(), self.cells
        cell, fault = ("XCHROW", 6) if verb == "PARAOBJ" else ("XCHCOL", 7)
        if cell not in cells:
            raise self.fault(fault)
        change: str = cells[cell]
        if verb == "PARAOBJ" and (change not in problem.rows or problem.rows[change].kind != "N"):
            raise self.fault(6)
        if verb == "PARARHS" and change not in problem.rhs:
            raise self.fault(7)
        if "XPARMAX" not in cells:
            raise self.fault(8)
        if cells["XPARMAX"] < cells["XPARAM"]:
            raise self.fault(9)
        self.open_stop()
        self.clear_mark()
        if verb == "PARAOBJ":
            changing = Changing(self.by, lp, row=lp.row_names.index(change))
        else:
            changing = Changing(self.by, lp, shift=[problem.rhs[change].get(name, Fraction(0)) for name in lp.row_names])
        head = f"{verb} FROM {cells['XPARAM']} CHANGE {change}"
        if self.listing.peek() != head:
            return self.read(lambda: self.opening(verb, changing))
        self.read(lambda: self.chain(verb, changing))
        return None

    def opening(self, verb: str, changing: Changing) -> str:
        return DEMAND_OF[self.tested_claim(verb, changing.lp, tuple(DEMAND_OF), lambda: changing.at(self.cells["XPARAM"])).kind]

    def chain(self, verb: str, changing: Changing) -> None:
        "the intervals of a parametric run, each tested at both ends"
        listing, last, most, number = self.listing, self.cells["XPARAM"], self.cells["XPARMAX"], 0
        listing.take()
        while (listing.peek() or "").startswith("INTERVAL "):
            number += 1
            words, reader = listing.take().split(" "), Reader(self.by)
            ask(len(words) == 6 and words[:5] == ["INTERVAL", str(number), "FROM", str(last), "TO"])
            end = reader.fraction(words[5])
            columns = Sheet(changing.lp, reader).table(listing, None, 0, 0, 0, 0)
            reader.refuse_long()
            check_interval(changing, number == 1, last, end, most, columns)
            last = end
        ask(number)
        self.closing(verb, changing, last, most)
        self.cells["XPARAM"] = last

    def closing(self, verb: str, changing: Changing, last: Fraction, most: Fraction) -> None:
        "the last line of a parametric run, with the test of what it says lies past the end"
        text, _, word = self.listing.take().rpartition(" ")
        reader = Reader(self.by)
        end = reader.fraction(word)
        if text == f"{verb} ENDS AT":
            reader.refuse_long()
            ask(end == last == most)
            return
        ask(text == f"{verb} {'UNBOUNDED' if verb == 'PARAOBJ' else 'INFEASIBLE'} PAST")
        sheet = Sheet(changing.lp, reader)
        if changing.row is not None:
            point, direction = sheet.table(self.listing, 0, 0)
            reader.refuse_long()
            ask(end == last < most)
            self.unbounded_past(changing, last, point, direction)
        else:
            ray = sheet.ray(self.listing)
            reader.refuse_long()
            ask(end == last < most)
            self.infeasible_past(changing, last, ray)

    def unbounded_past(self, changing: Changing, last: Fraction, point: list[Fraction], direction: list[Fraction]) -> None:
        "a direction that keeps all limits, along which the objective doesn't get worse at the last parameter, and better past it"
        lp, row = changing.lp, changing.row
        assert row is not None
        check_direction(self.by, lp, point, direction)
        ask(worth_of(self.by, changing.at(last), direction) <= 0 and for_min(lp, direction[row]) < 0)

    def infeasible_past(self, changing: Changing, last: Fraction, ray: list[Fraction]) -> None:
        "a ray whose limits add up to no more than 0 at the last parameter, and to less past it"
        ask(ray_sum(self.by, changing.at(last), ray) <= 0)
        ask(total(self.by, Fraction(0), zip(ray, changing.shift or ())) < 0)


def attest(job: bytes, listing: bytes, by: Checker = OF_128_BITS) -> tuple[int, str]:
    "the status, and the line that is printed, by a checker"
    if len(listing) > MOST_LISTING:
        return LONG, "LONG LISTING"
    try:
        Walk(job, listing, by).run()
    except Found as found:
        return told(found)
    raise AssertionError("a walk has an end")


def told(found: Found) -> tuple[int, str]:
    "the status and the line of the end of a walk"
    word = {ATTESTED: "ATTESTED {} REPORTS", WRONG: "WRONG LINE {}", OPEN: "OPEN LINE {}", UNCHECKED: "UNCHECKED LINE {}"}[found.status]
    return found.status, word.format(found.number)


def as_program(words: list[str], by: Checker) -> tuple[int, str]:
    "the status, and the line that is printed, as the programs have them"
    if words:
        return 4, "STOP 4 WORDS"
    job = sys.stdin.buffer.read()
    try:
        listing = pathlib.Path("LISTING").read_bytes()
    except OSError:
        return 27, "STOP 27 LISTING FAULT"
    return attest(job, listing, by)


def main(words: list[str]) -> int:
    "the command; its status"
    by, words = (OF_ANY_LENGTH, words[1:]) if words[:1] == ["--long"] else (OF_128_BITS, words)
    if words[:1] == ["--as-program"]:
        status, line = as_program(words[1:], by)
        print(line)
        return status
    if len(words) != 2 or words[0].startswith("-"):
        print(__doc__)
        return 0 if words[:1] in (["-h"], ["--help"]) else 64
    try:
        job, listing = (pathlib.Path(word).read_bytes() for word in words)
    except OSError as cause:
        print(f"oracle attesting: can't read {cause.filename}: {cause.strerror}", file=sys.stderr)
        return 66
    status, line = attest(job, listing, by)
    print(line)
    return status


if __name__ == "__main__":
    sys.exit(main(sys.argv[1:]))
