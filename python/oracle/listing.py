"""Prints the listing of a lawful job, worked out apart from the program: the bounded simplex method by the least-index rule over a
table of Python's exact fractions. The listings beside the jobs of examples/ are compared with it.

usage: dev/oracle listing [--punch FILE] [--make N | FILE.job]      without a file the job is read from standard input; it ends with the
run's status. With --make N the job is the generated one: N sources with 10 each, and N destinations that want 10 each.

It knows every verb (RANGE, PARAOBJ and PARARHS are worked out in oracle/postoptimal.py, DUAL, PUNCH and INSERT in oracle/bases.py), the
faults of statements, and those of decks (oracle/decks.py). It looks for few other faults, and ends with 70 where it meets one. Of the stops
with 20 it knows those of selections (formulas 13 and 19). With --punch the punched cards go to FILE, where there are any."""
from __future__ import annotations

import re
import sys
from collections.abc import Callable, Iterable
from fractions import Fraction
from typing import Any, TypeVar

from oracle import bases, postoptimal
from oracle.decks import DeckFault, Problem, deck_name, fields, is_skipped, number
from oracle.rules import matched
from oracle.tableau import End, LinearProgram, Overflow, Table, VerbFault

Read = TypeVar("Read")


class Fault(Exception):
    "a job that is not lawful, or asks for what is not known here"


# ---- a run

def shown(value: Fraction | None) -> str:
    return "NONE" if value is None else str(value)


class Run:
    "a run of a job: its lines, its punched cards, and what its statements have changed so far"
    lp: LinearProgram
    table: Table
    card: int
    verb: str

    def __init__(self, text: str) -> None:
        self.cards = [line.rstrip(" \r") for line in text.split("\n")]
        if self.cards and not self.cards[-1]:
            self.cards.pop()
        if any(len(card) > 80 or re.search(r"[^ -~]", card) for card in self.cards):
            raise Fault("a card of more than 80 bytes, or with a byte that isn't printable")
        self.statements: list[tuple[int, str, list[str]]] = []   # each with its card, its verb and its words
        self.labels: dict[str, int] = {}
        self.place = 0
        self.problems: dict[str, Problem] = {}
        self.last: str | None = None
        self.setup: tuple[Problem, dict[str, str | None]] | None = None
        self.mark: str | None = None
        self.lines: list[str] = []
        self.punched: list[str] = []
        self.compile()
        self.reset()

    def reset(self) -> None:
        self.cells: dict[str, Any] = {"XITERLIM": Fraction(10000), "XPARAM": Fraction(0)}   # names, numbers, and None for no limit of steps
        self.demands: dict[str, int] = {}
        self.mark = None

    def compile(self) -> None:
        "takes the statements with their labels, up to PEND"
        for place, card in enumerate(self.cards, 1):
            if is_skipped(card):
                continue
            card = card[:72]
            if card[0] != " ":
                self.labels[card.split()[0]] = len(self.statements)
                card = card[len(card.split()[0]):]
            text = matched(r"\s*((?:'[^']*'|[^' ])*)", card)[1]
            if text == "PEND":
                self.place = place
                return
            if not text.startswith("PROGRAM"):
                verb, _, rest = text.partition("(")
                self.statements.append((place, verb, re.findall(r"'[^']*'|[^,']+", rest[:-1])))
        raise Fault("no PEND")

    def deck(self) -> list[str]:
        "the cards of the next deck; where XDATA was moved, of the next one of that name"
        while True:
            while self.place < len(self.cards) and is_skipped(self.cards[self.place]):
                self.place += 1
            taken = []
            while self.place < len(self.cards):
                taken.append(self.cards[self.place])
                self.place += 1
                if taken[-1].split(" ")[0] == "ENDATA":
                    break
            if not taken:
                raise VerbFault(1)
            if self.cells.get("XDATA", deck_name(taken)) == deck_name(taken):
                return taken

    def read_deck(self, read: Callable[[list[str]], Read], cards: list[str]) -> Read:
        "what is read of the deck just taken; its fault names a card of the job"
        try:
            return read(cards)
        except DeckFault as fault:
            raise DeckFault(fault.number, self.place - len(cards) + (fault.place or 0) + 1, fault.more) from None

    def table_line(self, k: int, values: Iterable[str | Fraction | None]) -> str:
        return f"{k + 1:5} {self.lp.names[k]:<8} " + " ".join(str(value) if isinstance(value, str) else shown(value) for value in values)

    def select(self) -> Problem:
        "makes the linear program that is selected now of the problem that was set up"
        if self.setup is None:
            raise VerbFault(3)
        problem, options = self.setup
        self.lp = LinearProgram(problem, self.cells.get("XOBJ"), self.cells.get("XRHS"), options)
        return problem

    def filed(self, cell: str) -> Problem:
        problem = self.problems.get(self.cells.get(cell, self.last))
        if problem is None:
            raise VerbFault(2)
        return problem

    def needs_mark(self, *marks: str) -> None:
        if self.setup is None or self.mark is None or self.mark not in marks:
            raise VerbFault(3 if self.setup is None else 4 if self.mark is None else 5)

    def limit(self) -> Fraction:
        "the steps of a verb that has a limit under 'NONE' too"
        return Fraction(1_000_000 if self.cells["XITERLIM"] is None else self.cells["XITERLIM"])

    def primal(self) -> End:
        self.select()
        self.table.take(self.lp)
        end, steps = self.table.path(self.cells["XITERLIM"])
        if end[0] != "LIMIT":
            self.mark = self.verdict("PRIMAL", end, steps)
        return end

    def dual(self) -> End:
        self.select()
        self.table.take(self.lp)
        end, steps = bases.dual_path(self.table, self.limit())
        if end[0] == "WRONG":
            raise VerbFault(16, f" VARIABLE {end[1] + 1}")
        if end[0] != "LIMIT":
            self.mark = self.verdict("DUAL", end, steps)
        return end

    def verdict(self, verb: str, end: End, steps: int) -> str:
        "the lines on the end of a path, and the mark"
        kind, say = str(end[0]), self.lines.append
        if kind in ("OPTIMAL", "UNBOUNDED"):
            say(f"{verb} {kind} STEPS {steps} OBJECTIVE {end[1][self.lp.objective]} CHECKED")
            self.lines += [self.table_line(k, pair) for k, pair in enumerate(zip(*end[1:]))] if kind == "UNBOUNDED" else []
            return kind
        if kind == "CROSSED":
            say(f"{verb} INFEASIBLE STEPS {steps} CROSSED {end[1] + 1} CHECKED")
        else:
            say(f"{verb} INFEASIBLE STEPS {steps} RAY CHECKED")
            self.lines += self.factors(end[1])
        return "INFEASIBLE"

    def factors(self, ray: list[Fraction]) -> list[str]:
        return [self.table_line(k, [value]) for k, value in enumerate(ray) if value]

    def parametric(self, verb: str) -> End:
        "PARAOBJ or PARARHS, from XPARAM to XPARMAX"
        problem, cells = self.select(), self.cells
        cell, fault = ("XCHROW", 6) if verb == "PARAOBJ" else ("XCHCOL", 7)
        if cell not in cells:
            raise VerbFault(fault)
        change: str = cells[cell]
        if verb == "PARAOBJ" and problem.rows.get(change) != "N":
            raise VerbFault(6)
        if verb == "PARARHS" and change not in problem.sets["RHS"]:
            raise VerbFault(7)
        if "XPARMAX" not in cells or cells["XPARMAX"] < cells["XPARAM"]:
            raise VerbFault(9 if "XPARMAX" in cells else 8)
        self.mark = None
        if verb == "PARAOBJ":
            changes: postoptimal.OfObjective | postoptimal.OfLimits = postoptimal.OfObjective(self.lp, list(problem.rows).index(change))
        else:
            values = problem.sets["RHS"][change]
            changes = postoptimal.OfLimits(self.lp, [values.get(name, Fraction(0)) for name in problem.rows] + [Fraction(0)] * self.lp.n)
        run = postoptimal.ParametricRun(self.table, changes, self.limit())
        opening, steps = run.opening(cells["XPARAM"])
        if opening[0] != "OPTIMAL":
            if opening[0] != "LIMIT":
                self.verdict(verb, opening, steps)
            return opening
        parts, end = run.intervals(cells["XPARAM"], cells["XPARMAX"])
        if end[0] == "LIMIT":
            return end
        self.lines.append(f"{verb} FROM {cells['XPARAM']} CHANGE {change}")
        for count, (first, last, table) in enumerate(parts, 1):
            self.lines.append(f"INTERVAL {count} FROM {first} TO {last}")
            self.lines += [self.table_line(k, line) for k, line in enumerate(table)]
        cells["XPARAM"] = parts[-1][1]
        self.lines.append(f"{verb} {end[0]} {cells['XPARAM']}")
        if end[0] == "UNBOUNDED PAST":
            self.lines += [self.table_line(k, pair) for k, pair in enumerate(zip(*end[1:]))]
        elif end[0] == "INFEASIBLE PAST":
            self.lines += self.factors(end[1])
        return ("OPTIMAL",)

    def ranges(self) -> None:
        self.lines += ["RANGE"]
        for title, lines in postoptimal.ranges(self.table):
            self.lines += [title, *(self.table_line(k, line) for k, line in lines)]

    def solution(self) -> None:
        lp, table, value, prices = self.lp, self.table, self.table.value(), self.table.prices()
        self.lines += [f"SOLUTION {self.mark}", "SECTION 1 - ROWS", "NUMBER ROW AT ACTIVITY SLACK LOWER UPPER DUAL"]
        for k in range(lp.m + lp.n):
            if k == lp.m:
                self.lines += ["SECTION 2 - COLUMNS", "NUMBER COLUMN AT ACTIVITY COST LOWER UPPER REDUCED"]
            second = lp.rhs[k] - value[k] if k < lp.m else lp.columns[k - lp.m].get(lp.objective, Fraction(0))
            self.lines.append(self.table_line(k, [table.code(k, value), value[k], second, lp.lower[k], lp.upper[k], prices[k]]))
        if not lp.n:
            self.lines += ["SECTION 2 - COLUMNS", "NUMBER COLUMN AT ACTIVITY COST LOWER UPPER REDUCED"]

    def move(self, cell: str, value: str) -> None:
        if cell == "XITERLIM" and value == "NONE":
            self.cells[cell] = None
        else:
            self.cells[cell] = number(value) if cell in ("XITERLIM", "XPARAM", "XPARMAX") else value
        if cell in ("XOBJ", "XRHS"):
            self.mark = None

    def file(self, verb: str) -> None:
        "CONVERT and REVISE"
        old = self.filed("XOLDNAME") if verb == "REVISE" else None
        problem = self.read_deck(old.revised if old else Problem, self.deck())
        problem.name = self.cells.get("XPBNAME", problem.name)
        self.problems[problem.name], self.last, self.setup, self.mark = problem, problem.name, None, None
        self.lines.append(f"{verb:<7} {problem.name:<8} ROWS {len(problem.rows)} COLUMNS {len(problem.columns)} ENTRIES {problem.entries()}")

    def set_up(self, words: list[str]) -> None:
        options: dict[str, str | None] = {"bound": None, "range": None, "sense": "MAX" if "MAX" in words else "MIN"}
        for kind in ("BOUND", "RANGE"):
            if kind in words:
                options[kind.lower()] = words[words.index(kind) + 1]
        problem = self.filed("XPBNAME")
        self.setup = problem, options
        self.select()
        self.mark, self.table = None, Table(self.lp)
        self.lines.append(f"SETUP   {problem.name:<8} {options['sense']}")

    def punch(self) -> None:
        problem = self.filed("XPBNAME")
        cards = list(problem.deck())
        self.punched += cards
        self.lines.append(f"BCDOUT  {problem.name:<8} CARDS {len(cards)}")

    def basis_out(self) -> None:
        "PUNCH"
        problem = self.select()
        self.table.take(self.lp)
        cards = list(bases.deck(problem.name, self.table, Table(self.lp).at))
        self.punched += cards
        self.lines.append(f"PUNCH   {problem.name:<8} CARDS {len(cards)}")

    def basis_taken(self) -> tuple[list[str], list[str]]:
        "the deck that INSERT takes, and where each variable stands by it"
        self.select()
        cards, opening = self.deck(), Table(self.lp).at
        return cards, self.read_deck(lambda cards: bases.stands_for(cards, self.lp, opening, is_skipped, fields), cards)

    def inserted(self, cards: list[str], at: list[str]) -> None:
        self.mark = None
        self.lines.append(f"INSERT  {deck_name(cards):<8} BASIC {at[self.lp.m:].count('BS')}")

    def insert(self) -> None:
        cards, at = self.basis_taken()
        table = Table(self.lp)
        try:
            bases.take(table, at)
        except bases.Singular as cause:
            raise VerbFault(15, "", self.factors(cause.vector)) from None
        self.table = table
        self.inserted(cards, at)

    def run(self) -> int:
        "executes the statements; the status"
        at = executed = 0
        while at < len(self.statements):
            if executed == 100_000:
                self.lines.append("STOP 17 STATEMENT LIMIT")
                return 17
            card, verb, words = self.statements[at]
            at, executed, self.card, self.verb = at + 1, executed + 1, card, verb
            words = [word.strip("'") for word in words]
            try:
                if verb == "EXIT":
                    break
                if verb == "GOTO":
                    at = self.labels[words[0]]
                elif verb in ("PRIMAL", "DUAL", "PARAOBJ", "PARARHS"):
                    end = self.primal() if verb == "PRIMAL" else self.dual() if verb == "DUAL" else self.parametric(verb)
                    if end[0] == "LIMIT":
                        self.lines.append(f"STOP 16 ITERATION LIMIT {end[1]} CARD {card}")
                        return 16
                    if end[0] != "OPTIMAL":
                        demand, status = ("XDOUNB", 2) if end[0] == "UNBOUNDED" else ("XDONFS", 1)
                        if demand not in self.demands:
                            self.lines.append(f"END {status}")
                            return status
                        at = self.demands[demand]
                else:
                    self.execute(verb, words)
            except VerbFault as fault:
                self.lines += [f"STOP 10 VERB FAULT {fault} CARD {card}{fault.more}", *fault.lines]
                return 10
            except Overflow as cause:
                self.lines += [f"STOP 20 OVERFLOW {cause} CARD {card}", "BASIS NONE", "WAY NONE"]
                return 20
            except DeckFault as fault:
                self.lines.append(f"STOP 12 DECK FAULT {fault} CARD {fault.place}{fault.more}")
                return 12
        self.lines.append("END 0")
        return 0

    def execute(self, verb: str, words: list[str]) -> None:
        "a statement after which the next one follows"
        if verb == "TITLE":
            self.lines.append("TITLE " + (words[0] if words else ""))
        elif verb == "INITIALZ":
            self.reset()
        elif verb == "MOVE":
            self.move(words[0], words[1] if len(words) > 1 else "")
        elif verb == "MVADR":
            self.demands[words[0]] = self.labels[words[1]]
        elif verb in ("CONVERT", "REVISE"):
            self.file(verb)
        elif verb == "SETUP":
            self.set_up(words)
        elif verb == "SOLUTION":
            self.needs_mark("OPTIMAL", "INFEASIBLE", "UNBOUNDED")
            self.solution()
        elif verb == "RANGE":
            self.needs_mark("OPTIMAL")
            self.ranges()
        elif verb == "BCDOUT":
            self.punch()
        elif verb == "PUNCH":
            self.basis_out()
        elif verb == "INSERT":
            self.insert()
        else:
            raise Fault(f"verb {verb}")


def made_job(n: int) -> str:
    "the generated job: a unit from source i to destination j costs (7i + 11j) mod 19, and 1"
    item = "    {:<10}{:<10}{}".format
    sources, destinations = ([f"{letter}{k:03}" for k in range(1, n + 1)] for letter in "SD")
    columns = [(f"X{i:03}{j:03}", f"S{i:03}", f"D{j:03}", (7 * i + 11 * j) % 19 + 1) for i in range(1, n + 1) for j in range(1, n + 1)]
    verbs = ("PROGRAM", "INITIALZ", "MOVE(XITERLIM,1000000)", "CONVERT", "SETUP", "PRIMAL", "EXIT", "PEND")
    cards = [*(f"         {verb}" for verb in verbs), "NAME          TRANSP", "ROWS", " N  COST"]
    cards += [*(f" L  {name}" for name in sources), *(f" G  {name}" for name in destinations), "COLUMNS"]
    for name, source, destination, cost in columns:
        cards += [item(name, "COST", cost), item(name, source, 1), item(name, destination, 1)]
    cards += ["RHS", *(item("RHS", name, 10) for name in sources + destinations), "ENDATA"]
    return "\n".join(cards) + "\n"


def main(words: list[str]) -> int:
    "the command; its status"
    if words and words[0] in ("-h", "--help"):
        print(__doc__)
        return 0
    punch = words[1] if words[:1] == ["--punch"] and len(words) > 1 else None
    words = words[2:] if punch else words
    if words[:1] == ["--make"] and len(words) == 2 and words[1].isdigit():
        text = made_job(int(words[1]))
    else:
        text = open(words[0], encoding="latin-1").read() if words else sys.stdin.read()
    try:
        run = Run(text)
        status = run.run()
    except (Fault, LookupError, ValueError) as fault:
        print(f"oracle listing: not a job that is known here: {fault}", file=sys.stderr)
        return 70
    print("\n".join(run.lines))
    if punch and run.punched:
        with open(punch, "w", encoding="latin-1") as file:
            file.write("\n".join(run.punched) + "\n")
    return status


if __name__ == "__main__":
    sys.exit(main(sys.argv[1:]))
