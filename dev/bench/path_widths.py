#!/usr/bin/env python3
"""How many bits the numbers of a path need, by Python's exact fractions: the path of the linear program of the deck on standard input, made
least, is followed by the tables of oracle/listing.py. Prints where it ends and the bits of the widest numerator or denominator of its
rates, of the values of variables with limits, which steps need, and of the objective.
Usage: path_widths.py [--all DECK ..]. With --all it reads the named decks, and prints how many of them have no rate or needed value of
more than 127 bits, which is as many as end without an overflow in the best case."""
import pathlib
import sys
from collections.abc import Iterable
from fractions import Fraction

sys.path.insert(0, str(pathlib.Path(__file__).resolve().parents[2] / "python"))
from oracle.decks import Problem
from oracle.tableau import LinearProgram, Table

BITS = 127


def bits(values: Iterable[Fraction]) -> int:
    "the bits of the widest numerator or denominator"
    return max((max(abs(x.numerator), x.denominator).bit_length() for x in values), default=0)


class Watched(Table):
    "a table that notes how wide its numbers have been"

    def __init__(self, lp: LinearProgram) -> None:
        super().__init__(lp)
        self.rates = self.values = self.objective = 0

    def value(self) -> list[Fraction]:
        "the activities, whose widths are noted"
        value, lp = super().value(), self.lp
        limited = [k for k in range(self.size) if lp.lower[k] is not None or lp.upper[k] is not None]
        self.rates = max(self.rates, bits(x for line in self.rate.values() for x in line))
        self.values = max(self.values, bits(value[k] for k in limited))
        self.objective = max(self.objective, bits([value[lp.objective]]))
        return value


def followed(deck: str) -> tuple[str, int, Watched]:
    "the end of the deck's path, its steps, and the table that it was followed by"
    problem = Problem([card for card in deck.split("\n") if card.strip()])
    table = Watched(LinearProgram(problem, None, None, {"range": None, "bound": None, "sense": "MIN"}))
    end, steps = table.path(None)
    return end[0], steps, table


def main(words: list[str]) -> None:
    "the command"
    if words in (["-h"], ["--help"]):
        print(__doc__)
    elif words[:1] == ["--all"]:
        fit = 0
        for name in words[1:]:
            with open(name) as deck:
                _, _, table = followed(deck.read())
            fit += max(table.rates, table.values) <= BITS
        print(f"{fit} of {len(words) - 1} paths have no rate or needed value of more than {BITS} bits")
    else:
        end, steps, table = followed(sys.stdin.read())
        print(f"{end} STEPS {steps}: rates {table.rates} bits, values of variables with limits {table.values}, objective {table.objective}")


main(sys.argv[1:])
