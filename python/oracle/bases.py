"""DUAL, PUNCH and INSERT for oracle/listing.py, worked out apart from the program in exact fractions.

A table (tableau.Table) has the present basis; variables are numbered from 0, rows before columns."""
from __future__ import annotations

from collections.abc import Callable, Iterator
from fractions import Fraction

from oracle.decks import GAPS, SECTIONS, DeckFault
from oracle.tableau import End, LinearProgram, Table

CODES = {"XU": "UL", "XL": "LL", "UL": "UL", "LL": "LL"}


class Singular(Exception):
    "columns of which one is a sum of others, with the vector that says so"
    def __init__(self, vector: list[Fraction]) -> None:
        super().__init__(vector)
        self.vector = vector


# ---- the dual simplex method

def wrong_price(table: Table) -> int | None:
    "the least-numbered nonbasic whose price has a sign that an optimal basis hasn't, None where there is none"
    lp, prices = table.lp, table.prices()
    for k in range(table.size):
        gain = lp.better() * prices[k]
        is_fixed = lp.lower[k] is not None and lp.lower[k] == lp.upper[k]
        if k not in table.rate and not is_fixed and (gain > 0 and table.at[k] in ("LL", "FR") or gain < 0 and table.at[k] in ("UL", "FR")):
            return k
    return None


def dual_path(table: Table, most: Fraction | None) -> tuple[End, int]:
    "the end of the path, and the number of steps: the least-numbered basic outside leaves, the least ratio of price and rate enters"
    wrong, steps = wrong_price(table), 0
    if wrong is not None:
        return ("WRONG", wrong), steps
    crossed = table.lp.crossed()
    if crossed is not None:
        return ("CROSSED", crossed), steps
    while True:
        value, prices = table.value(), table.prices()
        p = table.first_outside(value)
        if p is None:
            return ("OPTIMAL", value), steps
        line, below = table.rate[p], table.is_outside(p, value) == "below"
        ratios = [(abs(prices[k] / line[k]), k) for k in range(table.size) if line[k] and table.may_move(k, (line[k] > 0) == below)]
        if not ratios:
            return ("RAY", table.ray(p, below)), steps
        if steps == most:
            return ("LIMIT", most), steps
        table.exchange(p, min(ratios)[1], "LL" if below else "UL")
        steps += 1


# ---- basis decks

def parts(table: Table) -> tuple[list[int], list[int]]:
    "the basic columns and the nonbasic rows"
    lp = table.lp
    return [k for k in range(lp.m, table.size) if k in table.rate], [k for k in range(lp.m) if k not in table.rate]


def deck(name: str, table: Table, opening: list[str]) -> Iterator[str]:
    "the cards that PUNCH punches; opening says where each variable stands after SETUP"
    names, (columns, rows) = table.lp.names, parts(table)
    yield f"NAME          {name}".rstrip()
    for column, row in zip(columns, rows):
        yield f" {'XU' if table.at[row] == 'UL' else 'XL'} {names[column]:<10}{names[row]}"
    for k in range(table.lp.m, table.size):
        if table.at[k] == "UL" and opening[k] != "UL":
            yield f" UL {names[k]}"
    yield "ENDATA"


def stands_for(cards: list[str], lp: LinearProgram, opening: list[str], is_skipped: Callable[[str], bool], fields: Callable[[str], list[str]]) -> list[str]:
    "where each variable stands by the cards of a basis deck, by its number; what no card names stands as after SETUP"
    column_of = {name: lp.m + k for k, name in enumerate(lp.names[lp.m:])}
    row_of = {name: k for k, name in enumerate(lp.names[:lp.m])}
    at, named, is_begun = list(opening), set[int](), False
    for place, card in enumerate(cards):
        if is_skipped(card):
            continue
        word = card.split(" ")[0]
        if not is_begun:
            if word != "NAME":
                raise DeckFault(1, place)
            is_begun = True
        elif word:
            if word != "ENDATA":
                raise DeckFault(1 if word in SECTIONS else 2, place)
            return at
        else:
            if any(card[column - 1:column].strip() for column in GAPS):
                raise DeckFault(20, place)
            code, column, row, *others = fields(card)
            code, is_exchange = code.strip(), code.strip() in ("XU", "XL")
            if code not in CODES:
                raise DeckFault(30, place)
            if column not in column_of:
                raise DeckFault(11, place)
            if is_exchange and row not in row_of:
                raise DeckFault(6, place)
            moved = [column_of[column]] + ([row_of[row]] if is_exchange else [])
            if named & set(moved):
                raise DeckFault(31, place)
            if (lp.upper if CODES[code] == "UL" else lp.lower)[moved[-1]] is None:
                raise DeckFault(32, place)
            if any(text.strip() for text in (others if is_exchange else [row, *others])):
                raise DeckFault(20, place)
            named |= set(moved)
            at[moved[0]] = "BS"
            at[moved[-1]] = CODES[code]
    raise DeckFault(13, len(cards) - 1)


def dependency(lp: LinearProgram, columns: list[int], rows: list[int]) -> list[Fraction] | None:
    "the first of these columns that those before it make up in these rows: the vector that is 1 there; None where there is none"
    reduced: list[tuple[int, dict[int, Fraction], dict[int, Fraction]]] = []
    for column in columns:
        entries = {i: lp.columns[column - lp.m].get(i, Fraction(0)) for i in rows}
        made = {column: Fraction(1)}
        for row, other, others in reduced:
            factor = entries[row] / other[row]
            entries = {i: entries[i] - factor * other[i] for i in rows}
            made = {k: made.get(k, Fraction(0)) - factor * others.get(k, Fraction(0)) for k in made | others}
        first = next((i for i in rows if entries[i]), None)
        if first is None:
            vector = [Fraction(0)] * lp.m + [made.get(k, Fraction(0)) for k in range(lp.m, lp.m + lp.n)]
            for i in range(lp.m):
                vector[i] = sum((entries.get(i, 0) * vector[lp.m + j] for j, entries in enumerate(lp.columns)), Fraction(0))
            return vector
        reduced.append((first, entries, made))
    return None


def take(table: Table, at: list[str]) -> None:
    "brings a table at the opening basis to the basis in which each variable stands so"
    lp = table.lp
    columns, rows = [k for k in range(lp.m, table.size) if at[k] == "BS"], [k for k in range(lp.m) if at[k] != "BS"]
    vector = dependency(lp, columns, rows)
    if vector is not None:
        raise Singular(vector)
    for column in columns:
        row = next(k for k in rows if k in table.rate and table.rate[k][column])
        table.exchange(row, column, at[row])
    table.at = list(at)
