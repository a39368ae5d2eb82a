"""Plots of a parametric run for a page: the objective, and the activities and prices that move, over theta, as SVG."""
from __future__ import annotations

import html
import math
from collections.abc import Callable, Iterable, Iterator, Sequence
from fractions import Fraction
from typing import NamedTuple

from mps360.listings.read import Interval
from mps360.pages.parametric import value_at
from mps360.text import as_text, marked_decimal

MOST_FIGURES = 24
LEFT, RIGHT, TOP, BOTTOM = 66, 14, 22, 42
# the width that the label of a bend needs, and those of a tick of theta; the size of a large plot and of a small one
LABEL_ROOM, TICK_ROOM = 52, 70
LARGE, SMALL = (420, 270), (340, 220)
Figure = tuple[str, str]        # a name and its SVG


class Piece(NamedTuple):
    "a straight piece of a chain: from a value at one theta to a value at another"
    theta: Fraction
    value: Fraction
    last_theta: Fraction
    last_value: Fraction


def objective_of(part: Interval) -> tuple[Fraction, Fraction]:
    "the best value in an interval, as a constant and a rate with theta"
    constant, there = (value_at(part["lines"], Fraction(theta)) for theta in (0, 1))
    return constant, there - constant


def segments(intervals: Iterable[Interval], formula: Callable[[Interval], tuple[Fraction, Fraction]]) -> list[Piece]:
    "the straight pieces of what has this formula in each interval"
    pieces = []
    for part in intervals:
        constant, rate = formula(part)
        first, last = Fraction(part["from"]), Fraction(part["to"])
        pieces.append(Piece(first, constant + rate * first, last, constant + rate * last))
    return pieces


def moves(pieces: Iterable[Piece]) -> bool:
    "whether a chain has more than one value"
    return len({value for piece in pieces for value in (piece.value, piece.last_value)}) > 1


def nice_ticks(low: Fraction, high: Fraction, wanted: int) -> list[Fraction]:
    "round values from low to high, about as many as wanted"
    rough = (high - low) / wanted
    power = Fraction(10) ** math.floor(math.log10(rough))
    step = next((factor * power for factor in (1, 2, 5) if factor * power >= rough), 10 * power)
    return [k * step for k in range(math.ceil(low / step), math.floor(high / step) + 1)]


def span(values: Sequence[Fraction], with_zero: bool) -> tuple[Fraction, Fraction]:
    "the range of an axis that shows these values"
    low, high = min(values), max(values)
    if with_zero:
        low, high = min(low, Fraction(0)), max(high, Fraction(0))
    if low == high:
        room = max(Fraction(1), abs(low) / 10)
        return low - room, high + room
    return low, high


class Plot:
    "a plot of pieces over theta; what is the name of its values, size its width and height"

    def __init__(self, pieces: Sequence[Piece], what: str, size: tuple[int, int], with_zero: bool) -> None:
        self.pieces, self.what = pieces, what
        self.wide, self.tall = size
        self.first, self.last = span([theta for piece in pieces for theta in (piece.theta, piece.last_theta)], False)
        self.low, self.high = span([value for piece in pieces for value in (piece.value, piece.last_value)], with_zero)

    def x(self, theta: Fraction) -> float:
        "where a theta stands, from the left"
        return LEFT + float((theta - self.first) / (self.last - self.first)) * (self.wide - LEFT - RIGHT)

    def y(self, value: Fraction) -> float:
        "where a value stands, from the top"
        return self.tall - BOTTOM - float((value - self.low) / (self.high - self.low)) * (self.tall - TOP - BOTTOM)

    def text(self, x: float, y: float, words: str, anchor: str = "middle", turned: bool = False) -> str:
        "a text with its middle, or another point, there"
        turn = f' transform="rotate(-90 {x:.1f} {y:.1f})"' if turned else ""
        return f'<text x="{x:.1f}" y="{y:.1f}" text-anchor="{anchor}"{turn}>{html.escape(as_text(words))}</text>'

    def line(self, kind: str, start: tuple[float, float], end: tuple[float, float], title: str = "") -> str:
        "a straight line, with a title where one is given"
        told = f"<title>{html.escape(title)}</title>" if title else ""
        return f'<path class="{kind}" d="M{start[0]:.1f} {start[1]:.1f}L{end[0]:.1f} {end[1]:.1f}">{told}</path>'

    def axes(self) -> Iterator[str]:
        "both axes with their ticks and names, and the line of 0"
        floor, left, right = self.tall - BOTTOM, LEFT, self.wide - RIGHT
        for value in nice_ticks(self.low, self.high, 4):
            yield self.line("grid", (left, self.y(value)), (right, self.y(value)))
            yield self.text(left - 6, self.y(value) + 4, marked_decimal(value), "end")
        for theta in nice_ticks(self.first, self.last, (right - left) // TICK_ROOM):
            yield self.line("axis", (self.x(theta), floor), (self.x(theta), floor + 5))
            yield self.text(self.x(theta), floor + 17, marked_decimal(theta))
        yield f'<path class="axis" d="M{left} {TOP}V{floor}H{right}"/>'
        if self.low <= 0 <= self.high:
            yield self.line("zeroline", (left, self.y(Fraction(0))), (right, self.y(Fraction(0))), "0")
        yield self.text((left + right) / 2, self.tall - 6, "theta")
        yield self.text(12, (TOP + floor) / 2, self.what, turned=True)

    def bends(self) -> Iterator[str]:
        "the ends of the intervals between the first and the last, each named where there is room"
        shown = -math.inf
        for theta in sorted({piece.last_theta for piece in self.pieces[:-1]}):
            at = self.x(theta)
            yield self.line("bend", (at, TOP), (at, self.tall - BOTTOM), f"theta = {theta}")
            if at - shown >= LABEL_ROOM:
                shown = at
                yield self.text(at, TOP - 7, marked_decimal(theta))

    def curve(self) -> Iterator[str]:
        "the chain, with a dot at each end of a piece"
        before: Fraction | None = None
        for piece in self.pieces:
            start, end = (self.x(piece.theta), self.y(piece.value)), (self.x(piece.last_theta), self.y(piece.last_value))
            if before is not None and before != piece.value:
                yield self.line("jump", (start[0], self.y(before)), start)
            yield self.line("curve", start, end)
            for theta, value in dict.fromkeys((piece[:2], piece[2:])):
                yield f'<circle class="dot" cx="{self.x(theta):.1f}" cy="{self.y(value):.1f}" r="3"><title>{theta}: {value}</title></circle>'
            before = piece.last_value

    def svg(self, label: str) -> str:
        "the whole plot"
        parts = "".join([*self.axes(), *self.bends(), *self.curve()])
        return (f'<svg xmlns="http://www.w3.org/2000/svg" viewBox="0 0 {self.wide} {self.tall}" width="{self.wide}" height="{self.tall}" role="img" '
                f'aria-label="{html.escape(as_text(label), quote=True)}">{parts}</svg>')


def drawn(pieces: Sequence[Piece], name: str, what: str, size: tuple[int, int], with_zero: bool) -> Figure:
    "a figure with its name"
    return name, Plot(pieces, what, size, with_zero).svg(f"{name} over theta")


def line_formula(k: int, constant: str, rate: str) -> Callable[[Interval], tuple[Fraction, Fraction]]:
    "of an interval, the constant and the rate of its kth line"
    return lambda part: (Fraction(part["lines"][k][constant]), Fraction(part["lines"][k][rate]))


def figures(intervals: Sequence[Interval], objective: str) -> tuple[list[tuple[str, list[Figure]]], int]:
    "groups of figures, each with its title, and how many that move weren't drawn"
    first = intervals[0]["lines"]
    groups = [("The best value over theta", [drawn(segments(intervals, objective_of), f"Best value of {objective}", "best value", LARGE, False)])]
    left_out = 0
    for title, what, constant, rate in (("Activities that move", "activity", "value", "value_rate"),
                                        ("Prices that move", "price", "price", "price_rate")):
        chains = [(line["name"], segments(intervals, line_formula(k, constant, rate))) for k, line in enumerate(first)]
        found = [(name, pieces) for name, pieces in chains if moves(pieces)]
        groups.append((title, [drawn(pieces, name, what, SMALL, True) for name, pieces in found[:MOST_FIGURES]]))
        left_out += max(0, len(found) - MOST_FIGURES)
    return [group for group in groups if group[1]], left_out
