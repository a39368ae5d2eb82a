"""Numbers on a page: each as a decimal and as the exact fraction, of which the reader's switch shows one; a number of many digits by its first
digits and its length, and whole where it is unfolded."""
from __future__ import annotations

from collections.abc import Sequence
from fractions import Fraction

from mps360.pages.markup import Html, content, folded, joined, tag
from mps360.text import MOST_SHOWN, cut, marked_decimal

# letters of a fraction that may stand in one line
LONG = 24


def is_long(text: str) -> bool:
    "whether a fraction's text has a number of too many digits"
    return any(len(part.lstrip("-")) > MOST_SHOWN for part in text.split("/"))


def exact(text: str) -> Html:
    "a fraction's text; one of many digits is cut, and whole where it is unfolded"
    if is_long(text):
        return folded(" / ".join(cut(part) for part in text.split("/")), tag("span", text, class_="long"), class_="digits")
    return tag("span", text, class_="long") if len(text) > LONG else content(text)


def number(text: str | None) -> Html:
    "a number of a listing, where it has one: as a decimal and as a fraction, of which the page shows one"
    if text is None or text == "-":
        return Html("")
    decimal = marked_decimal(text)
    if decimal == text:
        return content(text)
    told = "exactly " + " / ".join(cut(part) for part in text.split("/"))
    return joined([tag("span", decimal, class_="d", title=told), tag("span", exact(text), class_="e")])


def said(text: str) -> Html:
    "a number in a sentence: the decimal, and the fraction where it is another text"
    decimal = marked_decimal(text)
    return content(decimal) if decimal == text else joined([decimal, " (exactly ", exact(text), ")"])


def fraction(value: Fraction) -> Html:
    "the same as number, of a value"
    return number(str(value))


def end_of(text: str | None, sign: str) -> Html:
    "an end of an interval; None is an infinite one with this sign"
    return Html(f"{sign}∞") if text is None else number(text)


def interval(low: str | None, high: str | None) -> Html:
    "an interval with these ends; nothing where there is none"
    if "-" in (low, high):
        return Html("")
    return joined([end_of(low, "−"), " to ", end_of(high, "")])


def affine(constant: Fraction, rate: Fraction) -> Html:
    "constant + rate times theta"
    if not rate:
        return fraction(constant)
    factor = "" if abs(rate) == 1 else joined([fraction(abs(rate)), " "])
    if not constant:
        return joined(["−" if rate < 0 else "", factor, "θ"])
    return joined([fraction(constant), " − " if rate < 0 else " + ", factor, "θ"])


def term(factor: Fraction, name: str, is_first: bool, with_one: bool) -> Html:
    "a term of a sum of names, with the sign before it; with_one says whether a factor of 1 is shown"
    is_one = abs(factor) == 1 and not with_one
    if is_first and not is_one:
        return joined([fraction(factor), " ", name])
    sign = ("−" if factor < 0 else "") if is_first else " − " if factor < 0 else " + "
    return joined([sign, name] if is_one else [sign, fraction(abs(factor)), " ", name])


def combined(terms: Sequence[tuple[str, Fraction]], most: int, with_one: bool = False) -> Html:
    "a sum of names, each with its factor: so many at once, all where they are unfolded"
    parts = [term(factor, name, not k, with_one) for k, (name, factor) in enumerate(terms)]
    if len(parts) <= most:
        return joined(parts) or Html("0")
    return folded(joined([*parts[:most], f" … ({len(parts)} terms)"]), joined(parts), class_="digits")
