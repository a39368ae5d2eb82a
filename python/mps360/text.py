"""Texts for people. Text of strangers (names and titles of their files), shown as text on a terminal: no byte of it moves the cursor or hides
a line; in the cells of a spreadsheet no formula. Decimals beside fractions, and words of sentences."""
from typing import Any, TextIO, cast
from collections.abc import Sequence
import re
import sys
from decimal import Decimal, localcontext
from fractions import Fraction

DIGITS, MOST_DIGITS = 7, 15
# digits of a whole number: more aren't shown at once, so many of them are
MOST_SHOWN, FIRST_SHOWN = 30, 12
FORMULA_SIGNS = tuple("=+-@＝＋－＠'")
# all that a terminal may obey or leave out: the control characters, and those that turn the direction of writing or have no width
UNSEEN = re.compile("[\x00-\x1f\x7f-\x9f\u200b-\u200f\u2028-\u202e\u2060-\u2069\ufeff\ud800-\udfff]")


def as_text(text: str) -> str:
    "each such character as an escape that can be seen, as \\x1b"
    def escape(found: re.Match[str]) -> str:
        code = ord(found[0])
        return f"\\x{code:02x}" if code < 256 else f"\\u{code:04x}"
    return UNSEEN.sub(escape, text)


def as_lines(text: str) -> str:
    "the same of a text of several lines, which stay lines"
    return "\n".join(as_text(line) for line in text.split("\n"))


class Shown:
    "a stream on which only line feeds are obeyed, and what it can't write is escaped"
    def __init__(self, stream: TextIO) -> None:
        self.stream = stream

    def write(self, text: str) -> None:
        "writes text whose control characters are escaped"
        seen = as_lines(text)
        encoding = getattr(self.stream, "encoding", None) or "utf-8"
        self.stream.write(seen.encode(encoding, "backslashreplace").decode(encoding))

    def __getattr__(self, name: str) -> Any:
        return getattr(self.stream, name)


def guard() -> None:
    "standard output and standard error show text alone from now on"
    sys.stdout, sys.stderr = cast(TextIO, Shown(sys.stdout)), cast(TextIO, Shown(sys.stderr))


# ---- numbers, and cells of a spreadsheet

def cut(whole: str) -> str:
    "a whole number, or where it has too many digits the first of them and how many there are"
    sign, digits = ("-", whole[1:]) if whole.startswith("-") else ("", whole)
    return whole if len(digits) <= MOST_SHOWN else f"{sign}{digits[:FIRST_SHOWN]}… ({counted(len(digits), 'digit')})"


def short_text(value: Fraction) -> str:
    "a fraction for a sentence: where it is long the first digits above and below the line, and how many there are"
    text = str(value)
    return text if len(text) <= MOST_SHOWN else "/".join(cut(part) for part in text.split("/"))


def decimal_of(number: Fraction | str) -> tuple[str, bool]:
    "the decimal number of a fraction, and whether that is its exact value; what isn't has at least 7 correct digits"
    value = Fraction(number)
    if value.denominator == 1 and abs(value) < 10 ** MOST_DIGITS:
        return str(value), True
    with localcontext() as context:
        context.prec = MOST_DIGITS
        exact = Decimal(value.numerator) / value.denominator
        if Fraction(exact) == value:
            return plain(exact), True
        context.prec = min(MOST_DIGITS, max(DIGITS, len(str(int(abs(value))))))
        return plain(Decimal(value.numerator) / value.denominator), False


def plain(value: Decimal) -> str:
    "a decimal number without needless zeros, with an exponent where it would be long"
    value = value.normalize()
    return f"{value:f}" if -6 <= value.adjusted() < MOST_DIGITS else f"{value:E}".replace("E+", "E")


def marked_decimal(number: Fraction | str) -> str:
    "the same as text: what was rounded is marked"
    text, exact = decimal_of(number)
    return text if exact else f"≈{text}"


def cell(text: str) -> str:
    """a text as a cell that no spreadsheet takes for a formula: where it begins with = + - @ (also of full width) or ', an apostrophe stands before it"""
    text = as_text(text)
    return "'" + text if text.startswith(FORMULA_SIGNS) else text


# ---- words of sentences

def counted(count: int, what: str, *verbs: str) -> str:
    "a number of things, and a verb: the first for one of them, the second for more"
    return " ".join([f"{count} {what}{'' if count == 1 else 's'}", *(verbs[:1] if count == 1 else verbs[1:])])


def some_of(names: Sequence[str]) -> str:
    "five names at most"
    return ", ".join(name[:30] for name in names[:5]) + (", .." if len(names) > 5 else "")


def lines_text(lines: Sequence[int]) -> str:
    "the numbers of five lines at most, and how many more there are"
    shown = ", ".join(str(line) for line in lines[:5])
    return ("line " if len(lines) == 1 else "lines ") + shown + (f" and {len(lines) - 5} more" if len(lines) > 5 else "")
