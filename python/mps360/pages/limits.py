"""What limits a plan, as a picture: each limit as a bar of how much of it the plan uses, those that have a price first, by what they are worth to the
objective. The texts keep their size on a screen of any width: lengths across are shares of the picture's width."""
from __future__ import annotations

from collections.abc import Iterator, Sequence
from dataclasses import dataclass
from decimal import Decimal, localcontext
from fractions import Fraction

from mps360.listings.read import Line, Solution
from mps360.pages.markup import Html, paragraph, tag
from mps360.pages.subject import Naming
from mps360.text import as_text, marked_decimal, plain

# bars of limits with a price, and of all, at most; letters of a name and of a unit
MOST_PRICED, MOST_BARS, MOST_LETTERS, MOST_OF_UNIT = 12, 8, 18, 10
# in pixels from the top of a limit: its height, its words, its bar with its height, and the price behind it
TALL, TEXT_AT, BAR_AT, BAR_TALL, PRICE_AT = 36, 13, 18, 10, 27
# the share of the picture's width that bars have, and how far one goes past the whole limit at most, as a share of that
BARS, FARTHEST = Fraction(16, 25), Fraction(2)
DIGITS, SHORT = 5, 8


@dataclass(frozen=True)
class Use:
    "a limit and what the plan makes of it; the price is 0 where the plan doesn't stand at it"
    name: str
    kind: str                   # at most, at least, exactly
    activity: Fraction
    limit: Fraction
    price: Fraction
    unit: str = ""

    @property
    def share(self) -> Fraction | None:
        "the activity as a share of the limit; None where that says nothing, at a limit of 0 or of the other sign"
        if not self.limit or self.activity / self.limit < 0:
            return None
        return self.activity / self.limit

    @property
    def nearness(self) -> Fraction:
        "1 at the limit, less the farther from it"
        share = self.share
        return Fraction(self.activity == self.limit) if not share else min(share, 1 / share)

    @property
    def order(self) -> tuple[bool, Fraction, Fraction, Fraction]:
        "limits with a price come first, by what they are worth to the objective, then by their prices; the others by their nearness"
        return not self.price, -abs(self.price * self.limit), -abs(self.price), -self.nearness

    @property
    def words(self) -> str:
        "how much of the limit is used, in words"
        share, unit = self.share, f" {shortened(self.unit, MOST_OF_UNIT)}" if self.unit else ""
        limit = f"{self.kind} {brief(self.limit)}{unit}"
        if share is not None:
            return f"{percent(share)} of {limit}"
        return limit if self.activity == self.limit else f"{brief(abs(self.activity - self.limit))} from {limit}"


def brief(value: Fraction) -> str:
    "a number in a few letters; what was rounded is marked"
    text = marked_decimal(value)
    if len(text) <= SHORT:
        return text
    with localcontext() as context:
        context.prec = DIGITS
        near = (Decimal(value.numerator) / value.denominator).normalize()
    text = plain(near)
    return f"{'' if Fraction(near) == value else '≈'}{text if len(text) <= SHORT else f'{near:E}'.replace('E+', 'E')}"


def shortened(text: str, most: int) -> str:
    "a text of so many letters at most"
    text = as_text(text)
    return text if len(text) <= most else text[:most - 1] + "…"


def percent(share: Fraction) -> str:
    "a share in percent, to a tenth; what was rounded is marked, and only the whole limit is 100 %"
    tenths = 1000 * share
    if tenths.denominator == 1:
        return f"{brief(tenths / 10)} %"
    if 999 <= tenths <= 1001:
        return "just under 100 %" if share < 1 else "just over 100 %"
    return f"≈{brief(Fraction(round(tenths), 10)).removeprefix('≈')} %"


def use_of(line: Line, price: str, unit: str) -> Use | None:
    "what the plan makes of a row's or a column's nearest limit; None where it has none, or breaks it"
    activity, lower, upper = Fraction(line["activity"]), line["lower"], line["upper"]
    sides = [("at least", lower), ("at most", upper)] if lower != upper else [("exactly", lower)]
    uses = [Use(line["name"], kind, activity, Fraction(limit), Fraction(line[price]), unit) for kind, limit in sides if limit is not None]
    if not uses or line["at"] in ("FR", "**"):
        return None
    standing = {"LL": "at least", "UL": "at most"}.get(line["at"])
    return next((use for use in uses if use.kind == standing), max(uses, key=lambda use: use.nearness))


def uses_of(solution: Solution, naming: Naming) -> list[Use]:
    "the rows' limits, and those limits of columns that have a price, in the order in which they are shown: a column that stays at 0 is limited by its cost"
    rows = [use_of(line, "dual", naming.unit(line["name"])) for line in solution.get("rows", [])]
    columns = [use_of(line, "reduced", naming.unit(line["name"])) for line in solution.get("columns", [])]
    held = [use for use in columns if use and use.price and use.limit]
    return sorted([use for use in rows if use] + held, key=lambda use: use.order)


def limits_picture(solution: Solution, naming: Naming, objective_unit: str) -> Iterator[Html]:
    "the picture with what it says; nothing where the plan has no limit"
    uses = uses_of(solution, naming)
    if not uses:
        return
    shown = uses[:max(MOST_BARS, min(MOST_PRICED, sum(use.price != 0 for use in uses)))]
    yield tag("h3", "What limits the plan")
    yield tag("figure", picture(shown), class_="limits")
    per, more = f" in {as_text(objective_unit)}" if objective_unit else "", len(uses) - len(shown)
    yield paragraph("Each bar is an activity as a share of its limit; the upright line is the whole limit. A limit with a price (a blue bar, black on paper) "
                    f"holds the best value back, by its price{per} for each unit. The others (grey) could all be left out, and the plan would still be the "
                    f"best.{f' {more_words(more)}' if more else ''}")


def more_words(more: int) -> str:
    "that more limits aren't shown"
    return "One more limit stands in the tables below." if more == 1 else f"{more} more limits stand in the tables below."


def picture(uses: Sequence[Use]) -> Html:
    "the bars one below the other"
    farthest = min(FARTHEST, max([Fraction(1), *(use.share for use in uses if use.share is not None)]))
    parts = [part for k, use in enumerate(uses) for part in bar_of(use, k * TALL, farthest)]
    label = "; ".join(f"{as_text(use.name)}: {use.words}{price_words(use)}" for use in uses)
    return tag("svg", *parts, width="100%", height=str(len(uses) * TALL), role="img", aria_label=f"What limits the plan. {label}")


def price_words(use: Use) -> str:
    "the price of a limit behind its other words"
    return f", price {brief(use.price)}" if use.price else ""


def across(share: Fraction) -> str:
    "a share of the width of the bars, as one of the picture's"
    return f"{float(100 * share * BARS):.2f}%"


def bar_of(use: Use, top: int, farthest: Fraction) -> Iterator[Html]:
    "the words of one limit, its bar and its price"
    name, height = as_text(use.name), {"y": str(top + BAR_AT), "height": str(BAR_TALL)}
    yield tag("text", tag("title", name), tag("tspan", shortened(name, MOST_LETTERS), class_="name"), x="0", y=str(top + TEXT_AT))
    yield tag("text", use.words, x="100%", y=str(top + TEXT_AT), text_anchor="end")
    yield tag("rect", class_="frame", x="0", width=across(Fraction(1)), **height)
    if use.share:
        yield tag("rect", class_="priced" if use.price else "bar", x="0", width=across(min(use.share, farthest) / farthest), **height)
    if use.share is not None:
        whole = across(1 / farthest)
        yield tag("line", class_="whole", x1=whole, x2=whole, y1=str(top + BAR_AT - 2), y2=str(top + BAR_AT + BAR_TALL + 2))
    if use.price:
        yield tag("text", f"price {brief(use.price)}", x="100%", y=str(top + PRICE_AT), text_anchor="end")
