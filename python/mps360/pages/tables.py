"The tables of a plan and its rows, with what RANGE says beside them, and what the words for where a row or column stands mean."
from __future__ import annotations

from collections.abc import Callable, Iterator, Mapping, Sequence
from fractions import Fraction

from mps360.listings.read import Line, Ranges, Solution, each_line
from mps360.pages.limits import limits_picture
from mps360.pages.markup import Head, Html, paragraph, table, tag
from mps360.pages.shown import interval, number
from mps360.pages.subject import Naming

PLACES = {"BS": "basic", "LL": "at its lower limit", "UL": "at its upper limit", "EQ": "fixed", "FR": "free, at 0", "**": "outside its limits"}
MEANINGS = {"BS": "its activity follows from all that is held at a limit; it may stand anywhere between its own limits, and has the price 0",
            "LL": "the plan holds it at its lower limit; its price is what another unit of that limit changes",
            "UL": "the plan holds it at its upper limit; its price is what another unit of that limit changes",
            "EQ": "its two limits are equal, so it can only stand there; its price is what another unit of them changes",
            "FR": "it has no limit, isn't basic, and stands at 0", "**": "its activity breaks one of its limits: this is no plan"}
PRICES = ("A shadow price is by how much the objective rises for each unit by which the limit rises at which the row stands, and a reduced cost the "
          "same for a column's limit. ")
HOLD = "Each holds while that limit alone moves in its interval."
NO_RANGE = "How far it may move RANGE says, which this listing hasn't beside this plan (solve --ranging, or mps2job.py --ranging, asks for it)."
Near = Mapping[int, Line]
Cell = Callable[[Line], str]


def place(at: str) -> Html:
    "where a row or a column stands, in words"
    return tag("abbr", PLACES.get(at, at), title=at)


def of(key: str) -> Cell:
    "the number of a line under this key"
    return lambda line: number(line.get(key))


def between(near: Near, low: str, high: str) -> Cell:
    "the interval of RANGE between these ends, of the line that has them"
    def cell(line: Line) -> Html:
        found = near.get(line["number"], {})
        return interval(found[low], found[high]) if low in found else Html("")
    return cell


def heads_of(kind: str, naming: Naming, price: Head | None, middle: Sequence[Head], near: Near, ranging: Sequence[Head]) -> list[Head]:
    "the heads of a table: name, activity and price come first, which a narrow screen shows"
    prices = [price] if price else []
    first = [Head(kind, naming.name_cell), Head("Activity", of("activity")), *prices, Head("Stands", lambda line: place(line["at"]), "text")]
    return [*first, *middle, *(ranging if near else [])]


LIMITS = (Head("Lower limit", of("lower")), Head("Upper limit", of("upper")))


def column_heads(naming: Naming, near: Near, unit: str, has_solution: bool) -> list[Head]:
    "the heads of the columns' table"
    price = Head("Reduced cost", of("reduced"), unit=unit) if has_solution else None
    ranging = (Head("Same plan while the cost is from", between(near, "cost_low", "cost_high"), "interval"),
               Head("Reduced cost holds while the limit is from", between(near, "limit_low", "limit_high"), "interval"))
    return heads_of("Column", naming, price, [Head("Cost", of("cost"), unit=unit), *(LIMITS if has_solution else ())], near, ranging)


def row_heads(naming: Naming, near: Near, unit: str, has_solution: bool) -> list[Head]:
    "the heads of the rows' table"
    price = Head("Shadow price", of("dual"), unit=unit) if has_solution else None
    ranging = (Head("Price holds while the limit is from", between(near, "limit_low", "limit_high"), "interval"),
               Head("Same plan while each unit adds to the objective from", between(near, "factor_low", "factor_high"), "interval"))
    return heads_of("Row", naming, price, [Head("Slack", of("slack")), *LIMITS] if has_solution else [], near, ranging)


def of_ranges(ranges: Ranges) -> tuple[list[Line], list[Line]]:
    "the rows and the columns of a RANGE without a SOLUTION"
    return [*ranges.get("rows_at_limit", []), *ranges.get("rows_between", [])], [*ranges.get("columns_at_limit", []), *ranges.get("columns_between", [])]


def plan(solution: Solution | None, ranges: Ranges | None, naming: Naming, objective_unit: str) -> Iterator[Html]:
    "the plan and the rows, of a SOLUTION with the RANGE beside it, or of one of the two"
    is_best = solution is not None and solution["mark"] == "optimal"
    if solution and not is_best:
        yield paragraph(f"The activities below are where the path ended. They aren't a best plan: the problem is {solution['mark']}.")
    if solution and is_best:
        yield from limits_picture(solution, naming, objective_unit)
    ranging: Ranges = ranges or {"report": "ranges"}
    near = {line["number"]: line for _, line in each_line(ranging)}
    rows, columns = (solution.get("rows", []), solution.get("columns", [])) if solution else of_ranges(ranging)
    unit = f"{objective_unit} for each unit" if objective_unit else ""
    yield tag("h3", "The plan")
    yield table("Columns: how much of each", column_heads(naming, near, unit, solution is not None), columns, lambda line: not Fraction(line["activity"]))
    yield tag("h3", "The rows")
    yield table("Rows: what the plan uses and keeps", row_heads(naming, near, unit, solution is not None), rows,
                lambda line: "dual" in line and not Fraction(line["dual"]))
    yield states([*rows, *columns])
    if is_best:
        yield paragraph(PRICES + (HOLD if ranges else NO_RANGE))


def states(lines: Sequence[Line]) -> Html:
    "what each word of the tables means that says where a row or column stands, a line for each"
    met = {line["at"] for line in lines}
    parts = [part for at, words in PLACES.items() if at in met for part in (tag("dt", words), tag("dd", MEANINGS[at]))]
    return tag("dl", *parts, class_="states") if parts else Html("")
