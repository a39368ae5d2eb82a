"""Reads listings: each report as a dictionary of the fields that docs/listing.schema.json describes, one type for each kind of report.

    listing = parse(TEXT)          {"reports": [..], "end": ..}, or NoListing with the line

Numbers stay text, as "-3/4"; NONE, which is "no limit" or "no end", becomes None. A line of a table has the variable's number (counted from 1,
rows before columns), its name and the values under the heads of the table."""
import json
import re
from collections.abc import Iterator, Mapping
from fractions import Fraction
from typing import TYPE_CHECKING, Any, Literal, NoReturn, TypedDict, Union

from mps360.errors import Error
from mps360.numbers import MOST_DIGITS

if TYPE_CHECKING:
    from mps360.listings.restore import Table

# a line of a table, by the names of its columns: number is an int, all else text, None where the listing has NONE
Line = dict[str, Any]
Names = tuple[dict[str, Any], Fraction | None, Fraction | None]

NO_NAMES: Names = ({}, None, None)
ROW = ("at", "activity", "slack", "lower", "upper", "dual")
COLUMN = ("at", "activity", "cost", "lower", "upper", "reduced")
RANGES = (("rows_at_limit", "SECTION 1 - ROWS AT LIMIT LEVEL", ("at", "activity", "limit_low", "limit_high")),
          ("columns_at_limit", "SECTION 2 - COLUMNS AT LIMIT LEVEL",
           ("at", "activity", "limit_low", "limit_high", "cost", "cost_low", "cost_high")),
          ("rows_between", "SECTION 3 - ROWS AT INTERMEDIATE LEVEL", ("at", "activity", "factor_low", "factor_high")),
          ("columns_between", "SECTION 4 - COLUMNS AT INTERMEDIATE LEVEL", ("at", "activity", "cost", "cost_low", "cost_high")))
SOLUTION = (("rows", "SECTION 1 - ROWS", "NUMBER ROW AT ACTIVITY SLACK LOWER UPPER DUAL", ROW),
            ("columns", "SECTION 2 - COLUMNS", "NUMBER COLUMN AT ACTIVITY COST LOWER UPPER REDUCED", COLUMN))
PART = ("at", "value", "value_rate", "price", "price_rate")
PLACES = ("BS", "LL", "UL", "FR", "EQ", "**")
NUMBER = rf"-?\d{{1,{MOST_DIGITS}}}(?:/[1-9]\d{{0,{MOST_DIGITS - 1}}})?"
MAY_BE_NONE = ("lower", "upper", "limit_low", "limit_high", "cost_low", "cost_high", "factor_low", "factor_high")
COUNTS = re.compile(r"(CONVERT|REVISE ) (.{8}) ROWS (\d{1,20}) COLUMNS (\d{1,20}) ENTRIES (\d{1,20})$")
PUNCHED = re.compile(r"(BCDOUT|PUNCH )  (.{8}) CARDS (\d{1,20})$")
INSERTED = re.compile(r"INSERT  (.{8}) BASIC (\d{1,20})$")
SETUP = re.compile(r"SETUP   (.{8}) (MIN|MAX)$")
VERDICT = re.compile(
    rf"(PRIMAL|DUAL|PARAOBJ|PARARHS) (OPTIMAL|INFEASIBLE|UNBOUNDED) STEPS (\d{{1,20}}) (?:OBJECTIVE ({NUMBER})|CROSSED (\d{{1,20}})|RAY) (CHECKED|UNCHECKED .*)$")
PARAMETRIC = re.compile(rf"(PARAOBJ|PARARHS) FROM ({NUMBER}) CHANGE (.*)$")
INTERVAL = re.compile(rf"INTERVAL (\d{{1,20}}) FROM ({NUMBER}) TO ({NUMBER})$")
SWEPT = re.compile(rf"(?:PARAOBJ|PARARHS) (ENDS AT|UNBOUNDED PAST|INFEASIBLE PAST) ({NUMBER})$")
TABLE_LINE = re.compile(r"( *\d{1,9}) (.{8}) (.+)$")


class Title(TypedDict):
    "TITLE: its text"
    report: Literal["title"]
    text: str


class Filed(TypedDict):
    "CONVERT or REVISE: the problem that is on file now, and its counts"
    report: Literal["convert", "revise"]
    name: str
    rows: int
    columns: int
    entries: int


class Punched(TypedDict):
    "BCDOUT or PUNCH: a deck of so many cards went out"
    report: Literal["bcdout", "punch"]
    name: str
    cards: int


class Inserted(TypedDict):
    "INSERT: a basis with so many basic columns was taken"
    report: Literal["insert"]
    name: str
    basic: int


class Setup(TypedDict):
    "SETUP: the problem that is selected, and its sense, MIN or MAX"
    report: Literal["setup"]
    name: str
    sense: str


class _Verdict(TypedDict):
    report: Literal["verdict"]
    by: str
    verdict: str
    steps: int
    checked: bool


class Verdict(_Verdict, total=False):
    "a verdict of PRIMAL, DUAL, or of a parametric run at its beginning; crossed is the number of the variable whose limits cross"
    objective: str
    objective_constant: str
    objective_with_constant: str
    crossed: int
    ray: list[Line]
    direction: list[Line]


class _Solution(TypedDict):
    report: Literal["solution"]
    mark: str


class Solution(_Solution, total=False):
    "SOLUTION; a section is missing where the listing was cut off before it"
    rows: list[Line]
    columns: list[Line]


class _Ranges(TypedDict):
    report: Literal["ranges"]


class Ranges(_Ranges, total=False):
    "RANGE; a section is missing where the listing was cut off before it"
    rows_at_limit: list[Line]
    columns_at_limit: list[Line]
    rows_between: list[Line]
    columns_between: list[Line]


# (from is a word of Python, so this one is made by a call)
Interval = TypedDict("Interval", {"from": str, "to": str, "lines": list[Line]})
_Parametric = TypedDict("_Parametric", {"report": Literal["parametric"], "by": str, "from": str, "change": str, "intervals": list[Interval]})


class Parametric(_Parametric, total=False):
    "a run of PARAOBJ or PARARHS; end is ends, infeasible or unbounded, at a parameter, and is missing where the listing was cut off"
    end: str
    at: str
    ray: list[Line]
    direction: list[Line]


class _End(TypedDict):
    status: int
    text: str


class End(_End, total=False):
    "the END line, or the STOP line with what follows it"
    dependency: list[Line]
    variable: int


Report = Union[Title, Filed, Punched, Inserted, Setup, Verdict, Solution, Ranges, Parametric]


class Listing(TypedDict):
    "a listing: its reports in their order, and its end, None where it was cut off"
    reports: list[Report]
    end: End | None


class NoListing(Error):
    "the text isn't a listing; the message names the line"


class NoNames(Exception):
    "a table of names that isn't one"


def is_value(key: str, text: str, keys: tuple[str, ...]) -> bool:
    "whether this text may stand in this column of a table line"
    if key == "at":
        return text in PLACES
    if text == "-":
        return key in ("limit_low", "limit_high") and "cost" in keys
    return text == "NONE" and key in MAY_BE_NONE or re.fullmatch(NUMBER, text) is not None


def table_line(line: str, keys: tuple[str, ...]) -> Line:
    "a line of a table whose columns have these names"
    found = TABLE_LINE.match(line)
    values = found[3].split(" ") if found else []
    if not found or len(values) != len(keys) or not all(is_value(key, value, keys) for key, value in zip(keys, values)):
        raise NoListing(f"not a table line: {line[:60]}")
    return {"number": int(found[1]), "name": found[2].rstrip(), **{key: None if value == "NONE" else value for key, value in zip(keys, values)}}


class Parser:
    "goes down the lines of a listing; begins has the line, counted from 1, where each report begins"
    def __init__(self, text: str) -> None:
        self.lines = text.split("\n")
        self.at = 0
        self.begins: list[int] = []
        if self.lines and self.lines[-1] == "":
            self.lines.pop()

    def refuse(self, cause: str) -> NoReturn:
        "NoListing of the present line"
        raise NoListing(f"line {self.at + 1}: {cause}")

    def table(self, keys: tuple[str, ...]) -> list[Line]:
        "the lines of the table that begins here"
        taken = []
        while self.at < len(self.lines) and re.match(r" *\d+ ", self.lines[self.at]):
            taken.append(table_line(self.lines[self.at], keys))
            self.at += 1
        return taken

    def parse(self) -> Listing:
        "the whole"
        listing: Listing = {"reports": [], "end": None}
        while self.at < len(self.lines):
            line = self.lines[self.at]
            self.at += 1
            begins = self.at
            report = self.one_line(line) or self.with_tables(line)
            if report:
                self.begins.append(begins)
                listing["reports"].append(report)
            elif re.match(r"END [012]$", line):
                listing["end"] = {"status": int(line[4:]), "text": line}
            elif re.match(r"STOP \d{1,3} ", line):
                listing["end"] = self.stop(line)
            else:
                raise NoListing(f"line {self.at}: {line[:60]}")
        return listing

    def one_line(self, line: str) -> Report | None:
        "a report of one line; None where it is none"
        if line.startswith("TITLE "):
            return {"report": "title", "text": line[6:]}
        if found := COUNTS.match(line):
            return {"report": "convert" if found[1] == "CONVERT" else "revise", "name": found[2].rstrip(), "rows": int(found[3]),
                    "columns": int(found[4]), "entries": int(found[5])}
        if found := PUNCHED.match(line):
            return {"report": "bcdout" if found[1] == "BCDOUT" else "punch", "name": found[2].rstrip(), "cards": int(found[3])}
        if found := INSERTED.match(line):
            return {"report": "insert", "name": found[1].rstrip(), "basic": int(found[2])}
        if found := SETUP.match(line):
            return {"report": "setup", "name": found[1].rstrip(), "sense": found[2]}
        return None

    def with_tables(self, line: str) -> Report | None:
        "a report with tables; None where it is none"
        if found := PARAMETRIC.match(line):
            return self.parametric(found)
        if found := VERDICT.match(line):
            return self.verdict(found)
        if line.startswith("SOLUTION "):
            return self.solution(line[9:].lower())
        return self.ranges() if line == "RANGE" else None

    def verdict(self, found: re.Match[str]) -> Verdict:
        "a verdict with its ray, its direction or its objective"
        report: Verdict = {"report": "verdict", "by": found[1].lower(), "verdict": found[2].lower(), "steps": int(found[3]), "checked": found[6] == "CHECKED"}
        if found[4]:
            report["objective"] = found[4]
        if found[5]:
            report["crossed"] = int(found[5])
        elif found[2] == "INFEASIBLE":
            report["ray"] = self.table(("multiplier",))
        elif found[2] == "UNBOUNDED":
            report["direction"] = self.table(("activity", "direction"))
        return report

    def solution(self, mark: str) -> Solution:
        "the two tables of SOLUTION, as far as they go"
        report: Solution = {"report": "solution", "mark": mark}
        for key, title, head, keys in SOLUTION:
            begun = self.lines[self.at:self.at + 2]
            if begun != [title, head]:
                if begun == [title, head][:len(self.lines) - self.at]:
                    self.at = len(self.lines)
                    break
                self.refuse(f"no {title}")
            self.at += 2
            lines = self.table(keys)
            if key == "rows":
                report["rows"] = lines
            else:
                report["columns"] = lines
        return report

    def ranges(self) -> Ranges:
        "the four tables of RANGE, as far as they go"
        sections: dict[str, Any] = {"report": "ranges"}
        for key, title, keys in RANGES:
            if self.at >= len(self.lines):
                break
            if self.lines[self.at] != title:
                self.refuse(f"no {title}")
            self.at += 1
            sections[key] = self.table(keys)
        return sections  # type: ignore[return-value]  # (its keys are those of RANGES)

    def parametric(self, found: re.Match[str]) -> Parametric:
        "a parametric run: its intervals, and how it ends"
        report: Parametric = {"report": "parametric", "by": found[1].lower(), "from": found[2], "change": found[3], "intervals": []}
        while self.at < len(self.lines) and (interval := INTERVAL.match(self.lines[self.at])):
            self.at += 1
            report["intervals"].append({"from": interval[2], "to": interval[3], "lines": self.table(PART)})
        if self.at < len(self.lines):
            end = SWEPT.match(self.lines[self.at])
            if not end or not report["intervals"]:
                self.refuse("no end of a parametric run")
            self.at += 1
            report["end"], report["at"] = end[1].split()[0].lower(), end[2]
            if end[1] == "UNBOUNDED PAST":
                report["direction"] = self.table(("activity", "direction"))
            elif end[1] == "INFEASIBLE PAST":
                report["ray"] = self.table(("multiplier",))
        return report

    def stop(self, line: str) -> End:
        "a STOP line, behind which no report comes"
        end: End = {"status": int(line.split(" ")[1]), "text": "\n".join(self.lines[self.at - 1:])}
        if re.match(r"STOP 10 VERB FAULT 15 CARD \d+$", line):
            end["dependency"] = self.table(("value",))
        elif found := re.match(r"STOP 10 VERB FAULT 16 CARD \d+ VARIABLE (\d{1,20})$", line):
            end["variable"] = int(found[1])
        self.at = len(self.lines)
        return end


def parse(text: str) -> Listing:
    "the reports of a listing and its end; NoListing where the text is none"
    return Parser(text).parse()


def each_line(report: Mapping[str, Any]) -> Iterator[tuple[str, Line]]:
    "the lines of a report's tables, each with the key of its table"
    for key in ("rows", "columns", "ray", "direction", "dependency", *(section[0] for section in RANGES)):
        if isinstance(report.get(key), list):
            for line in report[key]:
                yield key, line
    for interval in report.get("intervals", []):
        for line in interval["lines"]:
            yield "intervals", line


# ---- the file's names

def read_names(path: str) -> Names:
    "the table of names, the value of its constant and the number in RHS that says it, None where there is none"
    with open(path, encoding="utf-8") as source:
        return names_of(json.load(source))


def names_of(names: Any) -> Names:
    "the same of a table of names that was read or made"
    tables = [names.get(key, {}) for key in ("problem", "rows", "columns", "sets")] if isinstance(names, dict) else [None]
    if not all(isinstance(table, dict) and all(isinstance(name, str) for name in table.values()) for table in tables):
        raise NoNames("it isn't a table of names that mps2job.py wrote")
    constant = names.get("constant") or {}
    if names.get("constants") and "constant" not in names:
        raise NoNames("an older mps2job.py wrote it; make it anew")
    long_table(names)
    try:
        value, rhs = (None if constant.get(key) is None else Fraction(constant[key]) for key in ("value", "rhs"))
    except (AttributeError, TypeError, ValueError, ZeroDivisionError):
        raise NoNames("its constant isn't a number") from None
    return names, value, rhs


def long_table(names: dict[str, Any]) -> "Table | None":
    "what was added to the job for long numbers, by a table of names; None where nothing was"
    if "long" not in names:
        return None
    from mps360.listings import restore
    try:
        return restore.Table(names["long"])
    except restore.BadTable as cause:
        raise NoNames(str(cause)) from None


def objective_line(reports: list[Report], place: int, name: str | None) -> Line | None:
    "the line of the objective in the SOLUTION that shows the verdict at this place, or None"
    for report in reports[place + 1:]:
        if report["report"] in ("setup", "verdict", "parametric"):
            return None
        if report["report"] == "solution":
            return next((line for line in report.get("rows", []) if line["name"] == name), None)
    return None


def add_constant(reports: list[Report], names: dict[str, Any], constant: Fraction, rhs: Fraction | None) -> bool:
    "adds the constant to each verdict's objective; whether it belongs to all: it doesn't where SOLUTION has another objective or right-hand side"
    belongs = True
    for place, report in enumerate(reports):
        if report["report"] != "verdict" or "objective" not in report:
            continue
        objective, line = Fraction(report["objective"]), objective_line(reports, place, names.get("objective"))
        if line and (Fraction(line["activity"]) != objective or rhs is not None and Fraction(line["slack"]) != rhs - objective):
            belongs = False
        else:
            report["objective_constant"], report["objective_with_constant"] = str(constant), str(objective + constant)
    return belongs


def name_back(listing: Listing, names: Names) -> bool:
    """puts in the names of the file, and the constant of its objective beside each verdict's; what was added to the job for long numbers is left out.
    False where the constant belongs to another objective or right-hand side than a SOLUTION shows, and isn't added there"""
    table, constant, rhs = names
    reports: list[Any] = list(listing["reports"])
    long = long_table(table)
    if long:
        from mps360.listings.restore import recount, restore
        restore(reports, long)
    belongs = constant is None or add_constant(listing["reports"], table, constant, rhs)
    rows: int | None = None
    places: list[dict[str, Any]] = [*listing["reports"], *([listing["end"]] if listing["end"] else [])]  # type: ignore[list-item]
    for place in places:
        if "name" in place:
            place["name"] = table.get("problem", {}).get(place["name"], place["name"])
        if place.get("report") in ("convert", "revise"):
            rows = place["rows"]
        for _, line in each_line(place):
            kind = table.get("rows" if rows is None or line["number"] <= rows else "columns", {})
            line["name"] = kind.get(line["name"], line["name"])
        if "change" in place:
            kind = table.get("rows" if place["by"] == "paraobj" else "sets", {})
            place["change"] = kind.get(place["change"], place["change"])
    if long:
        recount(reports, long)
    return belongs
