"""Leaves out of the reports of a listing what long_numbers has added to its job, and puts back what that has moved, so that they speak of the
file's rows and columns alone.

    table = Table(ENTRY)           of the entry "long" of a table of names, which long_numbers.Split.table has made; BadTable where it isn't one
    restore(reports, table)        changes the reports (of listings.read.parse, in the names of the job) in place
    recount(reports, table)        gives CONVERT the counts of the file

The entry is JSON: "rows" and "columns" are the added names; "places" has for each row or column of the file that was changed its number in the
listing, its limits, what its activity lacks in the job (its shift) and, of a row, its right-hand side; "moved" has for each added row that is a limit of
such a row or column which one it is, at which end, and what its activity lacks; "counts" are those of the file. All other numbers are texts of exact
fractions."""
from __future__ import annotations

from fractions import Fraction
from typing import Any

Line = dict[str, Any]
Report = dict[str, Any]
Limits = tuple[Fraction | None, Fraction | None]
AT_END = {"lower": "LL", "upper": "UL", "both": "EQ"}
NONBASIC = ("LL", "UL", "EQ", "**")
LIMITS, SECTIONS = ("limit_low", "limit_high"), ("rows", "columns")
RANGES = ("rows_at_limit", "columns_at_limit", "rows_between", "columns_between")
COSTS = ("cost", "cost_low", "cost_high")


class BadTable(Exception):
    "the entry isn't one that long_numbers has made"


# ---- the table

def limit_of(said: str | None) -> Fraction | None:
    return None if said is None else Fraction(said)


class Place:
    "a row or a column of the file that was changed"

    def __init__(self, said: dict[str, Any]) -> None:
        self.of, self.name, self.number = str(said["of"]), str(said["name"]), int(said["number"])
        self.limits: Limits = limit_of(said["lower"]), limit_of(said["upper"])
        self.shift = Fraction(said["shift"])
        self.rhs = Fraction(said.get("rhs", "0"))

    @property
    def is_crossed(self) -> bool:
        lower, upper = self.limits
        return lower is not None and upper is not None and lower > upper

    def code(self, value: Fraction) -> str:
        "where a value stands among the limits"
        ends = [end for end, limit in zip(("lower", "upper"), self.limits) if limit == value]
        return "EQ" if len(ends) == 2 else AT_END[ends[0]] if ends else "FR" if self.limits == (None, None) else "BS"


class Moved:
    "a limit that is an added row"

    def __init__(self, said: dict[str, Any], places: dict[tuple[str, str], Place]) -> None:
        self.place, self.end, self.shift = places[str(said["of"]), str(said["name"])], str(said["end"]), Fraction(said["shift"])
        if self.end not in AT_END:
            raise ValueError(self.end)


class Table:
    "the table, taken apart"

    def __init__(self, said: Any) -> None:
        try:
            # (no row and no column of the job has one of these names else)
            self.added = frozenset(str(name) for key in SECTIONS for name in said[key])
            places = [Place(place) for place in said["places"]]
            self.places = {(place.of, place.name): place for place in places}
            self.moved = {str(row): Moved(moved, self.places) for row, moved in said["moved"].items()}
            counts = {key: int(said["counts"][key]) for key in ("rows", "columns", "entries")}
        except (TypeError, KeyError, ValueError, AttributeError, ZeroDivisionError):
            raise BadTable("its entry for long numbers isn't one that mps2job.py wrote") from None
        self.counts = counts
        self.by_number = {place.number: place for place in places}

    def limits(self, number: int) -> Limits | None:
        "the file's limits of a row or column that was changed, by its number in the listing"
        place = self.by_number.get(number)
        return None if place is None else place.limits


# ---- the reports

def restore(reports: list[Report], table: Table) -> None:
    "puts the reports into the file's rows and columns, in place"
    for report in reports:
        kind = report["report"]
        if kind == "solution":
            restore_solution(report, table)
        elif kind == "ranges":
            restore_ranges(report, table)
        elif "ray" in report:
            restore_ray(report, table)
        elif "direction" in report:
            report["direction"] = [shifted(line, table) for line in left(report["direction"], table)]


def recount(reports: list[Report], table: Table) -> None:
    "CONVERT counts the rows, columns and entries of the file; the numbers of rows and columns stay those of the listing"
    for report in reports:
        if report["report"] == "convert":
            report.update(table.counts)


def raised(number: str | None, shift: Fraction) -> str | None:
    "a number of a line and a shift; a line may have none (None), or one that isn't asked for (-)"
    return number if number is None or number == "-" or not shift else str(Fraction(number) + shift)


def left(lines: list[Line], table: Table) -> list[Line]:
    "the lines without those of what was added"
    return [line for line in lines if line["name"] not in table.added]


def restore_solution(report: Report, table: Table) -> None:
    limits: dict[int, list[tuple[Moved, Line]]] = {}
    for line in report.get("rows", []):
        if moved := table.moved.get(line["name"]):
            limits.setdefault(moved.place.number, []).append((moved, line))
    for section in SECTIONS:
        if section in report:
            report[section] = [restored(line, table, limits) for line in left(report[section], table)]


def restored(line: Line, table: Table, limits: dict[int, list[tuple[Moved, Line]]]) -> Line:
    "a line of SOLUTION by the file's limits, with the price of limits that are rows"
    place = table.by_number.get(line["number"])
    if place is None:
        return line
    stand = limits.get(place.number, [])
    activity = Fraction(line["activity"]) + place.shift
    price = "dual" if place.of == "row" else "reduced"
    lower, upper = (None if limit is None else str(limit) for limit in place.limits)
    line |= {"activity": str(activity), "lower": lower, "upper": upper,
             price: str(sum((Fraction(limit["dual"]) for _, limit in stand), Fraction(line[price])))}
    if place.of == "row":
        line["slack"] = str(place.rhs - activity)
    line["at"] = stands(line["at"], place, stand, activity)
    return line


def stands(at: str, place: Place, limits: list[tuple[Moved, Line]], activity: Fraction) -> str:
    "where a row or a column stands, by where its limits stand that are rows"
    ends = {moved.end for moved, line in limits if line["at"] in NONBASIC}
    if any(line["at"] == "**" for _, line in limits):
        return "**"
    if len(ends) == 1:
        return AT_END[ends.pop()]
    return place.code(activity) if ends or at == "FR" else at


def restore_ray(report: Report, table: Table) -> None:
    "the multipliers by rows and columns of the file; where both limits of one have a part in it and they cross, that alone says it"
    lines = {line["number"]: line for line in left(report["ray"], table)}
    for line in report["ray"]:
        if moved := table.moved.get(line["name"]):
            place = moved.place
            before = lines.get(place.number, {"number": place.number, "name": place.name, "multiplier": "0"})
            lines[place.number] = before | {"multiplier": str(Fraction(before["multiplier"]) + Fraction(line["multiplier"]))}
            if place.is_crossed:
                del report["ray"]
                report["crossed"] = place.number
                return
    report["ray"] = [line for _, line in sorted(lines.items()) if Fraction(line["multiplier"])]


def restore_ranges(report: Report, table: Table) -> None:
    "intervals of limits are shifted, and those of limits that are rows belong to their row or column, which stands at that limit then"
    stand: dict[int, Line] = {}
    for line in report.get("rows_at_limit", []):
        if moved := table.moved.get(line["name"]):
            ends = {key: raised(line[key], moved.shift) for key in ("activity", *LIMITS)}
            stand[moved.place.number] = {"number": moved.place.number, "name": moved.place.name, "at": AT_END[moved.end], **ends}
    for key in RANGES:
        if key not in report:
            return
        report[key] = [shifted(line, table) for line in left(report[key], table)]
    costs = {line["number"]: line for line in report["columns_between"]}
    for number, line in stand.items():
        if table.by_number[number].of == "row":
            report["rows_at_limit"].append(line)
        elif number in costs:
            report["columns_at_limit"].append(line | {key: costs[number][key] for key in COSTS})
    for key in ("rows_between", "columns_between"):
        report[key] = [line for line in report[key] if line["number"] not in stand]
    for key in ("rows_at_limit", "columns_at_limit"):
        report[key].sort(key=lambda line: line["number"])


def shifted(line: Line, table: Table) -> Line:
    place = table.by_number.get(line["number"])
    if place is None or not place.shift:
        return line
    return line | {key: raised(line[key], place.shift) for key in ("activity", *LIMITS) if key in line}
