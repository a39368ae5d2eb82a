"""A listing as JSON, or its reports as CSV. docs/listing.schema.json has each field with its meaning."""
import json
import re
from collections.abc import Iterable, Iterator, Mapping, Sequence
from fractions import Fraction
from typing import Any, TextIO

from mps360.listings.read import NUMBER, PART, ROW, Listing, NoListing, Report, each_line
from mps360.text import cell

FORMAT, VERSION = "mps360 listing", 1
LINES = {"solutions": ("solution", ("section", "number", "name", *ROW, "cost", "reduced")),
         "ranges": ("ranges", ("section", "number", "name", "at", "activity", "limit_low", "limit_high", "cost", "cost_low", "cost_high",
                               "factor_low", "factor_high"))}
TABLES = {
    **{name: keys for name, (_, keys) in LINES.items()},
    "verdicts": ("by", "verdict", "sense", "objective", "objective_constant", "objective_with_constant", "steps", "checked", "crossed", "theta"),
    "rays": ("section", "number", "name", "multiplier", "activity", "direction"),
    "intervals": ("by", "change", "interval", "from", "to", "number", "name", *PART),
    "others": ("kind", "name", "sense", "rows", "columns", "entries", "cards", "basic"),
}
OTHERS = ("title", "convert", "revise", "setup", "bcdout", "punch", "insert")
# the columns that hold text of strangers
TEXTS = ("name", "change")
Row = Mapping[str, Any]
Cells = Mapping[str, str] | None


def rounded(text: str) -> float | None:
    "the number as a decimal one, None where it is too large for that"
    try:
        return float(Fraction(text))
    except OverflowError:
        return None


# ---- JSON

def result_of(listing: Listing) -> dict[str, Any]:
    "what the last verdict is, with the sense of its objective"
    end, sense = listing["end"], None
    status = end["status"] if end else None
    result: dict[str, Any] = {}
    for report in listing["reports"]:
        if report["report"] == "setup":
            sense = report["sense"]
        elif report["report"] == "verdict":
            kept = ("objective", "objective_constant", "objective_with_constant", "steps", "checked")
            result = {"status": status, "verdict": report["verdict"], "sense": sense}
            result |= {key: value for key, value in report.items() if key in kept}
    return result or {"status": status, "verdict": None, "sense": sense}


def document(listing: Listing, run: Mapping[str, Any] | None = None, notes: Sequence[str] | None = None) -> dict[str, Any]:
    "the whole of what is printed as JSON"
    return {"format": FORMAT, "version": VERSION, **({"run": run} if run else {}), **({} if notes is None else {"notes": list(notes)}), "result": result_of(listing), **listing}


def add_decimals(whole: Mapping[str, Any]) -> None:
    "beside each fraction of a document its value as a decimal number, which is rounded"
    for report in [whole["result"], *whole["reports"], whole["end"] or {}]:
        lines = [line for _, line in each_line(report)]
        for place in [report, *report.get("intervals", []), *lines]:
            for key, value in list(place.items()):
                if key not in ("name", "text", "change") and isinstance(value, str) and re.fullmatch(NUMBER, value):
                    place[key + "_decimal"] = rounded(value)


def json_text(whole: Mapping[str, Any]) -> str:
    "JSON in ASCII without a control character but line feeds"
    return json.dumps(whole, indent=1, allow_nan=False).replace("\x7f", "\\u007f") + "\n"


# ---- CSV

def lines_of(report: Report, table: str, sense: str | None) -> Iterator[Row]:
    "the lines that a report gives to a table"
    kind = report["report"]
    if table in LINES and kind == LINES[table][0]:
        for section, line in each_line(report):
            yield {"section": section, **{key: "none" if value is None and table == "ranges" else value for key, value in line.items()}}
    elif table == "rays":
        for section, line in each_line({key: value for key, value in report.items() if key in ("ray", "direction")}):
            yield {"section": section, **line}
    elif table == "verdicts" and report["report"] == "verdict":
        yield {"sense": sense, **report}
    elif table == "verdicts" and report["report"] == "parametric":
        yield {"sense": sense, **report, "verdict": report.get("end"), "theta": report.get("at")}
    elif table == "intervals" and report["report"] == "parametric":
        for count, interval in enumerate(report["intervals"], 1):
            for line in interval["lines"]:
                yield {**report, "interval": count, "from": interval["from"], "to": interval["to"], **line, "at": line["at"]}
    elif table == "others" and kind in OTHERS:
        yield {**report, "kind": kind, "name": report["text"] if report["report"] == "title" else report.get("name")}


def is_number(line: Row, key: str) -> bool:
    "whether a fraction stands there"
    return key not in TEXTS and isinstance(line.get(key), str) and re.fullmatch(NUMBER, line[key]) is not None


def cell_of(key: str, value: Any) -> Any:
    "a value as it stands in CSV"
    if isinstance(value, bool):
        return "true" if value else "false"
    return "" if value is None else cell(value) if key in TEXTS else value


def table_of(listing: Listing, table: str) -> list[dict[str, Any]]:
    "the lines of a table, each with the number of its report, counted from 1"
    sense: str | None = None
    found: list[dict[str, Any]] = []
    for count, report in enumerate(listing["reports"], 1):
        sense = report["sense"] if report["report"] == "setup" else sense
        found += [{**line, "report": count} for line in lines_of(report, table, sense)]
    return found


def write_csv(lines: list[dict[str, Any]], heads: Iterable[str], decimal: bool, out: TextIO, more: Cells = None) -> None:
    "lines under heads; with decimal a column NAME_decimal of rounded numbers beside each column of fractions; more is of cells that come behind each line"
    import csv  # pylint: disable=import-outside-toplevel
    numbers = [key for key in heads if decimal and any(is_number(line, key) for line in lines)]
    writer = csv.DictWriter(out, [*heads, *(key + "_decimal" for key in numbers), *(more or ())], restval="", lineterminator="\n", extrasaction="ignore")
    writer.writeheader()
    for line in lines:
        decimals = {key + "_decimal": rounded(line[key]) for key in numbers if is_number(line, key)}
        writer.writerow({key: cell_of(key, value) for key, value in (line | decimals).items()} | dict(more or {}))


def write_table(listing: Listing, table: str, decimal: bool, out: TextIO, more: Cells = None) -> None:
    "all reports of a kind, which is one of TABLES"
    write_csv(table_of(listing, table), ["report", *TABLES[table]], decimal, out, more)


def write_solution(listing: Listing, decimal: bool, out: TextIO, more: Cells = None) -> None:
    "the last SOLUTION; NoListing where there is none"
    lines = table_of(listing, "solutions")
    if not lines:
        raise NoListing("the listing has no SOLUTION")
    write_csv([line for line in lines if line["report"] == lines[-1]["report"]], TABLES["solutions"], decimal, out, more)
