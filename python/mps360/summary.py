"The summary of a batch: a line of CSV for each file as soon as its result is there, and the whole as JSON in the end."
from __future__ import annotations

import collections
import csv
import itertools
import json
import os
from collections.abc import Callable, Iterable, Mapping
from pathlib import Path
from typing import Any, TextIO

from mps360.text import as_text

# what is kept of a file's run, by the columns of the summary
Record = dict[str, Any]
OLD_COLUMNS = ("name", "file", "state", "status", "objective", "seconds", "proved", "end", "sum")
COLUMNS = (*OLD_COLUMNS, "route", "proved_by", "notes")
TEXT_COLUMNS = ("name", "file", "end", "route", "notes")
NO_ROUTE = {"route": "", "proved_by": "", "notes": ""}


def for_a_sheet(text: object) -> str:
    "text that no spreadsheet takes for a formula"
    text = as_text(str(text))
    return "'" + text if text[:1] in tuple("=+-@") else text


class Summary:
    "a line of summary.csv for each result as soon as it is there"
    def __init__(self, out: Path) -> None:
        self.path, self.json, self.records = out / "summary.csv", out / "summary.json", {}  # type: Path, Path, dict[str, Record]

    def before(self) -> dict[str, dict[str, str]]:
        "the records of an earlier batch; a line that isn't whole counts for nothing"
        try:
            with open(self.path, encoding="utf-8", newline="") as file:
                return {line["name"]: NO_ROUTE | line for line in csv.DictReader(file) if all(line.get(key) is not None for key in OLD_COLUMNS)}
        except FileNotFoundError:
            return {}

    def line(self, record: Record) -> Record:
        "a record as a line of the table"
        return {key: for_a_sheet(record[key]) if key in TEXT_COLUMNS else record[key] for key in COLUMNS}

    def keep_earlier(self) -> Path | None:
        "the summary of an earlier batch gets the next free number; the place where it is, None where there is none"
        if not self.before():
            return None
        number = next(number for number in itertools.count(1) if not any(self.numbered(path, number).exists() for path in (self.path, self.json)))
        for path in (self.path, self.json):
            if path.exists():
                os.replace(path, self.numbered(path, number))
        return self.numbered(self.path, number)

    @staticmethod
    def numbered(path: Path, number: int) -> Path:
        return path.with_name(f"{path.stem}-{number}{path.suffix}")

    def begin(self, kept: Mapping[str, Record]) -> None:
        "writes what is kept of an earlier batch"
        self.records = dict(kept)
        self.write_csv()

    def write_csv(self) -> None:
        "writes all records, in the order of their names"
        self.replace(self.path, lambda file: self.write_lines(file, [self.records[name] for name in sorted(self.records)], head=True))

    def write_lines(self, file: TextIO, records: Iterable[Record], head: bool = False) -> None:
        "writes these records, below a head line where it is wanted"
        out = csv.DictWriter(file, COLUMNS, lineterminator="\n")
        if head:
            out.writeheader()
        out.writerows(map(self.line, records))

    def add(self, record: Record) -> None:
        "writes a record behind the others"
        self.records[record["name"]] = record
        with open(self.path, "a", encoding="utf-8", newline="") as file:
            self.write_lines(file, [record])

    def end(self, files: Mapping[str, Path]) -> None:
        "both files whole, in the order of the names; summary.json says too what isn't done"
        self.write_csv()
        states = collections.Counter(record["state"] for record in self.records.values())
        jobs = [{key: as_text(value) if isinstance(value, str) else value for key, value in record.items()}
                for _, record in sorted(self.records.items())]
        whole = {"files": len(files), "states": dict(sorted(states.items())), "not done": len(files) - len(self.records), "jobs": jobs}
        self.replace(self.json, lambda file: file.write(json.dumps(whole, indent=1) + "\n"))

    @staticmethod
    def replace(path: Path, write: Callable[[TextIO], object]) -> None:
        "writes a file whole, or leaves it as it was"
        part = path.with_name(path.name + ".part")
        with open(part, "w", encoding="utf-8", newline="") as file:
            write(file)
        os.replace(part, path)


def as_record(line: Mapping[str, str], name: str, path: Path) -> Record:
    "a record again of a line of summary.csv, for the file that it is of"
    texts = {key: line[key][1:] if line[key][:1] == "'" else line[key] for key in ("end", "route", "notes")}
    return {**line, "name": name, "file": str(path), **texts, "status": int(line["status"]) if line["status"] else None, "seconds": float(line["seconds"])}
