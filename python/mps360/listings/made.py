"""The lines of reports that a job tells by itself, and the listing of a job that mps_file made of a model: what its reports are about is known
without reading a card."""
from collections.abc import Iterator, Mapping, Sequence
from typing import Any
from mps360.jobs.write import Job
from mps360.listings.read import Line
SAME_LINE = {
    "title": "TITLE {text}", "convert": "CONVERT {name:<8} ROWS {rows} COLUMNS {columns} ENTRIES {entries}",
    "revise": "REVISE  {name:<8} ROWS {rows} COLUMNS {columns} ENTRIES {entries}", "setup": "SETUP   {name:<8} {sense}",
    "bcdout": "BCDOUT  {name:<8} CARDS {cards}", "punch": "PUNCH   {name:<8} CARDS {cards}", "insert": "INSERT  {name:<8} BASIC {basic}",
}


class OtherJob(Exception):
    "the listing isn't one of this job"


def check_made(job: Job, reports: Sequence[Mapping[str, Any]], inserted: bool = False, ranging: bool = False) -> None:
    "OtherJob where the reports aren't, in their order, those of a job that mps_file made of a model: no card is read for that"
    model, names = job.model, [*job.rows.values(), *job.columns.values()]
    entries = sum(len(column) or 1 for column in model.columns.values())
    due = ["title", f"CONVERT {job.problem:<8} ROWS {len(job.rows)} COLUMNS {len(job.columns)} ENTRIES {entries}",
           f"SETUP   {job.problem:<8} {model.sense}", *(["insert"] if inserted else []), "verdict", "solution", *(["ranges"] if ranging else [])]
    if len(reports) > len(due):
        raise OtherJob("the listing has more reports than the job")
    for report, wanted in zip(reports, due):
        kind = report["report"]
        if kind != wanted and (kind not in SAME_LINE or SAME_LINE[kind].format(**report).rstrip() != wanted.rstrip()):
            raise OtherJob(f"where {wanted.split(' ')[0]} is due, the listing has another report")
        for line in each_line(report):
            if not 1 <= line["number"] <= len(names) or names[line["number"] - 1] != line["name"]:
                raise OtherJob(f"the job has no variable {line['number']} {line['name']}")


def each_line(report: Mapping[str, Any]) -> Iterator[Line]:
    "the lines of all tables of a report"
    for lines in report.values():
        for line in lines if isinstance(lines, list) else ():
            yield from line["lines"] if "lines" in line else (line,)
