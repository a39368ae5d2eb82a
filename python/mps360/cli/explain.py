"""Says what the end of a listing means: the card that a STOP line names, with a ruler, what the fault is and what to do; for an unknown
name those that are known there; for a ray the rows that conflict, as a sum; for a direction what grows. Of each parametric run it says
what changes from interval to interval, how the objective moves with theta, and what the run's end means. Of each SETUP it says what was
taken (the sense, the objective, the sets), and what was perhaps forgotten.

usage: explain JOB [LISTING]           without LISTING the job is run first (mps360); one of them may be -, which is standard input
       explain [..] MODEL [LISTING]    the same of the job of an MPS file, which mps2job.py makes; other words are for it
       explain LISTING                 of a listing alone, without the cards of its job

Nothing is solved here: verdicts, rays and directions are the listing's, and are compared with the job.

It ends with 0, with 64 for wrong use, 66 where a file can't be read, 65 where the listing isn't one, 70 where the job can't be run."""
import pathlib
import re
import subprocess
import sys
from typing import Literal

from mps360 import mps, programs
from mps360.cli import mps2job
from mps360.cli.words import joined
from mps360.errors import Refused
from mps360.explain import explain
from mps360.explain.stops import MOST_SHOWN, more_than
from mps360.files import bytes_of
from mps360.listings.read import NoListing, parse
from mps360.output import command, temporary_folder, write_file
from mps360.jobs.write import exact_job
from mps360.text import guard

LINE_EACH = 10


def run_job(text: str) -> str | None:
    "the listing of the job, which runs in a folder of its own, so that no file PUNCH is overwritten; None where there is none"
    program = [programs.COMMANDS / "mps360"]
    with temporary_folder() as folder:
        job = pathlib.Path(folder, "JOB")
        write_file(job, text.encode("latin-1"))
        with open(job, "rb") as given:
            ran = subprocess.Popen(program, stdin=given, stdout=subprocess.PIPE, cwd=folder)
        waited = 0
        while True:
            try:
                listing = ran.communicate(timeout=LINE_EACH)[0]
                return None if ran.returncode >= 64 else listing.decode("latin-1")
            except subprocess.TimeoutExpired:
                waited += LINE_EACH
                print(f"explain: the job runs, {waited} s", file=sys.stderr, flush=True)


def has(text: str, *parts: Literal["reports", "end"]) -> bool:
    "whether a text is a listing that has one of these parts, of reports and end"
    try:
        parsed = parse(text)
    except NoListing:
        return False
    return any(parsed[part] for part in parts)


def is_model(data: bytes, name: str) -> bool:
    "whether a file begins as an MPS file or a CPLEX LP file does, or is compressed as one may be"
    text = data[:100_000].decode("latin-1")
    first: list[str] = next((line.split() for line in re.split(r"\r\n|\n|\r", text) if line.strip() and not line.startswith("*")), [])
    is_mps = first != [] and first[0].upper() in ("NAME", "ROWS", "OBJSENSE", "OBJNAME") and first[1:2] != ["PROGRAM"]
    return is_mps or data[:2] == b"\x1f\x8b" or mps.is_lp(text, name)


def job_text(data: bytes, words: list[str], name: str) -> tuple[str, dict[str, str]]:
    "the job of a model's file, and the names that it has otherwise than the file"
    options = mps2job.parsed_options([*words, "--", name], mps2job.wrong_use)
    model = mps.read_bytes(data, mps2job.reading_of(options), name)
    job = exact_job(model, options.ranging, model.name or pathlib.Path(name).name)
    table = job.name_map()
    return job.text, {**table["rows"], **table["columns"], **table["sets"]}


def show_names(names: dict[str, str]) -> None:
    "what the names of the job stand for"
    if names:
        shown = [f"{short} is {name}" for short, name in list(names.items())[:MOST_SHOWN]]
        print(f"\nIn the job {', '.join(shown)}{more_than(list(names))}.")


class WrongUse(Exception):
    "words that don't go together"


def texts_of(given: list[bytes], files: list[str], passed: list[str]) -> tuple[str | None, str | None, dict[str, str]]:
    "the text of the job, None where there is none, that of the listing, None where it can't be had, and the names of the job that aren't the file's"
    text, listing = given[0].decode("latin-1"), given[1].decode("latin-1") if len(given) > 1 else None
    names: dict[str, str] = {}
    if len(given) == 1 and not passed and has(text, "reports", "end"):
        return None, text, names
    if is_model(given[0], files[0]) and (listing is None or has(listing, "reports")):
        text, names = job_text(given[0], passed, files[0])
    elif passed:
        raise WrongUse(f"{passed[0]} is a word for an MPS file, and {files[0]} is none")
    return text, run_job(text) if listing is None else listing, names


def answered(words: list[str]) -> int:
    "the command"
    guard()
    passed, files = [word for word in joined(words) if re.match("-.", word)], [word for word in joined(words) if not re.match("-.", word)]
    if not 1 <= len(files) <= 2 or files == ["-", "-"]:
        print("usage: explain JOB [LISTING]; one of them may be -, which is standard input", file=sys.stderr)
        return 64
    try:
        given = [bytes_of(word) for word in files]
        text, listing, names = texts_of(given, files, passed)
    except OSError as cause:
        print(f"explain: can't read {cause.filename}: {cause.strerror}", file=sys.stderr)
        return 66
    except Refused as cause:
        print(f"explain: {files[0]}: {cause}", file=sys.stderr)
        return 65
    except WrongUse as cause:
        print(f"explain: {cause}", file=sys.stderr)
        return 64
    if listing is None:
        return 70
    try:
        parsed = parse(listing)
        if not parsed["reports"] and not parsed["end"] and listing.strip():
            raise NoListing("it has no report")
        explain(text, parsed)
        show_names(names)
    except NoListing as cause:
        print(f"explain: {files[-1]}: not a listing: {cause}", file=sys.stderr)
        return 65
    except (TypeError, ValueError, ZeroDivisionError):
        print(f"explain: {files[-1]}: not a listing: NONE or 1/0 stands for a number", file=sys.stderr)
        return 65
    return 0


@command("explain")
def main(words: list[str] | None = None) -> int:
    "the command; its status"
    return answered(sys.argv[1:] if words is None else words)
