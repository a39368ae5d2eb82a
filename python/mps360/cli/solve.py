"""Solves an MPS file or a CPLEX LP file, or runs a job, and says the answer in the names of the file, with decimals beside the exact fractions.

usage: solve [--json | --csv | --html FILE] [--basis FILE [--from WRITER]] [--with SOLVER,..|none] [--only primal|basis|exact] [--seconds S] [--names MAP]
             [--keep FOLDER] [--write-basis FILE] [--solution FILE] [--life S] [--max | --min] [--ranging] [..] MODEL
       solve --serve [--program FILE] [--checker FILE]

  --json         JSON on standard output, in place of a text (docs/listing.schema.json has its fields)
  --csv          CSV: the plan with its rows; where there is no best plan, the ray or the direction
  --html FILE    a page to look at goes to FILE, beside the text
  --basis FILE   the run begins at a basis of this model that another solver wrote (prove --help has more)
  --from WRITER  which solver wrote it, where the file doesn't tell
  --keep FOLDER  the job, its listing (which is what is proved) and the table of names stay in FOLDER
  --with SOLVER,..    who may be asked for a basis where PRIMAL has no end in 5 s or a number doesn't fit, of highs, clp, esolver, glpsol and
                 lp_solve, in this order; none for nobody. Without it those that are installed
  --only primal|basis|exact  that route alone: from the opening basis, from the basis of a solver, or esolver's exact answer, attested by the checker
  --seconds S    bounds all of it; without it PRIMAL goes on until it ends
  --processors N  how many may be used; from 2 on PRIMAL goes on while a solver is asked. Without it those that are there
  --write-basis FILE  the basis of the answer goes to FILE, as an MPS basis file, which clp, esolver and others begin at
  --solution FILE     the solution goes to FILE as glpsol -w writes one
  --solution-form glpsol|highs  as which solver it is written
  --names MAP    where MODEL is a job: the table of names that mps2job.py wrote for it
  --life S       the first line of life on standard error after S seconds (5), the next after twice as long each time; 0 for none
  --program FILE  another program than scripts/mps360: it gets the job on standard input. What it prints is called unproved
  --checker FILE  another checker than scripts/mps360check and scripts/mps360long
  --serve        answers many requests in one process: a JSON object on each line of standard input, a reply on each line of standard output
                 (docs/PYTHON.md has them)

No solver is believed: what each gives is where PRIMAL begins, or goes to the checker, and the answer says by which route it came. MODEL is an MPS
file, an LP file (it begins with Minimize or Maximize) or a job (it begins with PROGRAM), or - for standard input. What of a model may be meant
otherwise is said before it is solved. --max and --min go before what the file says, --ranging asks how far each number may move; every other word
that begins with - is handed to mps2job.py as it stands (mps2job.py --help has them).

It ends with the status of the run: 0, 1 no plan, 2 no bound, more in docs/FAULTS.md; or with 64 for wrong use, 65 where MODEL is refused, 66
where it can't be read, 70 where there is no program or no solver, 73 where a file can't be written, 124 where there is no end in S seconds, 130
after Ctrl-C or a TERM signal: then what stands is said. A deck that is punched goes to the file PUNCH of this folder."""
from __future__ import annotations

import argparse
import hashlib
import io
import json
import os
import pathlib
import re
import shlex
import signal
import sys
from collections.abc import Callable, Iterator, Sequence
from fractions import Fraction
from typing import TYPE_CHECKING, Any, NoReturn
from mps360.cli import mps2job
from mps360.listings import tables
from mps360.listings.read import NO_NAMES, NoListing, NoNames, each_line, long_table, name_back, names_of, parse, read_names
from mps360 import at_hand, errors, life, mps, notes, routes, runs
from mps360.cli.route_options import add_routes, check_routes, plan_of
from mps360.cli.words import joined
from mps360.provenance import Provenance
from mps360.commands import called
from mps360.files import bytes_of
from mps360.jobs.write import Job, exact_job
from mps360.listings.made import OtherJob, check_made
from mps360.output import command, make_folder, write_file
from mps360.solver_names import NoBasis
from mps360.text import as_lines, as_text, marked_decimal

if TYPE_CHECKING:
    from mps360.bases import Basis

# the kind of a variable, its name, and its limits; and what gives them for its number
Limited = tuple[str, str, Fraction | None, Fraction | None]
Variable = Callable[[int], Limited]
NAME = "solve"
MOST_LINES = 40
# the status of a run that met a number which doesn't fit, and what is said then of a file with long numbers
OVERFLOW, SHORTER = 20, "the file's numbers of more than 12 columns are kept exactly: --round, or --doubles, may come further"
WRITERS = ("clp", "esolver", "lp_solve", "glpsol", "activity")
FORMS = ("glpsol", "highs")
# the words that a job doesn't go with, and the options that they are
MODEL_WORDS = {"--basis": "basis", "--with": "solvers", "--only": "only", "--write-basis": "write_basis", "--solution": "solution", "--checker": "checker"}


class Ended(Exception):
    "the work is over, with this status and these words"


def say(words: object) -> None:
    "a line on standard error"
    print(f"{NAME}: {as_lines(str(words))}", file=sys.stderr, flush=True)


def wrong_use(message: object) -> NoReturn:
    "ends the command for wrong use"
    raise Ended(64, message)


def is_job(content: bytes) -> bool:
    "whether the first card that means something is PROGRAM"
    first = next((line for line in content.split(b"\n") if line.strip() and not line.startswith(b"*")), b"")
    return re.match(rb"(\S* +)PROGRAM\b", first) is not None


# ---- the job

def explaining(options: argparse.Namespace, passed: list[str]) -> str:
    "the words of the command that explains the listing"
    if options.keep or options.model == "-":
        folder = options.keep or "FOLDER"
        files = [os.path.join(folder, f"{stem_of(options)}.{ending}") for ending in ("job", "listing")]
        return ("" if options.keep else "--keep FOLDER keeps the job and the listing, and ") + shlex.join([called("explain"), *files])
    return shlex.join([called("explain"), *(word for word in passed if word != "--ranging"), options.model])


class Model:
    "a model, as the job that is run and the table of its names"
    def __init__(self, options: argparse.Namespace, passed: list[str]) -> None:
        self.path, self.table = str(options.model), b""
        self.notes: list[str] = []
        self.names: Any = NO_NAMES
        self.converted: Job | None = None
        self.ranging = False
        self.basis: Basis | None
        self.basis, self.has_basis, self.explained = None, False, explaining(options, passed)
        try:
            content = bytes_of(options.model)
            if options.names:
                self.take_names(options.names)
        except (OSError, ValueError) as cause:
            raise Ended(66, f"can't read {getattr(cause, 'filename', None) or options.names}: {getattr(cause, 'strerror', None) or cause}") from None
        except NoNames as cause:
            raise Ended(65, f"{options.names}: {cause}") from None
        self.checksum = hashlib.sha256(content).hexdigest()
        if is_job(content):
            if word := next((word for word, name in MODEL_WORDS.items() if getattr(options, name) is not None), None):
                raise Ended(64, f"{word} goes with an MPS file, and {options.model} is a job")
            if passed:
                raise Ended(64, f"{passed[0]} is a word for an MPS file, and {options.model} is a job")
            self.job = content
        elif options.names:
            raise Ended(64, "--names goes with a job, and this is no job: it doesn't begin with PROGRAM")
        else:
            self.convert(content, options, passed)

    def take_names(self, path: str) -> None:
        "the table of names of a job"
        self.names, self.table = read_names(path), pathlib.Path(path).read_bytes()

    def convert(self, content: bytes, options: argparse.Namespace, passed: list[str]) -> None:
        "the job of a file"
        words = mps2job.parsed_options([*passed, "--", self.path], wrong_use)
        try:
            model = mps.read_bytes(content, mps2job.reading_of(words, wrong_use), "" if self.path == "-" else self.path)
            file = ("model.mps.gz" if content.startswith(b"\x1f\x8b") else "model.mps") if self.path == "-" else os.path.basename(self.path)
            job = self.converted = exact_job(model, words.ranging, model.name or file)
        except errors.Refused as cause:
            raise Ended(65, *f"{self.path}: {cause}".split("\n")) from None
        for sentence in model.warned:
            say(sentence)
        self.notes, self.job, self.ranging = list(job.said) if options.keep else job.said_without(job.of_table, job.of_listing), job.text.encode("ascii"), words.ranging
        if options.basis:
            self.take_basis(options, job)
        names = job.name_map()
        self.names, self.table = names_of(names), (json.dumps(names, indent=1) + "\n").encode()

    def take_basis(self, options: argparse.Namespace, job: Job) -> None:
        "the basis that is handed in"
        from mps360.cli import basis2deck
        try:
            self.basis = basis2deck.read_basis(options.basis, job.file, options.writer)
        except basis2deck.Ended as ended:
            status, words = ended.args
            raise Ended(status, *words.split("\n")) from None
        self.notes += self.basis.said

    def ran(self, attempt: runs.Attempt) -> None:
        "the listing is that of this attempt's job"
        if self.converted:
            self.job, self.has_basis = attempt.job.encode("ascii"), attempt.basis is not None and not attempt.by_checker
            self.ranging = self.ranging and not attempt.by_checker


# ---- the answer

class Answer:
    "what a run came to"
    def __init__(self, model: Model, run: runs.Attempt, provenance: Provenance) -> None:
        self.run, self.provenance, self.model = run, provenance, model
        self.text = run.listing.decode("latin-1")
        try:
            self.listing = parse(self.text)
            self.objective = as_text(self.objective_of(self.listing["reports"]))
        except (NoListing, OtherJob) as cause:
            raise Ended(70, f"what the program printed isn't the listing of this job: {cause}") from None
        if not name_back(self.listing, model.names):
            model.notes.append("the objective or its right-hand side isn't that of the table of names: no constant is added")
        self.result = tables.result_of(self.listing)
        if self.result["status"] == OVERFLOW and model.converted and model.converted.split:
            model.notes.append(SHORTER)

    def objective_of(self, reports: list[Any]) -> str:
        "the name of the objective; the reports are compared with the job"
        job = self.model.converted
        self.variable: Variable | None = None
        if job:
            check_made(job, reports, self.model.has_basis, self.model.ranging)
            self.variable = variables_of(job)
            return job.model.objective or ""
        from mps360.listings.follow import follow
        about, _ = follow(self.model.job.decode("latin-1"), reports)
        programs = [program for program, report in zip(about, reports) if program and report["report"] == "verdict"]
        name = programs[-1].names[programs[-1].objective] if programs else "the objective"
        if programs:
            self.variable = variables_of_job(programs[-1], self.model.names[0])
        return str(self.model.names[0].get("rows", {}).get(name, name)) if programs else name

    def last(self, kind: str) -> Any:
        "the last report of a kind, or None"
        return next((report for report in reversed(self.listing["reports"]) if report["report"] == kind), None)

    def point(self) -> Any:
        "the best plan for other solvers, None where there is none or its tables aren't whole"
        solution, job = self.last("solution"), self.model.converted
        if self.result["verdict"] != "optimal" or not solution or not job:
            return None
        model = job.file
        from mps360 import solution_out
        rows, columns = ([(line["at"], Fraction(line["activity"]), Fraction(line[price])) for line in solution.get(key, ())]
                         for key, price in (("rows", "dual"), ("columns", "reduced")))
        if (len(rows), len(columns)) != (len(model.rows), len(model.columns)):
            return None
        basis = self.run.basis if self.run.by_checker else None
        return solution_out.point_of(model, rows, columns, basis=basis, has_basis=basis is not None or not self.run.by_checker)

    def json(self) -> str:
        "the answer as JSON"
        run = {"model": self.model.path, "program": self.provenance.kind, "seconds": round(self.run.seconds, 3), "interrupted": self.run.interrupted,
               "notes": self.model.notes, **self.provenance.as_json()}
        whole = tables.document(self.listing, run)
        tables.add_decimals(whole)
        return tables.json_text(whole)

    def csv(self) -> str:
        "the answer as CSV"
        out = io.StringIO()
        if self.last("solution") and self.result["verdict"] == "optimal":
            tables.write_solution(self.listing, True, out)
        elif any(report["report"] == "parametric" for report in self.listing["reports"]):
            tables.write_table(self.listing, "intervals", True, out)
        else:
            tables.write_table(self.listing, "rays" if self.result["verdict"] else "verdicts", True, out)
        if out.getvalue().count("\n") < 2:
            for note in self.model.notes:
                say(note)
        return with_cells(out.getvalue(), {**self.provenance.cells(), notes.COLUMN: notes.as_cell(self.model.notes)})

    # ---- as a text

    def text_lines(self) -> Iterator[str]:
        "the lines of the answer as a text"
        verdict = self.last("verdict")
        if verdict:
            yield self.sentence(verdict)
        yield from self.table_of(verdict)
        if any(report["report"] == "parametric" for report in self.listing["reports"]):
            yield f"The job has parametric runs: {called('plot_parametric.py')} draws them, --html shows them, --json and --csv have their numbers."
        end = self.listing["end"]
        if end and end["text"].startswith("STOP"):
            yield f"The run stopped: {as_text(end['text'].splitlines()[0])}. {as_text(self.model.explained)} says what that means."
        elif not verdict:
            yield f"The run ended with status {end['status']}, and has no verdict." if end else "The listing was cut off before a verdict."
        yield ""
        yield from (f"note: {as_text(note)}" for note in self.model.notes)
        yield self.provenance.sentence()
        yield from (part for part in (self.provenance.route_sentence(), self.provenance.checksum_sentence()) if part)
        yield f"Scripts, which are tested, {'made the job of the file and ' if self.model.converted else ''}put in names and decimals (rounded after ≈)."

    def sentence(self, verdict: Any) -> str:
        "a verdict in a sentence"
        sense = self.result["sense"]
        most, more = ("greatest", "more") if sense == "MAX" else ("least", "less")
        changed = notes.after_verdict(self.model.converted.file) if self.model.converted else ""
        if verdict["verdict"] == "optimal":
            total = verdict.get("objective_with_constant", verdict["objective"])
            constant = f" ({verdict['objective']} and the constant {verdict['objective_constant']})" if total != verdict["objective"] else ""
            return f"OPTIMAL{changed}: the {most} {self.objective} is {both(total)}{constant}; no plan that keeps all limits has {more}."
        if verdict["verdict"] == "unbounded":
            return f"UNBOUNDED{changed}: {self.objective} {'grows' if sense == 'MAX' else 'falls'} without end along this direction, from the activities beside it."
        if "crossed" in verdict:
            return f"INFEASIBLE{changed}: {self.crossed(verdict['crossed'])}."
        return f"INFEASIBLE{changed}: no plan keeps all limits; those of these rows and columns conflict, with these factors."

    def crossed(self, number: int) -> str:
        "the variable whose lower limit is above its upper one, with its limits"
        if not self.variable:
            return f"variable {number} has a lower limit above its upper one"
        kind, name, lower, upper = self.variable(number)
        return f"the lower limit of the {kind} {as_text(name)}, {both(str(lower))}, is above its upper one, {both(str(upper))}"

    def table_of(self, verdict: Any) -> Iterator[str]:
        "the plan with its rows, or the ray or the direction"
        if not verdict:
            return
        solution = self.last("solution")
        if verdict["verdict"] == "optimal" and solution:
            near = {line["number"]: line for _, line in each_line(self.last("ranges") or {})}
            yield from self.solution_table("Column", "reduced", solution.get("columns", []), near, "activity",
                                           ("cost_low", "cost_high", "same plan while the cost is"))
            yield from self.solution_table("Row", "dual", solution.get("rows", []), near, "dual",
                                           ("limit_low", "limit_high", "price holds while the limit is"))
            count = sum(report["report"] == "solution" for report in self.listing["reports"])
            if count > 1:
                yield f"\nThe job has {count} solutions, and this is the last one; --html, and --table of listing2json.py, have all."
        elif "ray" in verdict:
            yield from conflict(verdict["ray"], self.variable)
        elif "direction" in verdict:
            moving = [line for line in verdict["direction"] if line["direction"] != "0"]
            lines = [(line["name"], both(line["activity"]), both(line["direction"])) for line in moving]
            yield from table("Row or column", ("activity", "changes by"), lines)

    def solution_table(self, head: str, price: str, lines: list[Any], near: dict[int, Any], which: str, interval: tuple[str, str, str]) -> Iterator[str]:
        "the lines of a table of SOLUTION that aren't 0"
        low, high, words = interval
        shown = [line for line in lines if line[which] != "0"]
        names = ("activity", "shadow price" if price == "dual" else "reduced cost", *([words] if near else []))
        ends = [[ends_of(near.get(line["number"], {}), low, high)] if near else [] for line in shown]
        yield from table(head, names, [(line["name"], both(line["activity"]), both(line[price]), *end) for line, end in zip(shown, ends)])
        if len(shown) < len(lines):
            yield f"({len(lines) - len(shown)} more have {'the activity' if which == 'activity' else 'the price'} 0)"


def variables_of(job: Job) -> Variable:
    "from the number of a variable of a job, rows first, to its kind, and its name and its limits in the file"
    rows, columns, file = list(job.rows), list(job.columns), job.file
    def variable(number: int) -> Limited:
        if number <= len(rows):
            return "row", rows[number - 1], *file.row_limits(rows[number - 1])
        return "column", columns[number - len(rows) - 1], *file.column_limits(columns[number - len(rows) - 1])
    return variable


def variables_of_job(program: Any, names: dict[str, Any]) -> Variable:
    "the same of a linear program that a job selects, by the names of the table"
    long = long_table(names)
    def variable(number: int) -> Limited:
        kind, name = "row" if number <= program.m else "column", program.names[number - 1]
        limits = long.limits(number) if long else None
        lower, upper = limits or (program.lower[number - 1], program.upper[number - 1])
        return kind, names.get(kind + "s", {}).get(name, name), lower, upper
    return variable


def conflict(ray: list[Any], variable: Variable | None) -> Iterator[str]:
    "the limits that conflict, each with its factor, and their sum where the limits are known"
    if not variable:
        yield from table("Row or column", ("factor",), [(line["name"], both(line["multiplier"])) for line in ray])
        return
    taken = []
    for line in ray:
        factor, (_, _, lower, upper) = Fraction(line["multiplier"]), variable(line["number"])
        limit = upper if factor > 0 else lower
        if limit is None:
            raise OtherJob("the ray names a limit that the job hasn't")
        taken.append((line, factor, limit))
    lines = [(line["name"], both(line["multiplier"]), f"at {'most' if factor > 0 else 'least'} {both(str(limit))}", both(str(factor * limit)))
             for line, factor, limit in taken]
    yield from table("Row or column", ("factor", "its limit", "factor times activity is at most"), lines)
    total = sum((factor * limit for _, factor, limit in taken), Fraction(0))
    yield (f"Together the activities, each times its factor, are 0, whatever the plan; by these limits they are at most {both(str(total))}. "
           f"If one limit alone is to give way, then by at least {both(str(-total))} divided by its factor, taken without its sign.")


def with_cells(text: str, cells: dict[str, str]) -> str:
    "CSV with these columns behind the others, the same on each line"
    import csv
    head, *lines = csv.reader(io.StringIO(text))
    out = io.StringIO()
    csv.writer(out, lineterminator="\n").writerows([[*head, *cells], *([*line, *cells.values()] for line in lines)])
    return out.getvalue()


def both(number: str) -> str:
    "a number as a decimal, with the exact fraction beside it where it is another text"
    text = marked_decimal(number)
    return text if text == number else f"{text} = {number}"


def ends_of(line: dict[str, Any], low: str, high: str) -> str:
    "an interval of RANGE, or nothing"
    if low not in line or line[low] == "-":
        return ""
    if line[low] is None and line[high] is None:
        return "any"
    return f"{'any' if line[low] is None else marked_decimal(line[low])} to {'any' if line[high] is None else marked_decimal(line[high])}"


def table(head: str, names: Sequence[str], lines: Sequence[tuple[str, ...]]) -> Iterator[str]:
    "the lines of a table: a name, and texts under these names"
    width = max([len(head), *(len(as_text(line[0])) for line in lines[:MOST_LINES])])
    wide = [max([len(name), *(len(line[k]) for line in lines[:MOST_LINES])]) for k, name in enumerate(names, 1)]
    yield f"\n{head:<{width}}" + "".join(f"  {name:>{w}}" for name, w in zip(names, wide))
    for line in lines[:MOST_LINES]:
        yield (f"{as_text(line[0]):<{width}}" + "".join(f"  {text:>{w}}" for text, w in zip(line[1:], wide))).rstrip()
    if len(lines) > MOST_LINES:
        yield f".. and {len(lines) - MOST_LINES} more: --csv, --json and --html have all"


# ---- the whole

def kept(folder: pathlib.Path, name: str, content: bytes) -> None:
    "a file of a folder, which is made where it isn't there"
    make_folder(folder)
    write_file(folder / name, content)


def stem_of(options: argparse.Namespace) -> str:
    "the model's name, without its ending"
    return pathlib.Path(options.model).name.removesuffix(".gz").rsplit(".", 1)[0] if options.model != "-" else "model"


def write_solution(options: argparse.Namespace, answer: Answer) -> None:
    "the files for other solvers; why one isn't written is said"
    wanted = [word for word in ("--write-basis", "--solution") if getattr(options, MODEL_WORDS[word])]
    if not wanted:
        return
    from mps360 import solution_out
    form, point, verdict = options.solution_form or "glpsol", answer.point(), answer.result["verdict"]
    for word in wanted:
        path = pathlib.Path(getattr(options, MODEL_WORDS[word]))
        try:
            if point is None and (word == "--write-basis" or form == "glpsol" or verdict not in ("infeasible", "unbounded")):
                raise errors.Refused(f"there is no best plan, but {verdict.upper()}" if verdict else "there is no answer")
            text = solution_out.basis_file(point) if word == "--write-basis" else solution_out.nothing_text(verdict) if point is None else \
                solution_out.solution_file(point, form)
            kept(path.parent, path.name, text.encode("utf-8"))
        except errors.Refused as cause:
            say(f"{word}: {path} isn't written: {cause}")


def write_outputs(options: argparse.Namespace, model: Model, answer: Answer) -> None:
    "the answer in each form that is wanted"
    write_solution(options, answer)
    if options.keep:
        kept(pathlib.Path(options.keep), f"{stem_of(options)}.listing", answer.text.encode("latin-1"))
    if options.html:
        from mps360.pages.html import page as page_of
        from mps360.pages.origin import Origin
        page = page_of(model.job.decode("latin-1"), answer.text, model.names, Origin.of(answer.provenance, options.model), model.notes)
        path = pathlib.Path(options.html)
        kept(path.parent, path.name, page.encode("utf-8"))
    if options.json:
        sys.stdout.write(answer.json())
    elif options.csv:
        sys.stdout.write(answer.csv())
    else:
        print("\n".join(answer.text_lines()))


def program_of(options: argparse.Namespace) -> at_hand.Tool:
    "the program that runs; that it runs unproved is said"
    try:
        program = at_hand.solver_program(options.program)
    except errors.NoProgram as cause:
        raise Ended(70, str(cause)) from None
    if program.kind == "unproved" and not program.prepare:
        at_hand.say_unproved(at_hand.PROGRAM)
    return program


def checkers_of(options: argparse.Namespace) -> at_hand.Checkers:
    "the checkers of listings, found where they are needed; one that is neither proved nor compiled is compiled then"
    try:
        return at_hand.checkers_at_hand(options.checker, at_hand.checker_to_compile)
    except errors.NoProgram as cause:
        raise Ended(70, str(cause)) from None


def outcome_of(options: argparse.Namespace, model: Model, program: at_hand.Tool, alive: life.Life) -> routes.Outcome:
    "what the run of a job, or the routes of an MPS file, came to"
    observer = runs.Observer(say=alive.say, going=alive.say, heard=alive.heard, tick=alive.tick)
    try:
        if not model.converted:
            return routes.Outcome(runs.run_alone(model.job, program, seconds=options.seconds, begun=options.begun, observer=observer), [], program)
        way = routes.Routes(model.converted, program, plan_of(options), checkers_of(options), observer)
        if model.basis:
            way.begin_at(model.basis, os.path.basename(options.basis))
        return way.run()
    except OSError as cause:
        raise Ended(70, f"can't run {cause.filename or program.command[0]}: {cause.strerror}") from None
    except runs.NoAnswer as cause:
        raise Ended(cause.status, str(cause)) from None
    except NoBasis as cause:
        raise Ended(70, str(cause)) from None
    finally:
        alive.clear()


def say_interrupted(attempt: runs.Attempt) -> None:
    "what stands after an interruption"
    lines = attempt.lines()
    stands = f"What was printed stands; its last line is: {lines[-1]}" if lines else "Nothing was printed."
    waited = life.awaited(attempt.job, lines).replace("waits", "waited", 1).replace("has", "had", 1)
    say(f"interrupted after {attempt.seconds:.0f} s, when it {waited}. {stands}")


def keep(options: argparse.Namespace, name: str, content: bytes) -> None:
    "a file of the folder of --keep, where one is named"
    if options.keep:
        kept(pathlib.Path(options.keep), name, content)


def solve(options: argparse.Namespace, passed: list[str]) -> int:
    "the whole; the exit status"
    model, stem = Model(options, passed), stem_of(options)
    keep(options, f"{stem}.job", model.job)
    if model.table:
        keep(options, f"{stem}.names", model.table)
    outcome = outcome_of(options, model, program_of(options), life.Life(NAME, options.life, seconds=options.seconds))
    attempt = outcome.attempt
    model.ran(attempt)
    keep(options, f"{stem}.job", model.job)
    if attempt.solver and attempt.written:
        keep(options, f"{stem}.{attempt.solver.name}", attempt.written.encode("latin-1"))
    provenance = Provenance.of(outcome, model.checksum)
    answer = Answer(model, attempt, provenance)
    if attempt.interrupted:
        say_interrupted(attempt)
    elif model.converted or attempt.why:
        say(provenance.line() if model.converted else attempt.why)
    write_outputs(options, model, answer)
    return outcome.status


def interrupt(*_: object) -> NoReturn:
    "a TERM signal is as Ctrl-C"
    raise KeyboardInterrupt


class Words(argparse.ArgumentParser):
    "words that end the command where they are wrong"
    def error(self, message: str) -> NoReturn:
        say(message)
        sys.exit(64)


@command(NAME)
def main(words: list[str] | None = None) -> int:
    "the command; its status"
    words = sys.argv[1:] if words is None else words
    if "--serve" in words:
        from mps360.cli.serve import main as serve
        return serve(words)
    parser = Words(add_help=False, allow_abbrev=False)
    form = parser.add_mutually_exclusive_group()
    form.add_argument("--json", action="store_true")
    form.add_argument("--csv", action="store_true")
    for word in ("--html", "--names", "--keep", "--program", "--checker", "--basis", "--write-basis", "--solution"):
        parser.add_argument(word)
    parser.add_argument("--solution-form", choices=FORMS)
    add_routes(parser)
    parser.add_argument("--from", dest="writer", choices=WRITERS)
    parser.add_argument("--life", type=float, default=life.FIRST)
    parser.add_argument("model")
    options, passed = parser.parse_known_args(joined(words))
    if unknown := [word for word in passed if not word.startswith("--")]:
        parser.error(f"one model at a time; what is {unknown[0]}?")
    if options.writer and not options.basis:
        parser.error("--from goes with --basis")
    if options.solution_form and not options.solution:
        parser.error("--solution-form goes with --solution")
    if fault := check_routes(options):
        parser.error(fault)
    getattr(sys.stdout, "reconfigure")(encoding="utf-8")
    signal.signal(signal.SIGTERM, interrupt)
    try:
        return solve(options, passed)
    except Ended as ended:
        status, *told = ended.args
        for line in told:
            say(line)
        return int(status)
    except KeyboardInterrupt:
        say("interrupted before the program ran; nothing stands")
        return 130
