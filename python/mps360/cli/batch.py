"""Runs many jobs, MPS files and LP files, each in a folder of its own, writes each result at once, and prints a line for each.

usage: mps360-batch [options] FOLDER [OUT]        the jobs (*.job), MPS files (*.mps, *.mps.gz) and LP files (*.lp, *.lp.gz) of a
                                                 folder; OUT is FOLDER/listings
       mps360-batch [options] --out OUT FILE..    these files

  -j N               N at once; without it one after the other
  --time-limit S, --seconds S   stops a file after S seconds; without it each runs until it ends
  --with SOLVER,..   who may be asked for a basis where PRIMAL alone comes to nothing, as solve --help says; none for nobody. Without it
                     those that are installed
  --resume           passes over each file that OUT/summary.csv has an answer to, unless the file, or the words of --mps2job and --with, are
                     others now; what has no answer (stopped by the time limit, killed) is run again, as is what ran unproved once the
                     proved program is built
  --mps2job WORDS    words for mps2job.py, in one: --mps2job='--negative-up free'
  --old-codes        ends with 1 in place of 3 where a file came to no answer, as it did before

An MPS file or LP file is solved as solve does it, by its routes; a job has its own statements. In OUT there come NAME.listing, NAME.punch where a deck
is punched, of an MPS file NAME.job and NAME.names as well, and what was changed is said on standard error; and summary.csv, which has a line
for each file as soon as it is done, and in the end summary.json: name, file, state, status, objective (of an MPS file with its constant),
seconds, proved, how it ended, a checksum, and of an MPS file the route, who proved it (program, checker or none) and the notes. The state is
ended (END 0, 1, 2), stopped (a STOP line), refused (the file can't be kept), time limit or no answer (what was printed until then stands in
NAME.listing.part).

A disk that is full, and a device that gives no more, end the batch: what met it has no answer and no line, and --resume runs it. Without
--resume an earlier summary of OUT is kept, as summary-1.csv and so on.

The proved program is used where it is built; else all run UNPROVED, compiled once, in about a minute (MPS360_PROVED=1 refuses that).

Ends with 0 where each ended with an END line; 3 where one didn't; 64 for wrong use; 66 where there is no such folder or file, or
nothing to run in it; 70 where no program or no solver can be had; 73 where OUT, standard output or a temporary folder
can't be written; 130 where it was interrupted."""
from __future__ import annotations

import argparse
import collections
import hashlib
import json
import os
import pathlib
import re
import shlex
import shutil
import signal
import subprocess
import sys
import threading
import time
from collections.abc import Mapping, Sequence
from concurrent.futures import FIRST_COMPLETED, ThreadPoolExecutor, wait
from pathlib import Path
from typing import Any, NoReturn
from mps360.listings.read import NUMBER
from mps360 import at_hand, programs, solvers
from mps360.cli import mps2job
from mps360.cli.route_options import counted, positive, solvers_of
from mps360.life import Life, keep_above
from mps360.cli.words import taken
from mps360.text import guard
from mps360.output import CantWrite, command, temporary_folder
from mps360.solver_names import not_installed
from mps360.summary import NO_ROUTE, Record, Summary, as_record, for_a_sheet
from mps360 import unproved

Process = subprocess.Popen[bytes]
ENDINGS = (".job", ".mps", ".mps.gz", ".lp", ".lp.gz")
# seconds that a child has to end by itself: after its own limit, and after a signal
LATE, GRACE = 10.0, 5.0
NO_END, REFUSED, CANT_READ, CANT_WRITE, INTERRUPTED, OPEN, OLD_OPEN = 124, 65, 66, 73, 130, 3, 1
LINE_EACH, PATIENCE, MOST_SAID = 10.0, 0.2, 5
DONE = ("ended", "stopped", "refused")
# statuses of a run whose job couldn't be read, or whose listing or punched deck couldn't be written: no answer, but the want of a device
DEVICE_FAULTS = {24: "the job couldn't be read", 25: "the listing couldn't be written", 26: "the deck couldn't be punched"}
USAGE = "usage: mps360-batch [-j N] [--seconds S] [--with SOLVERS] [--resume] [--mps2job WORDS] FOLDER [OUT] | --out OUT FILE.."


class Wrong(Exception):
    "what ends the whole, with its exit status"
    def __init__(self, status: int, cause: object) -> None:
        super().__init__(cause)
        self.status = status


class Interrupted(Exception):
    "a signal, by its number"


class Signals:
    "what Ctrl-C does: while jobs run it is noted, and met between two results, so that no lock is left held; else it is raised at once"
    def __init__(self) -> None:
        self.number: int | None = None
        self.is_noted = False
        for number in (signal.SIGINT, signal.SIGTERM):
            signal.signal(number, self.meet)

    def meet(self, number: int, _: object) -> None:
        "notes the signal, or raises Interrupted"
        self.number = number
        if not self.is_noted:
            raise Interrupted(number)


class DeviceFault(Exception):
    "a run met a device that takes or gives no more, so that it has no answer, and others wouldn't have one either"


class TimeOver(Exception):
    "a job has met the time limit"


def say(text: object) -> None:
    "a line on standard error"
    # (in one piece, for several files may speak at once)
    sys.stderr.write(f"mps360-batch: {text}\n")
    sys.stderr.flush()


# ---- what is to be run

def stem(path: Path) -> str:
    "a file's name without its ending"
    return next((path.name[:-len(ending)] for ending in sorted(ENDINGS, key=len, reverse=True) if path.name.lower().endswith(ending)), path.name)


def named(paths: Sequence[Path]) -> dict[str, Path]:
    "from names to files; two of one name, as a.job and a.mps, have their whole names"
    count = collections.Counter(stem(path) for path in paths)
    names = [(stem(path) if count[stem(path)] == 1 else path.name, path) for path in paths]
    twice = [name for name, much in collections.Counter(name for name, _ in names).items() if much > 1]
    if twice:
        raise Wrong(64, f"two files are called {twice[0]}: give each batch an OUT of its own")
    return dict(sorted(names))


def files_of(options: argparse.Namespace) -> tuple[dict[str, Path], Path]:
    "the files and the folder that the words name"
    words = [pathlib.Path(word) for word in options.words]
    if options.out is not None:
        missing = next((path for path in words if not path.is_file()), None)
        if missing:
            raise Wrong(66, f"no file {missing}")
        return named(words), pathlib.Path(options.out)
    folder = words[0]
    if len(words) > 2:
        raise Wrong(64, "one folder, or files after --out OUT; --help says more")
    if not folder.is_dir():
        raise Wrong(66, f"no folder {folder}")
    try:
        paths = [path for path in sorted(folder.iterdir()) if path.name.lower().endswith(ENDINGS) and path.is_file()]
    except OSError as cause:
        raise Wrong(66, f"can't read {cause.filename}: {cause.strerror}") from None
    if not paths:
        raise Wrong(66, f"no job (*.job), no MPS file (*.mps, *.mps.gz) and no LP file (*.lp, *.lp.gz) in {folder}")
    return named(paths), words[1] if len(words) == 2 else folder / "listings"


# ---- a run

def copy(source: Path, target: Path) -> None:
    "copies a file; OSError names the copy, which is what can't be written"
    try:
        shutil.copyfile(source, target)
    except OSError as cause:
        raise OSError(cause.errno, cause.strerror, str(target)) from None


class Runs:
    "runs a file, and ends what is running where all is to end"
    def __init__(self, program: str, is_proved: bool, out: Path, options: argparse.Namespace) -> None:
        self.program, self.proved, self.out = program, "yes" if is_proved else "no", out
        self.limit = min((limit for limit in (options.time_limit, options.seconds) if limit), default=None)
        self.words, self.solvers = shlex.split(options.mps2job), options.solvers
        self.processors = max(1, (os.cpu_count() or 1) // options.at_once)
        self.lock, self.is_over = threading.Lock(), False
        self.processes: dict[int, Process] = {}
        self.running: dict[str, float] = {}
        self.saying: dict[str, Path] = {}

    def sum_of(self, path: Path) -> str:
        "a checksum of a file, and of the words for MPS files where it is one"
        words = [] if path.name.lower().endswith(".job") else [*self.words, *([] if self.solvers is None else ["--with", *self.solvers])]
        return hashlib.sha256(path.read_bytes() + b"\0" + "\0".join(words).encode()).hexdigest()[:16]

    def call(self, words: Sequence[str], until: float | None, **more: Any) -> int:
        "the status of a command, which is ended at the time limit"
        with self.lock:
            if self.is_over:
                raise TimeOver
            process = subprocess.Popen(words, start_new_session=True, **more)
            self.processes[process.pid] = process
        try:
            return process.wait(None if until is None else max(0.0, until - time.monotonic()))
        except subprocess.TimeoutExpired:
            raise TimeOver from None
        finally:
            self.kill(process)
            with self.lock:
                del self.processes[process.pid]

    @staticmethod
    def ask_to_end(process: Process) -> None:
        "a child that solves ends what it has begun, and then itself"
        try:
            os.killpg(process.pid, signal.SIGTERM)
        except ProcessLookupError:
            pass

    def kill(self, process: Process) -> None:
        "ends a child, at once where it doesn't end when it is asked to"
        if process.poll() is not None:
            return
        self.ask_to_end(process)
        try:
            process.wait(GRACE)
        except subprocess.TimeoutExpired:
            try:
                os.killpg(process.pid, signal.SIGKILL)
            except ProcessLookupError:
                pass
            process.wait()

    def end(self) -> None:
        "asks all that runs to end, and lets nothing begin"
        with self.lock:
            self.is_over = True
            for process in self.processes.values():
                self.ask_to_end(process)

    def run(self, name: str, path: Path) -> Record:
        "the record of a file's run; what it leaves stands in OUT before"
        begun = time.monotonic()
        until = None if self.limit is None else begun + self.limit
        self.running[name] = begun
        record: Record = {"name": name, "file": str(path), "state": "no answer", "status": None, "objective": "", "proved": self.proved, **NO_ROUTE}
        part = self.out / f"{name}.listing.part"
        for ending in ("listing", "listing.part", "punch", "names"):
            (self.out / f"{name}.{ending}").unlink(missing_ok=True)
        try:
            try:
                record["sum"] = self.sum_of(path)
            except OSError as cause:
                return {**record, "sum": "", "state": "refused", "end": f"can't be read: {cause.strerror}", "proved": "", "seconds": 0.0}
            with temporary_folder() as folder:
                run = self.run_job if path.name.lower().endswith(".job") else self.solve_file
                run(name, path, record, pathlib.Path(folder), until)
        except TimeOver:
            record |= {"state": "time limit", "end": f"stopped after {self.limit:g} s" if self.limit else "interrupted"}
        finally:
            del self.running[name]
            self.saying.pop(name, None)
        if part.exists() and not part.stat().st_size:
            part.unlink()
        return {**record, "seconds": round(time.monotonic() - begun, 3)}

    def waits_for(self, now: float) -> str:
        "what the file does that runs the longest, as far as it tells; now is the time of time.monotonic"
        begun, name = min(((begun, name) for name, begun in list(self.running.items())), default=(now, ""))
        if not name:
            return ""
        told = last_line(self.saying.get(name)).removeprefix("solve: ")
        return f", the longest since {now - begun:.0f} s: {name}{f' ({told})' if told else ''}"

    # ---- a job

    def run_job(self, name: str, path: Path, record: Record, folder: Path, until: float | None) -> None:
        "runs a job by the program"
        part, punch = self.out / f"{name}.listing.part", folder / "PUNCH"
        with open(path, "rb") as given, open(part, "wb") as printed:
            status = self.call([self.program], until, stdin=given, stdout=printed, stderr=subprocess.DEVNULL, cwd=folder)
        if punch.is_file():
            copy(punch, self.out / f"{name}.punch")
        if status < 0:
            record["end"] = f"ended by signal {-status}"
            return
        if status in DEVICE_FAULTS:
            raise DeviceFault(f"{name}: {DEVICE_FAULTS[status]} (status {status})")
        os.replace(part, self.out / f"{name}.listing")
        text = (self.out / f"{name}.listing").read_text(encoding="latin-1")
        record |= {"state": "ended" if status in (0, 1, 2) else "stopped", "status": status, "end": how_it_ended(text)}
        found = re.findall(rf"^(?:PRIMAL|DUAL) OPTIMAL STEPS \d+ OBJECTIVE ({NUMBER}) ", text, re.M)
        if found:
            record["objective"] = found[-1]

    # ---- an MPS file

    def solve_file(self, name: str, path: Path, record: Record, folder: Path, until: float | None) -> None:
        "by a child of its own, so that several read and write at once"
        words = [sys.executable, str(programs.COMMANDS / "solve"), "--json", "--life", "0", "--keep", str(folder / "kept"), "--processors", str(self.processors), *self.words]
        if self.solvers is not None:
            words += ["--with", ",".join(self.solvers) or "none"]
        if until is not None:
            words += ["--seconds", f"{max(0.001, until - time.monotonic()):.3f}"]
        self.saying[name] = folder / "said"
        with open(folder / "answer", "wb") as answer, open(folder / "said", "wb") as said:
            status = self.call([*words, str(path.resolve())], None if until is None else until + LATE, stdin=subprocess.DEVNULL, stdout=answer, stderr=said)
        told = (folder / "said").read_text(encoding="utf-8", errors="replace").strip()
        self.keep(name, folder / "kept", status)
        if status in (REFUSED, CANT_READ):
            cause = next((line for line in told.split("\n") if line.startswith("solve: ")), told or f"solve ended with {status}")
            record |= {"state": "refused", "end": cause.removeprefix("solve: "), "proved": ""}
        elif status == CANT_WRITE or status in DEVICE_FAULTS:
            raise DeviceFault(f"{name}: {DEVICE_FAULTS.get(status) or told.split(chr(10))[-1].removeprefix('solve: ')} (status {status})")
        else:
            self.take(name, record, status, (folder / "answer").read_bytes(), told)

    def keep(self, name: str, kept: Path, status: int) -> None:
        "what the child kept goes to OUT"
        for path in kept.iterdir() if kept.is_dir() else ():
            is_cut = path.suffix == ".listing" and status in (NO_END, INTERRUPTED)
            if path.suffix in (".job", ".names", ".listing"):
                copy(path, self.out / f"{name}{path.suffix}{'.part' if is_cut else ''}")

    def take(self, name: str, record: Record, status: int, answer: bytes, told: str) -> None:
        "the record of a child's JSON"
        try:
            whole = json.loads(answer)
            run, result = whole["run"], whole["result"]
        except (ValueError, KeyError, TypeError):
            record["end"] = told.split("\n")[-1].removeprefix("solve: ") or (f"ended by signal {-status}" if status < 0 else f"ended with {status}")
            return
        solver = run["solver"] and f" ({run['solver']['name']} {run['solver']['version']})"
        record |= {"proved": "yes" if run["program"] == "proved" else "no", "route": run["route"] + (solver or ""), "proved_by": run["proved_by"],
                   "notes": "; ".join(run["notes"])}
        if result["verdict"] == "optimal":
            record["objective"] = result.get("objective_with_constant", result["objective"])
        if status in (NO_END, INTERRUPTED):
            record |= {"state": "time limit", "end": f"stopped after {self.limit:g} s" if self.limit else "interrupted"}
        else:
            end = whole["end"] or {"text": "the listing was cut off"}
            record |= {"state": "ended" if status in (0, 1, 2) else "stopped", "status": status, "end": end["text"].split("\n")[0]}
        for note in run["notes"][:MOST_SAID]:
            say(f"{name}: {note}")
        if len(run["notes"]) > MOST_SAID:
            say(f"{name}: {len(run['notes']) - MOST_SAID} notes more, which {name}.names has")


def last_line(path: Path | None) -> str:
    "the last whole line that a child has said so far; none where it has said nothing, or has ended"
    try:
        lines = path.read_bytes().decode("utf-8", "replace").split("\n")[:-1] if path else []
    except OSError:
        return ""
    return lines[-1] if lines else ""


def how_it_ended(listing: str) -> str:
    "the last line of a listing that says how its run ended"
    lines = listing.rstrip("\n").split("\n")
    return next((line for line in reversed(lines) if re.match("END |STOP ", line)), lines[-1])


def a_program() -> tuple[str, bool]:
    "the path of the program, and whether it is proved"
    program = programs.proved_program()
    if program:
        return program, True
    if os.environ.get("MPS360_PROVED"):
        raise Wrong(70, f"no proved program is there; {at_hand.PROVES}")
    say(f"running UNPROVED; {at_hand.PROVES}")
    try:
        return at_hand.kept_program("mps360") or unproved.make(optimised=True), False
    except unproved.Answered:
        raise Wrong(70, "no unproved program can be had of rt, so only scripts/mps360 runs jobs, one by one") from None
    except unproved.NoAnswer as cause:
        raise Wrong(70, cause) from None


def done_before(summary: Summary, runs: Runs, files: Mapping[str, Path]) -> dict[str, Record]:
    "the records that --resume keeps"
    kept, before = {}, summary.before()
    for name, path in files.items():
        line = before.get(for_a_sheet(name))
        if line is None or line["state"] not in DONE or line["status"] in map(str, DEVICE_FAULTS) or line["proved"] == "no" and runs.proved == "yes":
            continue
        has_all = line["state"] == "refused" or (summary.path.parent / f"{name}.listing").exists()
        try:
            if has_all and line["sum"] == runs.sum_of(path):
                kept[name] = as_record(line, name, path)
        except (OSError, ValueError):
            # (it is run again, and told)
            continue
    return kept


class Lines:
    "the line of each result on standard output; the results are kept also where it can't be written, which is told in the end"
    def __init__(self) -> None:
        self.fault: CantWrite | None = None

    def tell(self, record: Record) -> None:
        status = "none" if record["status"] is None else record["status"]
        try:
            if self.fault is None:
                objective = f"  objective {record['objective']}" if record["objective"] else ""
                print(f"{status:>4}  {record['name']:<24} {record['end']}{objective}", flush=True)
        except CantWrite as cause:
            self.fault = cause


def work_off(files: Mapping[str, Path], runs: Runs, summary: Summary, at_once: int, signals: Signals, lines: Lines, life: Life) -> None:
    "runs what isn't done, and takes each result as it comes, until all are done or a signal came"
    begun = time.monotonic()
    total = len(files) + len(summary.records)
    with ThreadPoolExecutor(at_once) as pool:
        place = {pool.submit(runs.run, name, path): number for number, (name, path) in enumerate(files.items())}
        waiting = set(place)
        try:
            while waiting and signals.number is None:
                done, waiting = wait(waiting, PATIENCE, FIRST_COMPLETED)
                for future in sorted(done, key=place.__getitem__):
                    record = future.result()
                    summary.add(record)
                    lines.tell(record)
                now = time.monotonic()
                life.tick(now - begun, lambda: f"{len(summary.records)} of {total} done, {len(runs.running)} running{runs.waits_for(now)}")
        finally:
            for future in waiting:
                future.cancel()
            if waiting:
                runs.end()
            life.clear()


def check_words(options: argparse.Namespace) -> None:
    "words that would be wrong for each file are wrong at once"
    def refuse(message: object) -> NoReturn:
        raise Wrong(64, f"--mps2job: {message}")
    try:
        mps2job.reading_of(mps2job.parsed_options([*shlex.split(options.mps2job), "--", "MODEL.mps"], refuse), refuse)
    except ValueError as cause:
        refuse(cause)
    missing = next((name for name in options.solvers or () if not solvers.find(name)), None)
    if missing:
        raise Wrong(70, not_installed(missing))


def batch(options: argparse.Namespace, signals: Signals, life: Life) -> int:
    "runs all, and gives the exit status"
    files, out = files_of(options)
    check_words(options)
    try:
        out.mkdir(parents=True, exist_ok=True)
        if not os.access(out, os.W_OK):
            raise PermissionError(13, os.strerror(13), str(out))
        program, is_proved = a_program()
        runs, summary = Runs(program, is_proved, out.resolve(), options), Summary(out)
        kept = done_before(summary, runs, files) if options.resume else {}
        if not options.resume and (earlier := summary.keep_earlier()):
            say(f"the summary of an earlier batch is {earlier} now; --resume goes on with that batch")
        summary.begin(kept)
        if options.resume:
            say(f"{len(kept)} of {len(files)} are done already")
        signals.is_noted, lines = True, Lines()
        work_off({name: path for name, path in files.items() if name not in kept}, runs, summary, options.at_once, signals, lines, life)
        summary.end(files)
    except OSError as cause:
        raise Wrong(CANT_WRITE, f"can't write {cause.filename or out}: {cause.strerror}") from None
    except DeviceFault as cause:
        raise Wrong(CANT_WRITE, f"{cause}: the batch ends here, with {len(summary.records)} of {len(files)} done; --resume goes on with the others") from None
    if len(summary.records) < len(files):
        say(f"interrupted: {len(summary.records)} of {len(files)} are done and stand in {out}; the others are not, and --resume goes on with them")
        return INTERRUPTED
    if lines.fault:
        raise lines.fault
    return 0 if all(record["state"] == "ended" for record in summary.records.values()) else OLD_OPEN if options.old_codes else OPEN


class Words(argparse.ArgumentParser):
    "words that end the command where they are wrong"
    def error(self, message: str) -> NoReturn:
        print(f"{USAGE}: {message}", file=sys.stderr)
        sys.exit(64)


@command("mps360-batch")
def main(words: list[str] | None = None) -> int:
    "the command; its status"
    words = sys.argv[1:] if words is None else words
    errors = sys.stderr
    guard()
    parser = Words(add_help=False, allow_abbrev=False)
    parser.add_argument("-j", dest="at_once", type=counted, default=1)
    parser.add_argument("--time-limit", type=positive)
    parser.add_argument("--seconds", type=positive)
    parser.add_argument("--with", dest="solvers", type=solvers_of)
    parser.add_argument("--old-codes", action="store_true")
    parser.add_argument("--resume", action="store_true")
    parser.add_argument("--out")
    parser.add_argument("words", nargs="+")
    life = Life("mps360-batch", LINE_EACH, errors, most=LINE_EACH)
    keep_above(life)
    try:
        # (its value begins with --, which argparse takes for a word of its own)
        words, converting = taken(words, "--mps2job")
    except ValueError as cause:
        parser.error(str(cause))
    try:
        return batch(parser.parse_args(words, argparse.Namespace(mps2job=converting or "")), Signals(), life)
    except Wrong as cause:
        say(cause)
        return cause.status
    except Interrupted:
        say("interrupted before any job was run")
        return INTERRUPTED
