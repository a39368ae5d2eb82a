"""Other solvers, which are asked for a basis or for an exact answer: clp, glpsol, esolver and lp_solve as programs, and HiGHS as the program highs, or
through scipy in a Python of its own.

    solver = find("clp")                                  None where it isn't installed
    request = solver.ask(plain, processes)                it begins; plain is plain.of_model(model)
    basis, text = request.basis()                         once request.process has ended; NoBasis says why there is none

Nothing that a solver says is believed: a basis is where the simplex method begins, and an exact answer goes to the checker of listings. A solver that
crashes, hangs, or writes nonsense or a basis of other names comes to NoBasis, and to nothing else.

    python3 -m mps360.solvers highs                       solves the linear program of standard input by scipy; see mps360.highs"""
from __future__ import annotations

import functools
import json
import os
import pathlib
import re
import shutil
import sys
from collections.abc import Iterable
from dataclasses import dataclass

from mps360 import bases
from mps360.bases import Basis
from mps360.errors import Refused
from mps360.plain import Plain
from mps360.processes import Process, Processes
from mps360.solver_names import NAMES, TITLES, NoBasis

LEAST_SCIPY = (1, 9)
DEBIAN_PYTHON = "/usr/bin/python3"
VERSION_SECONDS = 15.0
MODEL, WRITTEN, OPTIONS, BASIS = "plain.mps", "written", "options", "basis"
# how each tells its version, and where it stands in what it prints
VERSIONS = {"clp": (("-stop",), r"Coin LP version (\S+?),? build|Coin LP version (\S+)"), "esolver": (("-v",), r"QSopt_ex (\d\S*)"),
            "glpsol": (("--version",), r"Solver,? v?(\d\S*)"),
            "lp_solve": (("-p",), r"lp_solve version (\d[\d.]*\d)"), "highs": (("--version",), r"HiGHS version (\S+)")}
# (the package stands last on the path, so that none of its modules hides one of Python's)
RUNS_HIGHS = "import sys; sys.path.append(sys.argv[1]); from mps360.highs import main; sys.exit(main())"
ASKS_VERSION = "import importlib.metadata as m; print(m.version('scipy'))"


@dataclass(frozen=True)
class Solver:
    "a solver that is installed, and what calls it"
    name: str
    command: tuple[str, ...]
    by_scipy: bool = False

    @property
    def title(self) -> str:
        "its name as people write it"
        return TITLES.get(self.name, self.name)

    def ask(self, plain: Plain, processes: Processes) -> Request:
        "begins to solve a model, for a basis; OSError where the solver can't be run"
        if self.by_scipy:
            return Request(self, plain, processes.start(self.command, plain.as_json(), keeps=True))
        words = {"clp": (MODEL, "-solve", "-basisOut", WRITTEN), "esolver": ("-b", WRITTEN, MODEL), "glpsol": ("--freemps", MODEL, "-w", WRITTEN),
                 "lp_solve": ("-fmps", MODEL, "-S1", "-wbas", WRITTEN), "highs": ("--solution_file", WRITTEN, "--options_file", OPTIONS, MODEL)}[self.name]
        files = {MODEL: plain.text.encode("ascii"), OPTIONS: b"write_solution_to_file = true\nwrite_solution_style = 0\n"}
        return Request(self, plain, processes.start((*self.command, *words), files=files, keeps=False))

    def ask_exactly(self, plain: Plain, processes: Processes, start: str = "") -> Request:
        "begins to solve a model in exact fractions, from a basis of the plain model where one is given; only esolver can"
        files = {MODEL: plain.text.encode("ascii"), "start": start.encode("ascii")}
        begin = ("-B", "start") if start else ()
        return Request(self, plain, processes.start((*self.command, *begin, "-b", BASIS, "-O", WRITTEN, MODEL), files=files, keeps=False))

    @functools.cached_property
    def version(self) -> str:
        "its version as it tells it, such as 1.17.6; for HiGHS by scipy scipy's; empty where it tells none"
        if self.by_scipy:
            return f"of scipy {scipy_version(self.command[0])}"
        words, pattern = VERSIONS[self.name]
        found = re.search(pattern, said_by((*self.command, *words)))
        return next((group for group in found.groups() if group), "") if found else ""

    def __str__(self) -> str:
        return f"{self.title} {self.version}".strip()


@dataclass
class Request:
    "a solver that was asked"
    solver: Solver
    plain: Plain
    process: Process

    def written(self, name: str = WRITTEN) -> str:
        "what it wrote; NoBasis where that is nothing"
        path = self.process.room / name
        try:
            data = self.process.printed() if self.solver.by_scipy else path.read_bytes() if path.exists() else b""
        except OSError as cause:
            raise NoBasis(f"what it wrote can't be read: {cause.strerror}") from None
        if not data:
            raise NoBasis(f"it wrote nothing{self.ending()}" if name != WRITTEN or self.solver.by_scipy else f"it wrote no basis{self.ending()}")
        if len(data) > bases.MOST_TEXT:
            raise NoBasis(f"it wrote more than {bases.MOST_TEXT:,} bytes")
        return data.decode("latin-1")

    def ending(self) -> str:
        "how it ended, where that tells something"
        status = self.process.status
        return "" if not status else f"; signal {-status} ended it" if status < 0 else f"; it ended with {status}"

    def basis(self) -> tuple[Basis, str]:
        "the basis at which it ended, by the names of the model, and the text that it wrote"
        text = self.written()
        try:
            if self.solver.by_scipy:
                return self.of_values(text), ""
            if self.solver.name == "highs":
                from mps360 import highs_files
                return self.plain.back(highs_files.read_basis(text, self.plain.model)), text
            return self.plain.back(bases.read_text(text, self.plain.model, self.solver.name)), text
        except Refused as cause:
            raise NoBasis(str(cause).split("\n", maxsplit=1)[0]) from None

    def exact_basis(self) -> Basis | None:
        "the basis that esolver wrote beside its exact answer, by the names of the model; None where it wrote none of use"
        try:
            return self.plain.back(bases.read_text(self.written(BASIS), self.plain.model, self.solver.name))
        except (NoBasis, Refused):
            return None

    def of_values(self, text: str) -> Basis:
        "the basis of what mps360.highs prints"
        from mps360 import value_bases
        model, plain = self.plain.source, self.plain
        try:
            found = json.loads(text)
            if found["status"] != 0:
                raise NoBasis(f"it says {str(found['message'])[:80]}")
            rows, columns = ([(float(value), float(price)) for value, price in zip(*found[key], strict=True)] for key in ("rows", "columns"))
            return value_bases.of_values(model, dict(zip(plain.rows, rows, strict=True)), dict(zip(plain.columns, columns, strict=True)))
        except (ValueError, KeyError, TypeError, RecursionError):
            raise NoBasis(f"what it printed isn't an answer{self.ending()}") from None


# ---- finding them

def find(name: str) -> Solver | None:
    "a solver by one of NAMES, or None where it isn't installed"
    path = shutil.which(name)
    if path:
        return Solver(name, (os.path.abspath(path),))
    return scipy_highs() if name == "highs" else None


def installed(names: Iterable[str] = NAMES) -> list[Solver]:
    "those of these solvers that are installed, in this order"
    return [solver for name in names if (solver := find(name))]


def scipy_highs() -> Solver | None:
    "HiGHS by the first Python that has scipy 1.9 or later: the one that runs, else Debian's own"
    import importlib.util
    for python in dict.fromkeys((sys.executable, DEBIAN_PYTHON)):
        if python == sys.executable and importlib.util.find_spec("scipy") is None or not os.access(python, os.X_OK):
            continue
        version = tuple(int(part) for part in re.findall(r"\d+", scipy_version(python))[:2])
        if version >= LEAST_SCIPY:
            return Solver("highs", (python, "-c", RUNS_HIGHS, str(pathlib.Path(__file__).resolve().parent.parent)), by_scipy=True)
    return None


@functools.lru_cache
def scipy_version(python: str) -> str:
    "the version of scipy that a Python has, as 1.10.1; empty where it has none"
    return said_by((python, "-I", "-c", ASKS_VERSION)).strip() if os.access(python, os.X_OK) else ""


def said_by(command: tuple[str, ...]) -> str:
    "what a command prints, which has a few seconds for it; empty where it can't be run"
    with Processes() as processes:
        try:
            process = processes.start(command)
        except OSError:
            return ""
        ended = processes.wait([process], process.started + VERSION_SECONDS)
        text = process.printed() + process.said.read_bytes()
        return text.decode("latin-1") if ended else ""


def main(words: list[str]) -> int:
    "python3 -m mps360.solvers highs"
    if words != ["highs"]:
        print("usage: python3 -m mps360.solvers highs <PROBLEM.json", file=sys.stderr)
        return 64
    from mps360 import highs
    return highs.main()


if __name__ == "__main__":
    sys.exit(main(sys.argv[1:]))
