"""The program that solves and the checkers of listings that are at hand: which file, and whether it is proved.

    program = solver_program()             NoProgram where there is none
    checker = listing_checker(NAME)        mps360check, or mps360long, which reads numbers of any length; None where it isn't at hand
    checkers = checkers_at_hand(FILE)      both, each found where it is first asked for, or the one that is named
    checker = checker_to_compile(NAME)     as listing_checker finds it; where there is none, with the command that compiles it

Nothing is compiled here: of the unproved ones those count that were compiled before of the same sources, by scripts/mps360, scripts/mps360check,
scripts/mps360long or scripts/unproved.py."""
from __future__ import annotations

import functools
import hashlib
import os
import sys
from collections.abc import Callable
from dataclasses import dataclass
from typing import Literal

from mps360 import commands, programs
from mps360.errors import NoProgram

Kind = Literal["proved", "unproved", "other"]
PROGRAM, CHECKER, LONG_CHECKER = "mps360", "mps360check", "mps360long"
PROVES = commands.who_proves()


@dataclass(frozen=True)
class Tool:
    "a program: the command that gets a job on standard input, and what it is"
    command: tuple[str, ...]
    kind: Kind
    prepare: tuple[str, ...] = ()     # a command that is to run once before, and compiles it; none where that is done
    name: str = PROGRAM

    @property
    def file(self) -> str | None:
        "the program itself; None where it isn't known, since it is compiled on the way"
        if not self.prepare:
            return self.command[0]
        from mps360 import unproved
        return unproved.kept(self.name)

    @property
    def checksum(self) -> str | None:
        "the SHA-256 of the program's file"
        file = self.file
        return checksum_of(file) if file else None


def checksum_of(path: str | os.PathLike[str]) -> str | None:
    "the SHA-256 of a file, in hexadecimal; None where it can't be read"
    whole = hashlib.sha256()
    try:
        with open(path, "rb") as source:
            while part := source.read(1 << 20):
                whole.update(part)
    except OSError:
        return None
    return whole.hexdigest()


def named(file: str, name: str) -> Tool:
    "a program that is named on the command line; NoProgram where it can't be run"
    if os.path.isdir(file) or not os.access(file, os.X_OK):
        raise NoProgram(f"{file} isn't a program that can be run")
    return Tool((os.path.abspath(file),), "other", name=name)


def say_unproved(name: str) -> None:
    "a line on standard error"
    is_trial = programs.installed_program(name, programs.UNPROVED)
    how = "by the program of a trial package" if is_trial else f"by the program that was compiled of these sources before; {PROVES}"
    print(f"{name}: running UNPROVED, {how}", file=sys.stderr, flush=True)


def proved_program(name: str) -> str | None:
    "the proved program; with MPS360_UNPROVED set only one that is installed"
    return programs.proved_program(name, not os.environ.get("MPS360_UNPROVED"))


def kept_program(name: str) -> str | None:
    "the unproved program that a trial package brings, or that is compiled already"
    trial = programs.installed_program(name, programs.UNPROVED)
    if trial:
        return trial
    from mps360 import unproved
    return unproved.kept(name) if unproved.crate_of(name).is_dir() else None


def solver_program(file: str | None = None) -> Tool:
    "the program that is named, or the proved one, or the unproved one"
    if file:
        return named(file, PROGRAM)
    proved = proved_program(PROGRAM)
    if proved:
        return Tool((proved,), "proved")
    if os.environ.get("MPS360_PROVED"):
        raise NoProgram(f"no proved program is there; {PROVES}")
    kept = kept_program(PROGRAM)
    if kept:
        return Tool((kept,), "unproved")
    command = str(programs.COMMANDS / PROGRAM)
    return Tool((command,), "unproved", (command, "--make", "2"))


Finder = Callable[[], Tool | None]


class Checkers:
    "the checkers of listings: the one of 127 bits, and the one of any length. Each is found where it is first asked for; None is no checker"

    def __init__(self, find: Finder = lambda: None, find_long: Finder = lambda: None) -> None:
        self.find, self.find_long = find, find_long

    @functools.cached_property
    def short(self) -> Tool | None:
        "mps360check, or the checker that is named, which is asked whatever the length of a number"
        return self.find()

    @functools.cached_property
    def long(self) -> Tool | None:
        "mps360long; None also where another checker is named"
        return self.find_long()


def checkers_at_hand(file: str | None = None, find: Callable[[str], Tool | None] | None = None) -> Checkers:
    "the checker that is named, alone; or those that a finder finds by their names, listing_checker where no finder is given. NoProgram where the named one can't be run"
    if file:
        tool = named(file, CHECKER)
        return Checkers(lambda: tool)
    by_name = find or listing_checker
    return Checkers(functools.partial(by_name, CHECKER), functools.partial(by_name, LONG_CHECKER))


def listing_checker(name: str = CHECKER) -> Tool | None:
    "the proved checker of listings of this name, or an unproved one that is compiled already; None where there is neither"
    proved = proved_program(name)
    if proved:
        return Tool((proved,), "proved", name=name)
    kept = None if os.environ.get("MPS360_PROVED") else kept_program(name)
    return Tool((kept,), "unproved", name=name) if kept else None


def checker_to_compile(name: str = CHECKER) -> Tool | None:
    "the checker of listings that is at hand; else the unproved one, which is to be compiled first. None where it has no sources here, or unproved runs are refused"
    tool = listing_checker(name)
    if tool or not programs.may_be_compiled(name):
        return tool
    command = (str(programs.COMMANDS / "unproved.py"), "--program", name)
    return Tool(command, "unproved", (*command, "--compile"), name)
