#!/usr/bin/env python3
"""Builds the libraries of a checkout side by side, for a machine on which rt keeps nothing between runs, and hands them on to other
checkouts: a library that was built of the same text, with all below it, isn't built again.

usage: libraries.py [--lanes N] [--only-give] [--store FOLDER] [CRATE..]
       libraries.py --rt WORD..

  CRATE..          libraries that are wanted, with all below them (all of the checkout)
  --lanes N        so many are built side by side (as many as there are processors)
  --only-give      gives what is in the store, and builds nothing
  --store FOLDER   where libraries are kept, by the sum of their text (mps360/libraries of the user's cache)
  --rt WORD..      runs rt with these words in the present folder, with a memo of its sums: in a high crate it begins at once

It runs in the present checkout. What it builds is proved, and rt check takes it; the gate takes nothing from it, and proves all from
nothing. It stands on the inside of the kit's rt (kit 13b), so another kit may want other words."""
import argparse
import contextlib
import copy
import importlib.machinery
import importlib.util
import os
import pathlib
import shutil
import sys
import time
from collections.abc import Iterable
from concurrent.futures import FIRST_COMPLETED, Future, ThreadPoolExecutor, wait
from typing import Any, NoReturn

# what a check takes at most lies between these, and is far less than rt plans for it over libraries that are cut to their statements
PLANNED, LEAST_BYTES, MOST_BYTES, MOST_OF_MEMORY = 0.08, 1_500_000_000, 4_200_000_000, 0.8


def with_memo(crate: Any) -> None:
    "has a crate list the crates below it, and sum up its text, once: rt does so for each path that leads to a crate"
    plain_below, plain_stamp, stamps = crate.below, crate.stamp, dict[str, str]()

    def below(self: Any) -> list[Any]:
        if "deps" not in self.__dict__:
            return list(plain_below(self))
        kept = self.__dict__.get("kept_below")
        if kept is None or kept[0] != len(self.deps):
            found = {it.folder: it for dep in self.deps for it in [*dep.below(), dep]}
            kept = self.__dict__["kept_below"] = (len(self.deps), list(found.values()))
        return list(kept[1])

    def stamp(self: Any) -> str:
        if self.folder not in stamps:
            stamps[self.folder] = plain_stamp(self)
        return stamps[self.folder]

    crate.below, crate.stamp = below, stamp


def rt_library() -> Any:
    "the module of the kit's rt that reads a repository and runs the prover"
    command = shutil.which("rt")
    if command is None:
        sys.exit("libraries.py: no command rt on the path")
    path = pathlib.Path(command).resolve().parent / "rtlib.py"
    loader = importlib.machinery.SourceFileLoader("rtlib", str(path))
    spec = importlib.util.spec_from_loader("rtlib", loader)
    assert spec is not None
    made = importlib.util.module_from_spec(spec)
    sys.modules["rtlib"] = made
    loader.exec_module(made)
    with_memo(made.Crate)
    return made


class Store:
    "libraries, each under its name and the sum of its text and of all below it"

    def __init__(self, folder: pathlib.Path) -> None:
        self.folder = folder
        folder.mkdir(parents=True, exist_ok=True)

    def place(self, crate: Any) -> pathlib.Path:
        return self.folder / f"{crate.name}-{crate.stamp()[:24]}"

    @staticmethod
    def shared(source: str, target: str) -> None:
        "a file under another name, or a copy of it on another disk"
        try:
            os.link(source, target)
        except OSError:
            shutil.copyfile(source, target)

    @classmethod
    def linked(cls, source: pathlib.Path, target: pathlib.Path) -> None:
        "a folder of links to the files of another one, which comes whole or not at all"
        part = target.with_name(f"{target.name}.{os.getpid()}")
        shutil.rmtree(part, ignore_errors=True)
        shutil.copytree(source, part, copy_function=cls.shared)
        try:
            part.rename(target)
        except OSError:
            shutil.rmtree(part, ignore_errors=True)

    def give(self, crate: Any) -> bool:
        "gives the checkout a library that is kept"
        if not (self.place(crate) / "stamp").is_file():
            return False
        target = pathlib.Path(crate.folder, "out/rlib")
        shutil.rmtree(target, ignore_errors=True)
        target.parent.mkdir(exist_ok=True)
        self.linked(self.place(crate), target)
        return True

    def keep(self, crate: Any) -> None:
        if not (self.place(crate) / "stamp").is_file():
            self.linked(pathlib.Path(crate.folder, "out/rlib"), self.place(crate))


def build(rtlib: Any, store: Store, crate: Any) -> bool:
    "builds a library with one job, and keeps it; what the prover says stands in out/library.log"
    begun, folder = time.monotonic(), pathlib.Path(crate.folder, "out/rlib")
    shutil.rmtree(folder, ignore_errors=True)
    folder.mkdir(parents=True)
    words = crate.words(["--jobs", "1"], keeps=False)
    with open(folder.parent / "library.log", "w+", encoding="utf-8", errors="replace") as log:
        quiet = copy.copy(crate)
        quiet.out = log
        is_well = quiet.call(rtlib.RATTLE, "build", *words, "--statements", "-o", crate.rlib) == 0
        log.seek(0)
        said = "" if is_well else f"\n{log.read()[-2000:]}"
    if is_well:
        (folder / "stamp").write_text(crate.stamp(), encoding="utf-8")
        store.keep(crate)
    print(f"{time.strftime('%H:%M:%S')} {crate.name}: {'built' if is_well else 'not built'} in {time.monotonic() - begun:.0f} s{said}", flush=True)
    return bool(is_well)


def wanted_of(rtlib: Any, names: Iterable[str]) -> list[Any]:
    "the libraries of these names with all below them, the lowest first"
    crates = [it for it in rtlib.crates_below(os.getcwd()) if it.makes_rlib()]
    asked = {it for it in names}
    unknown = asked - {it.name for it in crates}
    if unknown:
        sys.exit(f"libraries.py: no library is named {', '.join(sorted(unknown))}")
    if asked:
        tops = [it for it in crates if it.name in asked]
        folders = {it.folder for top in tops for it in [top, *top.below()]}
        crates = [it for it in crates if it.folder in folders]
    return sorted(crates, key=lambda it: len(list(it.below())))


def build_all(rtlib: Any, store: Store, left: list[Any], lanes: int) -> bool:
    "builds libraries side by side, those first that most lines wait for; one above another that failed isn't built"
    lines, memory = {it.folder: it.count(rb"\n") for it in left}, MOST_OF_MEMORY * rtlib.number_in("/proc/meminfo", r"MemAvailable:\s+(\d+)") * 1024
    behind = dict(lines)
    for crate in reversed(left):
        for it in crate.below():
            if it.folder in lines:
                behind[it.folder] = max(behind[it.folder], lines[it.folder] + behind[crate.folder])
    todo, running, failed = sorted(left, key=lambda it: -int(behind[it.folder])), dict[Future[bool], tuple[Any, float]](), set[str]()
    with ThreadPoolExecutor(lanes) as pool:
        while todo or running:
            waiting = {it.folder for it in todo} | {it.folder for it, _ in running.values()}
            for crate in list(todo):
                below, needs = {it.folder for it in crate.below()}, min(MOST_BYTES, max(LEAST_BYTES, PLANNED * crate.need()))
                if below & failed:
                    todo.remove(crate)
                    failed.add(crate.folder)
                elif not below & waiting and len(running) < lanes and (not running or sum(it for _, it in running.values()) + needs <= memory):
                    todo.remove(crate)
                    running[pool.submit(build, rtlib, store, crate)] = crate, needs
            for ended in wait(running, return_when=FIRST_COMPLETED).done:
                crate, _ = running.pop(ended)
                if not ended.result():
                    failed.add(crate.folder)
    for folder in sorted(failed):
        print(f"not there: {os.path.basename(folder)}")
    return not failed


class Words(argparse.ArgumentParser):
    "words of the command line; wrong ones end it with 64"

    def error(self, message: str) -> NoReturn:
        print(f"libraries.py: {message}\n{self.format_usage()}", end="", file=sys.stderr)
        sys.exit(64)


def main(words: list[str]) -> int:
    if words[:1] == ["--rt"]:
        return int(rt_library().main(*words[1:]))
    cache = pathlib.Path(os.environ.get("XDG_CACHE_HOME") or pathlib.Path.home() / ".cache")
    parser = Words(prog="libraries.py", usage="libraries.py [--lanes N] [--only-give] [--store FOLDER] [CRATE..] | --rt WORD..", add_help=False)
    parser.add_argument("--lanes", type=int, default=len(os.sched_getaffinity(0)))
    parser.add_argument("--only-give", action="store_true")
    parser.add_argument("--store", type=pathlib.Path, default=cache / "mps360/libraries")
    parser.add_argument("--help", action="store_true")
    parser.add_argument("names", nargs="*")
    given = parser.parse_args(words)
    if given.help:
        print(__doc__)
        return 0
    rtlib = rt_library()
    store = Store(given.store)
    rtlib.guarded()
    crates = wanted_of(rtlib, given.names)
    left = []
    for crate in crates:
        if crate.is_built():
            with contextlib.suppress(OSError):
                store.keep(crate)
        elif not store.give(crate):
            left.append(crate)
    print(f"{len(crates) - len(left)} are there, {len(left)} aren't: {' '.join(it.name for it in left) or 'none'}", flush=True)
    return 0 if given.only_give or not left or build_all(rtlib, store, left, given.lanes) else 1


if __name__ == "__main__":
    sys.exit(main(sys.argv[1:]))
