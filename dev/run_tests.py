#!/usr/bin/env python3
"""Runs the tests of python/tests, several files at once: by pytest where a python3 has it, else by dev/plain_tests.py, which gives the little of pytest
that they use.

usage: run_tests.py [-j N] [FILE..]      without FILE all; N files at once, as many as there are processors without it

It prints how many tests came to what, and of a file with a failure what pytest says. Ends with 0, with 1 where a test fails, with 64 for wrong use."""
import argparse
import collections
import os
import pathlib
import re
import shutil
import signal
import subprocess
import sys
import time
from concurrent.futures import ThreadPoolExecutor
from typing import NoReturn

TOP = pathlib.Path(__file__).resolve().parents[1]
TESTS, PLAIN = TOP / "python/tests", TOP / "dev/plain_tests.py"
COUNTS = re.compile(r"(\d+) (passed|failed|skipped|errors?)")
MOST_LINES = 80


def runner() -> list[str]:
    "what runs a file of tests"
    for python in dict.fromkeys((sys.executable, "/usr/bin/python3", shutil.which("python3"))):
        if python and subprocess.run([python, "-c", "import pytest"], capture_output=True, check=False).returncode == 0:
            return [python, "-m", "pytest", "-q", "--no-header", "-p", "no:cacheprovider"]
    return [sys.executable, str(PLAIN)]


def outcome(words: list[str], path: pathlib.Path) -> tuple[pathlib.Path, int, str, float]:
    "a file's tests: the status, what was printed and the seconds"
    begun = time.monotonic()
    ended = subprocess.run([*words, str(path)], cwd=TOP, stdin=subprocess.DEVNULL, stdout=subprocess.PIPE, stderr=subprocess.STDOUT, check=False)
    return path, ended.returncode, ended.stdout.decode(errors="replace"), time.monotonic() - begun


class Parser(argparse.ArgumentParser):
    "wrong use is told in a line, and ends with 64"

    def error(self, message: str) -> NoReturn:
        print(f"run_tests.py: {message}", file=sys.stderr)
        sys.exit(64)


def main(words: list[str]) -> int:
    parser = Parser(add_help=False, allow_abbrev=False)
    parser.add_argument("-j", dest="at_once", type=int, default=os.cpu_count() or 1)
    parser.add_argument("files", nargs="*", type=pathlib.Path)
    if any(word in ("-h", "--help") for word in words):
        print(__doc__)
        return 0
    options = parser.parse_args(words)
    # (a shell that starts this in the background has it ignore Ctrl-C, and all that it starts)
    signal.signal(signal.SIGINT, signal.default_int_handler)
    # the longest texts first, so that the last processes don't wait for one of them
    every = sorted(TESTS.glob("test_*.py"), key=lambda path: path.stat().st_size, reverse=True)
    files: list[pathlib.Path] = options.files or every
    begun, runs, counts, failed = time.monotonic(), runner(), collections.Counter[str](), False
    with ThreadPoolExecutor(max(1, options.at_once)) as pool:
        for path, status, told, seconds in pool.map(lambda path: outcome(runs, path), files):
            lines = told.rstrip("\n").split("\n")
            counts.update({word.rstrip("s"): int(number) for number, word in COUNTS.findall(lines[-1])})
            if status:
                failed = True
                print("\n".join([*lines[-MOST_LINES:], f"run_tests.py: {path.name} fails, after {seconds:.0f} s"]), file=sys.stderr, flush=True)
    by = "pytest" if "pytest" in runs else "plain_tests.py"
    print(f"run_tests.py: {', '.join(f'{number} {word}' for word, number in counts.items())}, in {len(files)} files by {by}, {time.monotonic() - begun:.0f} s")
    return 1 if failed else 0


if __name__ == "__main__":
    sys.exit(main(sys.argv[1:]))
