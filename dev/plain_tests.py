#!/usr/bin/env python3
"""Runs the tests of python/tests where pytest isn't there. Tests use no more of pytest than this gives: mark.parametrize, raises, skip, the
fixture tmp_path, and fixtures without scope, in the file of the tests or in conftest.py.

usage: plain_tests.py [--count] [FILE..]      without FILE all; --count tells alone how many there are

Ends with 1 where a test fails, with 64 for wrong use."""
import contextlib
import importlib
import inspect
import itertools
import pathlib
import re
import sys
import tempfile
import traceback
import types
from collections.abc import Callable, Iterator
from typing import Any

PYTHON = pathlib.Path(__file__).resolve().parents[1] / "python"
TESTS = PYTHON / "tests"
Test = Callable[..., Any]
Values = dict[str, Any]


class Skipped(Exception):
    "the test is left out, for this reason"


class Raised:
    "what pytest.raises gives: the exception that was met"
    value: BaseException


def skip(reason: str = "") -> None:
    "leaves the test out that runs now"
    raise Skipped(reason)


@contextlib.contextmanager
def raises(kinds: Any, match: str | None = None) -> Iterator[Raised]:
    "holds where the block raises one of these, whose words match"
    raised = Raised()
    try:
        yield raised
    except kinds as cause:
        raised.value = cause
        if match is not None and not re.search(match, str(cause)):
            raise AssertionError(f"{str(cause)!r} doesn't match {match!r}") from cause
    else:
        raise AssertionError(f"{kinds} isn't raised")


def parametrize(names: str, rows: Any) -> Callable[[Test], Test]:
    "runs the test once for each row of values"
    def marked(test: Test) -> Test:
        keys = [name.strip() for name in names.split(",")]
        cases = [dict(zip(keys, row if len(keys) > 1 else (row,))) for row in rows]
        setattr(test, "cases", [*getattr(test, "cases", []), cases])
        return test
    return marked


def fixture(made: Test) -> Test:
    "marks a function whose value, or whose one yielded value, tests get by its name"
    setattr(made, "is_fixture", True)
    return made


def stand_in() -> types.ModuleType:
    "the module that tests import as pytest"
    module = types.ModuleType("pytest")
    vars(module).update(skip=skip, raises=raises, fixture=fixture, mark=types.SimpleNamespace(parametrize=parametrize))
    return module


def cases_of(test: Test) -> Iterator[Values]:
    "the values of each run of a test"
    for chosen in itertools.product(*getattr(test, "cases", [])):
        yield {name: value for case in chosen for name, value in case.items()}


def given(name: str, fixtures: dict[str, Test], stack: contextlib.ExitStack) -> Any:
    "the value of a fixture, which is ended when the test is"
    if name == "tmp_path":
        return pathlib.Path(stack.enter_context(tempfile.TemporaryDirectory()))
    value = fixtures[name](**{word: given(word, fixtures, stack) for word in inspect.signature(fixtures[name]).parameters})
    if not inspect.isgenerator(value):
        return value

    def going_on() -> Iterator[Any]:
        yield from value

    return stack.enter_context(contextlib.contextmanager(going_on)())


def outcome(test: Test, values: Values, fixtures: dict[str, Test]) -> str:
    "what a run of a test came to: ok, skipped or failed"
    try:
        with contextlib.ExitStack() as stack:
            wanted = [name for name in inspect.signature(test).parameters if name not in values]
            test(**values, **{name: given(name, fixtures, stack) for name in wanted})
    except Skipped:
        return "skipped"
    except Exception:  # pylint: disable=broad-exception-caught
        print(f"plain_tests: {test.__module__}.{test.__name__} {values or ''}\n{traceback.format_exc()}", file=sys.stderr)
        return "failed"
    return "ok"


def fixtures_of(name: str) -> dict[str, Test]:
    "the fixtures of a module"
    return {key: made for key, made in vars(importlib.import_module(name)).items() if getattr(made, "is_fixture", False)}


def main(words: list[str]) -> int:
    "runs the tests, and tells how many came to what"
    if any(word.startswith("-") and word != "--count" for word in words):
        print(__doc__)
        return 0 if words[0] in ("-h", "--help") else 64
    sys.path[:0] = [str(TESTS), str(PYTHON), str(PYTHON.parent / "dev")]
    sys.modules["pytest"] = stand_in()
    files = [pathlib.Path(word) for word in words if word != "--count"] or sorted(TESTS.glob("test_*.py"))
    shared = fixtures_of("conftest") if (TESTS / "conftest.py").exists() else {}
    counts = {"ok": 0, "skipped": 0, "failed": 0}
    for path in files:
        module = importlib.import_module(path.stem)
        for name, test in list(vars(module).items()):
            if name.startswith("test_") and inspect.isfunction(test):
                for values in cases_of(test):
                    counts["ok" if "--count" in words else outcome(test, values, shared | fixtures_of(path.stem))] += 1
    print(f"plain_tests: {sum(counts.values())} tests" if "--count" in words else f"plain_tests: {counts['ok']} passed, {counts['skipped']} skipped, {counts['failed']} failed")
    return 1 if counts["failed"] else 0


if __name__ == "__main__":
    sys.exit(main(sys.argv[1:]))
