"Which modules import which: the package and the oracle share nothing, commands alone meet the words of a command line, and a start is light."
import ast
import pathlib
import subprocess
import sys
from collections.abc import Iterator

import pytest

import places

PACKAGES = ("mps360", "oracle")
# what an answer in text doesn't need: loaded where it is used, since each costs time at every start
HEAVY = ("gzip", "csv", "html", "textwrap", "mps360.jobs.decks", "mps360.pages")
# what only an extra of the package needs, in a child process or in a module of its own
EXTRAS = {"scipy", "numpy", "pulp"}


def modules(package: str) -> list[pathlib.Path]:
    "the files of a package"
    return sorted((places.PYTHON / package).rglob("*.py"))


def imported(path: pathlib.Path) -> Iterator[str]:
    "the modules that a file imports, anywhere in it"
    for node in ast.walk(ast.parse(path.read_text(encoding="utf-8"))):
        if isinstance(node, ast.Import):
            yield from (alias.name for alias in node.names)
        elif isinstance(node, ast.ImportFrom) and node.module:
            assert node.level == 0, f"{path}: an import that doesn't name its package"
            yield node.module


def used(path: pathlib.Path) -> set[str]:
    "the names with a point that a file uses, as sys.argv"
    return {f"{node.value.id}.{node.attr}" for node in ast.walk(ast.parse(path.read_text(encoding="utf-8")))
            if isinstance(node, ast.Attribute) and isinstance(node.value, ast.Name)}


@pytest.mark.parametrize("package", PACKAGES)
def test_packages_are_apart(package: str) -> None:
    "each package imports of this repository itself alone"
    others = {path.stem for path in [*places.TESTS.glob("*.py"), *places.DEV.rglob("*.py")]} | set(PACKAGES) - {package}
    assert len(modules(package)) > 5
    for path in modules(package):
        roots = {name.partition(".")[0] for name in imported(path)}
        assert not roots & others, path
        assert roots - {package} - EXTRAS <= sys.stdlib_module_names, path


def test_checker_of_certificates_is_one_file() -> None:
    "oracle/vipr.py is installed by itself, so it imports Python's own library alone"
    assert {name.partition(".")[0] for name in imported(places.PYTHON / "oracle/vipr.py")} <= sys.stdlib_module_names


def test_commands_alone_meet_the_command_line() -> None:
    "argparse, sys.argv and handlers of signals stand in cli; solvers.py is called as a child process too, and output.py answers --help for each command"
    for path in modules("mps360"):
        if path.parent.name != "cli" and path.name != "solvers.py":
            assert "argparse" not in set(imported(path)), path
            assert not used(path) & ({"signal.signal"} if path.name == "output.py" else {"sys.argv", "signal.signal"}), path


@pytest.mark.parametrize("module", ["mps360", "mps360.cli.solve"])
def test_a_start_is_light(module: str) -> None:
    "to import a module loads nothing that an answer doesn't need"
    told = subprocess.run([sys.executable, "-I", "-S", "-c", f"import sys; sys.path.insert(0, {str(places.PYTHON)!r}); import {module}; print(*sys.modules)"],
                          capture_output=True, text=True, check=True)
    loaded = set(told.stdout.split())
    assert module in loaded
    assert not loaded & set(HEAVY)
