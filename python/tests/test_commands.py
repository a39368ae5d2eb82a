"Each command says what it is in lines of 79 columns, with each option that it takes; manual pages and completions are made of that."
import argparse
import functools
import importlib
import pathlib
import re
import shutil
import subprocess
import sys
import tempfile

import places
import pytest

sys.path.insert(0, str(places.TOP / "packaging"))
import manuals  # noqa: E402

from mps360 import commands, help_text  # noqa: E402

FILES = dict(line.split() for line in (places.TOP / "packaging/commands.txt").read_text().splitlines() if not line.startswith("#"))
# the modules whose words a parser of argparse reads
PARSED = {"solve": "solve", "prove": "prove", "mps360-batch": "batch", "mps2job": "mps2job", "listing2json": "listing2json", "listing2html": "listing2html",
          "mps360-plot": "plot_parametric", "basis2deck": "basis2deck", "listing2vipr": "listing2vipr", "vipr2listing": "vipr2listing"}
# of what stands for a value, the same word means the same in each command
SHARED = {"--seconds": {"S"}, "--names": {"MAP"}, "--keep": {"FOLDER"}, "--with": {"SOLVER,.."}, "--life": {"S"}, "--program": {"FILE"}, "--json": {""},
          "--from": {"WRITER"}, "--listing": {"LISTING"}, "--mps2job": {"WORDS"}}


def said(file, *words):
    "what a command says"
    return subprocess.run([places.TOP / "scripts" / file, *words], capture_output=True, text=True, timeout=60, check=True, stdin=subprocess.DEVNULL).stdout


class Captured(Exception):
    "the parser of a command"


def parser_of(module):
    "the options that a command's parser takes"
    def capture(parser, *_, **__):
        raise Captured(parser)
    main = importlib.import_module(f"mps360.cli.{module}").main
    before = argparse.ArgumentParser.parse_known_args, argparse.ArgumentParser.parse_args
    argparse.ArgumentParser.parse_known_args = argparse.ArgumentParser.parse_args = capture
    try:
        main(["x", "y"])
    except Captured as captured:
        return captured.args[0]
    finally:
        argparse.ArgumentParser.parse_known_args, argparse.ArgumentParser.parse_args = before
    raise AssertionError(f"{module}: no parser read the words")


@functools.lru_cache(maxsize=None)
def all_commands():
    return {command.name: command for command in manuals.commands_of(places.TOP / "scripts", "")}


@functools.lru_cache(maxsize=None)
def written():
    "the folder of the pages and completions, which goes when the tests end"
    folder = tempfile.TemporaryDirectory(prefix="mps360-")
    manuals.write(list(all_commands().values()), pathlib.Path(folder.name), "mps360 of a test")
    return folder


@pytest.mark.parametrize("file", [*FILES, "unproved.py", "build.sh", "install.sh", "program.sh"])
def test_lines_of_help(file):
    lines = said(file, "--help").splitlines()
    assert lines and max(map(len, lines)) <= help_text.WIDTH, [line for line in lines if len(line) > help_text.WIDTH]
    if file in FILES:
        version = said(file, "--version")
        assert version.startswith(file) and version.count("\n") == 1, version
    if file.endswith(".sh"):
        return
    text = said(file, "--help").rstrip("\n")
    assert help_text.parts_of(help_text.wrapped(text)) == help_text.parts_of(text), "the text is read as it is written"


def test_names_that_are_installed():
    assert commands.INSTALLED == {file: name for file, name in FILES.items() if name != file.removesuffix(".py")}


@pytest.mark.parametrize("name", PARSED)
def test_help_has_each_option(name):
    parser = parser_of(PARSED[name])
    command = all_commands().get(name) or all_commands()[f"mps360-{name}"]
    taken = {word: action for action in parser._actions for word in action.option_strings}
    told = {word: option for option in command.options for word in option.words}
    # (what is read before the parser, or handed on to mps2job)
    handed_on = {"solve": {"--max", "--min", "--ranging", "--serve"}, "mps360-batch": {"--mps2job"}}.get(name, set())
    assert set(told) - {"--help", "--version"} - handed_on == set(taken), (name, set(told) ^ set(taken))
    for word, action in taken.items():
        takes_value = action.nargs != 0
        assert bool(told[word].value) == takes_value, f"{name} {word}: whether it has a value"
        if action.choices and told[word].choices:
            assert told[word].choices == list(map(str, action.choices)), f"{name} {word}: its values"


def test_shared_words():
    values = {}
    for command in all_commands().values():
        for option in command.options:
            for word in option.words:
                values.setdefault(word, set()).add(option.value)
    assert {word: values[word] for word in SHARED} == SHARED
    assert all(re.fullmatch(r"--[a-z][a-z0-9-]*|-[jo]", word) for word in values)


def test_pages_and_completions():
    share = pathlib.Path(written().name, "share")
    pages = sorted(path.name for path in (share / "man/man1").iterdir())
    assert pages == sorted(f"{name}.1" for name in FILES.values())
    for page in pages:
        text = (share / "man/man1" / page).read_text()
        assert all(f".SH {title}\n" in text for title in ("NAME", "SYNOPSIS", "DESCRIPTION", "EXIT STATUS")), page
        if shutil.which("man"):
            ended = subprocess.run(["man", "--warnings", "-l", share / "man/man1" / page], capture_output=True, timeout=60, check=False)
            assert ended.returncode == 0 and not ended.stderr, (page, ended.stderr)
    for shell, path in (("bash", "bash-completion/completions/mps360-solve"), ("zsh", "zsh/site-functions/_mps360"), ("fish", "fish/vendor_completions.d/mps360-solve.fish")):
        if shutil.which(shell):
            subprocess.run([shell, "-n", share / path], check=True, timeout=60)


def test_completion_in_bash(tmp_path):
    "what bash offers: options, the values of one, files"
    for words, wanted in ((("mps2job", "--neg"), "--negative-up"), (("mps2job", "--negative-up", "f"), "free"), (("mps360-solve", "--only", "b"), "basis"),
                          (("mps360-solve", "diet"), "diet.mps")):
        (tmp_path / "diet.mps").touch()
        script = f"source {written().name}/share/bash-completion/completions/{words[0]}; COMP_WORDS=({' '.join(words)}); COMP_CWORD={len(words) - 1}; " \
                 f"$(complete -p {words[0]} | sed 's/.*-F \\([^ ]*\\) .*/\\1/'); echo \"${{COMPREPLY[@]}}\""
        ended = subprocess.run(["bash", "-c", script], cwd=tmp_path, capture_output=True, text=True, timeout=60, check=True)
        assert ended.stdout.strip() == wanted, (words, ended)


def test_what_packages_are_made_of():
    "the files are there, and the scripts can be read; dev/check.sh builds no package"
    packaging = places.TOP / "packaging"
    for name in ("build_packages.sh", "try_packages.sh", "../scripts/install.sh"):
        subprocess.run(["bash", "-n", packaging / name], check=True, timeout=60)
    assert {path.name for path in (packaging / "debian").iterdir()} >= {"control", "copyright", "rules", "source"}
    control = (packaging / "debian/control").read_text()
    assert control.count("\n@STATE@\n") == 2 and control.count("@SHORT@") == 2
    assert all((places.TOP / "scripts" / file).exists() for file in FILES)
