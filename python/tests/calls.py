"How tests call commands."
import contextlib
import functools
import io
import pathlib
import subprocess
import sys


@functools.cache
def is_python(path):
    "whether a file is a Python script, by its first line"
    with open(path, "rb") as file:
        return b"python3" in file.readline(100)


def words_of(*words):
    "the words that call a command; a Python script is run by the Python that runs the test"
    words = [str(word) for word in words]
    return [*([sys.executable] if pathlib.Path(words[0]).is_file() and is_python(words[0]) else []), *words]


def call(*words, timeout=300, **more):
    "what a command came to: its status, and as bytes what it prints and says"
    return subprocess.run(words_of(*words), capture_output=True, timeout=timeout, check=False, **more)


def called(module, *words):
    "the status of a command, what it prints, and what it says on standard error"
    out, told = io.StringIO(), io.StringIO()
    with contextlib.redirect_stdout(out), contextlib.redirect_stderr(told):
        try:
            status = module.main([str(word) for word in words])
        except SystemExit as end:
            status = end.code
    return status, out.getvalue(), told.getvalue()
