"Programs that tests run in place of the proved ones: the independent readings of the rules, as commands."
import os
import pathlib
import sys

import places


def solver(folder):
    "a program that prints a job's listing, as the readings apart have it: MPS360_PROGRAM where that is named"
    if "MPS360_PROGRAM" in os.environ:
        return os.environ["MPS360_PROGRAM"]
    return command(folder, "oracle-program", "listing --punch PUNCH")


def checker(folder, words=""):
    "a checker of listings, of the job on standard input and the file LISTING; with the word --long by the rules of mps360long"
    if "MPS360_CHECKER" in os.environ and not words:
        return os.environ["MPS360_CHECKER"]
    return command(folder, f"oracle-checker{words}", f"attesting {words} --as-program")


def command(folder, name, words):
    return script(folder, name, f"exec {sys.executable} {places.ORACLE} {words}\n")


def script(folder, name, text):
    "an executable shell script of this name in a folder, and its path"
    path = pathlib.Path(folder, name)
    path.write_text(f"#!/bin/sh\n{text}", encoding="utf-8")
    path.chmod(0o755)
    return str(path)
