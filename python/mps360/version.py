"Which version of the programs and commands this is: in a clone the commit, installed what scripts/install.sh wrote down."
from __future__ import annotations

import os
import subprocess

from mps360 import commands


def version() -> str:
    "the version in a few words; that it isn't known, where neither git nor the installed file tells"
    if commands.IS_INSTALLED:
        try:
            with open(os.path.join(commands.TOP, "version"), encoding="utf-8") as source:
                return source.read().strip().removeprefix("mps360 ").partition(",")[0] or "of unknown version"
        except (OSError, ValueError):
            return "of unknown version"
    try:
        told = subprocess.run(["git", "-C", commands.TOP, "describe", "--always", "--dirty"], capture_output=True, text=True, timeout=5, check=False)
    except (OSError, subprocess.SubprocessError):
        return "of unknown commit"
    return f"commit {told.stdout.strip()}" if told.returncode == 0 and told.stdout.strip() else "of unknown commit"
