"The parser of a command's words, and how wrong use ends it."
from __future__ import annotations

import argparse
import sys
from collections.abc import Callable
from typing import NoReturn

WRONG_USE = 64


class Parser(argparse.ArgumentParser):
    "parses the words of a command; wrong use is told by refuse, which ends the command"

    def __init__(self, refuse: Callable[[str], NoReturn], allow_abbrev: bool = False) -> None:
        super().__init__(add_help=False, allow_abbrev=allow_abbrev)
        self.refuse = refuse

    def error(self, message: str) -> NoReturn:
        self.refuse(message)


def ending(say: Callable[[str], object]) -> Callable[[str], NoReturn]:
    "tells wrong use, and ends the command with 64"
    def refuse(message: str) -> NoReturn:
        say(message)
        sys.exit(WRONG_USE)
    return refuse
