"""Linear programs solved, proved and attested in exact fractions, by the programs mps360 and mps360check.

    import mps360
    model = mps360.read_mps("plan.mps")
    answer = mps360.solve(model)
    answer.status, answer.objective, answer.columns["doors"].activity      Fractions, proved where answer.proved

docs/PYTHON.md has the whole. Each name is imported where it is first asked for, so that a command loads what it needs alone."""
import importlib
import sys
from typing import TYPE_CHECKING

if TYPE_CHECKING:
    from mps360.answer import Answer, Column, Interval, Ray, Row
    from mps360.api import Attestation, Life, Solution, attest, prove, read_basis, read_mps, read_solution, solve
    from mps360.bases import Basis
    from mps360.errors import CantRun, Error, NoProgram, Refused
    from mps360.listings.read import NoListing
    from mps360.model import Model
    from mps360.routes import Tried

PLACES = {
    "mps360.answer": ("Answer", "Column", "Interval", "Ray", "Row"),
    "mps360.api": ("Attestation", "Life", "Solution", "attest", "prove", "read_basis", "read_mps", "read_solution", "solve"),
    "mps360.bases": ("Basis",), "mps360.errors": ("CantRun", "Error", "NoProgram", "Refused"), "mps360.listings.read": ("NoListing",),
    "mps360.model": ("Model",), "mps360.routes": ("Tried",),
}
WHERE = {name: place for place, names in PLACES.items() for name in names}
# The numbers of an answer have up to numbers.MOST_DIGITS digits above and below the line, and what comes of several has more. Python makes no number of
# more than 4,300 digits, and no text of one, unless its limit is raised, for the whole process.
MOST_MADE_DIGITS = 1_000_000
if hasattr(sys, "set_int_max_str_digits") and 0 < sys.get_int_max_str_digits() < MOST_MADE_DIGITS:
    sys.set_int_max_str_digits(MOST_MADE_DIGITS)
__all__ = ["Answer", "Attestation", "Basis", "CantRun", "Column", "Error", "Interval", "Life", "Model", "NoListing", "NoProgram", "Ray", "Refused", "Row",
           "Solution", "Tried", "attest", "prove", "read_basis", "read_mps", "read_solution", "solve"]


def __getattr__(name: str) -> object:
    if name not in WHERE:
        raise AttributeError(f"module 'mps360' has no attribute {name!r}")
    return getattr(importlib.import_module(WHERE[name]), name)


def __dir__() -> list[str]:
    return sorted([*globals(), *WHERE])
