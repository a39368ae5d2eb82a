"The solvers that may be asked for a basis, by name: what a command needs to know of them before one is asked."

# the Debian package of each
PACKAGES = {"highs": "python3-scipy", "clp": "coinor-clp", "esolver": "qsopt-ex", "glpsol": "glpk-utils", "lp_solve": "lp-solve"}
NAMES = tuple(PACKAGES)   # the order in which they are asked
TITLES = {"highs": "HiGHS"}
EXACT_SOLVER = "esolver"   # the one that answers in exact fractions


class NoBasis(Exception):
    "why a solver has given no basis, or no exact answer"


def not_installed(name: str) -> str:
    "that a solver isn't installed, and which package has it"
    return f"{TITLES.get(name, name)} isn't installed (apt-get install {PACKAGES[name]})"
