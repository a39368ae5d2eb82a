"What the commands and the documents are called here: in a clone scripts/solve and docs/FAULTS.md, installed mps360-solve and a path below share."
import os
import re

# the repository, or the folder where the commands are installed
TOP = os.path.dirname(os.path.dirname(os.path.dirname(os.path.realpath(__file__))))
IS_INSTALLED = any(os.path.exists(os.path.join(TOP, name)) for name in ("program", "program.unproved"))
DOCUMENTS = os.path.join(os.path.dirname(os.path.dirname(TOP)), "share/doc/mps360") if IS_INSTALLED else "docs"
# commands that are installed by another name than that of the file without its ending
INSTALLED = {"attest": "mps360-attest", "explain": "mps360-explain", "plot_parametric.py": "mps360-plot", "prove": "mps360-prove", "solve": "mps360-solve"}


# where a proved program comes from: in a clone of its build, installed of another package
IN_A_CLONE, INSTALLED_HERE = "scripts/build.sh proves and builds it, in some 25 minutes", "a package made of a proved build has the proved one"


def who_proves(in_a_clone: str = IN_A_CLONE) -> str:
    "where the proved program comes from; words for a clone, which has scripts/build.sh"
    return INSTALLED_HERE if IS_INSTALLED else in_a_clone


def called(name: str) -> str:
    "what a command of scripts/ is called here, by the name of its file there"
    return INSTALLED.get(name, name.removesuffix(".py")) if IS_INSTALLED else f"scripts/{name}"


def here(text: str) -> str:
    "a text that names commands and documents as a clone has them, with the names that they have here"
    if not IS_INSTALLED:
        return text
    text = re.sub(r"\bscripts/([a-z][a-z0-9_-]*(?:\.py|\.sh)?)", lambda found: called(found[1]), text)
    return re.sub(r"\bdocs/(?=\w)", lambda _: f"{DOCUMENTS}/", text)
