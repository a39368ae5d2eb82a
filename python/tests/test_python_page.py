"The commands and the snippets of docs/PYTHON.md, by stand-ins for the proved program and the checker."
import os
import re
import shutil
import subprocess
import sys

import places
import programs_at_hand
import pytest

PAGE = (places.TOP / "docs/PYTHON.md").read_text(encoding="utf-8")
BLOCKS = re.findall(r"^```(\w+)\n(.*?)^```", PAGE, re.M | re.S)
# whoever runs the snippets has a proved program; here another one is named
PRELUDE = """
import functools, sys
sys.path.insert(0, {python!r})
import mps360
mps360.solve = functools.partial(mps360.solve, program={program!r})
"""
PULP = """
import mps360.pulp
mps360.pulp.MPS360 = functools.partial(mps360.pulp.MPS360, program={program!r})
"""
WRONG = "NAME T\nROWS\n N COST\nCOLUMNS\n X COST 1\n Y COST PROFIT 2\nENDATA\n".replace(" Y COST PROFIT 2", " Y      PROFIT 2")


def house(tmp_path):
    "a folder with the examples, the commands and the package, where the stand-ins are the proved programs"
    for name in ("scripts", "python/mps360"):
        shutil.copytree(places.TOP / name, tmp_path / name, ignore=shutil.ignore_patterns("__pycache__"))
    shutil.copytree(places.EXAMPLES, tmp_path / "examples")
    (tmp_path / "examples/no-such-row.mps").write_text(WRONG, encoding="ascii")
    (tmp_path / "plan.sol").write_text("status OPTIMAL\n\tValue = 36\nVARS:\ndoors = 2\nwindows = 6\nREDUCED COST:\nPI:\nplant_2_hours = 3/2\nplant_3_hours = 1\nSLACK:\n",
                                       encoding="ascii")
    shutil.copy(programs_at_hand.solver(tmp_path), tmp_path / "scripts/program")
    shutil.copy(programs_at_hand.checker(tmp_path), tmp_path / "scripts/check")
    return tmp_path


def test_the_page_has_what_is_tried():
    "four snippets and two commands at least"
    kinds = [kind for kind, _ in BLOCKS]
    assert kinds.count("python") >= 4 and kinds.count("sh") >= 2


@pytest.mark.parametrize("number", [k for k, (kind, _) in enumerate(BLOCKS) if kind == "python"])
def test_snippets(tmp_path, number):
    "each runs by itself"
    text = BLOCKS[number][1]
    if "import pulp" in text and subprocess.run([sys.executable, "-c", "import pulp"], capture_output=True, check=False).returncode:
        pytest.skip("PuLP isn't installed")
    words = {"python": str(places.PYTHON), "program": programs_at_hand.solver(tmp_path)}
    program = PRELUDE.format(**words) + (PULP.format(**words) if "import pulp" in text else "") + text
    ended = subprocess.run([sys.executable, "-c", program], cwd=house(tmp_path / "house"), capture_output=True, text=True, check=False, timeout=120)
    assert ended.returncode == 0, ended.stderr


@pytest.mark.parametrize("number", [k for k, (kind, _) in enumerate(BLOCKS) if kind == "sh"])
def test_commands(tmp_path, number):
    "each ends with 0, and gives JSON"
    env = {name: value for name, value in os.environ.items() if not name.startswith("MPS360_")}
    place = house(tmp_path)
    ended = subprocess.run(["bash", "-ec", BLOCKS[number][1]], cwd=place, capture_output=True, text=True, check=False, timeout=120, env=env)
    assert ended.returncode == 0, ended.stderr
    told = ended.stdout + ((place / "answer.json").read_text(encoding="utf-8") if (place / "answer.json").exists() else "")
    assert '"objective"' in told
