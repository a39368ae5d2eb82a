"Where things stand, for the tests. To import it makes the packages mps360 and oracle known, also to a test that is run as a script."
import pathlib
import sys

TESTS = pathlib.Path(__file__).resolve().parent
PYTHON, TOP = TESTS.parent, TESTS.parents[1]
DATA, SCRIPTS, EXAMPLES, DEV = TESTS / "data", TOP / "scripts", TOP / "examples", TOP / "dev"
# the command of the independent readings
ORACLE = DEV / "oracle"

for place in (PYTHON, DEV):
    if str(place) not in sys.path:
        sys.path.insert(0, str(place))
