"plot_parametric.py on parametric runs that were worked out by hand, its labels, and names of strangers in it."
import re
from typing import Any
import xml.dom.minidom

import places
import pytest
from calls import call

SCRIPT = places.SCRIPTS / "plot_parametric.py"
PARAMETRIC = {
    "paraobj-two-intervals": ((0, -8), (1, -8), (5, -20), "the run ends at 5"),
    "paraobj-unbounded-past": ((0, 0), (1, 0), "no bound past 1"),
    "pararhs-two-intervals": ((0, 1), (2, 3), (5, 9), "the run ends at 5"),
    "pararhs-infeasible-past": ((0, 1), (2, 3), "no plan past 2"),
    "pararhs-point-interval": ((0, 1), "the run ends at 0"),
}
# A listing of examples/, the run of it that is drawn, and what is drawn: the last run without a number.
EXAMPLE_PARAMETRIC = (
    ("paraobj", (), ((0, 0), (2, 0), (15, 208)), "no bound past 15"),
    ("pararhs", ("--run", "1"), ((0, 90), (10, 120), (15, 145)), "the run ends at 15"),
    ("pararhs", (), ((15, 145), (18, 160)), "no plan past 18"),
)


def drawn_points(told):
    "the whole parameters and values of the table behind a picture of letters"
    return tuple((int(line.split()[0]), int(line.split()[1])) for line in told.partition("change a unit\n")[2].splitlines()[:-1])


RUNS: list[tuple[Any, ...]] = [(places.DATA / f"{name}.listing", (), tuple(points), end) for name, (*points, end) in PARAMETRIC.items()]
RUNS += [(places.EXAMPLES / f"{name}.listing", *wanted) for name, *wanted in EXAMPLE_PARAMETRIC]


@pytest.mark.parametrize("listing, words, points, end", RUNS)
def test_what_is_drawn(tmp_path, listing, words, points, end):
    picture = tmp_path / "picture.svg"
    told = call(SCRIPT, *words, listing).stdout.decode()
    assert drawn_points(told) == points and told.splitlines()[-1] == end, told
    call(SCRIPT, *words, "--svg", "-o", picture, input=listing.read_bytes())
    marks = [mark.firstChild.data for mark in xml.dom.minidom.parse(str(picture)).getElementsByTagName("title")]
    assert marks == [f"{theta}: {value}" for theta, value in points]


@pytest.mark.parametrize("what, words, status", (
    ("no run", (places.DATA / "range-two.listing",), 65), ("no such run", ("--run", "3", places.EXAMPLES / "pararhs.listing"), 65),
    ("no listing", (SCRIPT,), 65), ("no file", ("/none/none",), 66), ("wrong use", ("--run", "x"), 64)))
def test_what_cant_be_drawn(what, words, status):
    told = call(SCRIPT, *words)
    assert told.returncode == status and told.stderr.startswith(b"plot_parametric.py: "), what


def boxes(picture):
    "the text of a picture with the room that it takes, at 6 units a letter and 12 a line"
    for text in xml.dom.minidom.parseString(picture).getElementsByTagName("text"):
        words = text.firstChild.data
        x, y, wide = float(text.getAttribute("x")), float(text.getAttribute("y")), 6 * len(words)
        left = {"middle": x - wide / 2, "end": x - wide, "start": x}[text.getAttribute("text-anchor")]
        yield words, left, left + wide, y - 12, y


def test_labels():
    "no label of a picture lies over another, also where breakpoints are near to each other"
    entry = "INTERVAL {} FROM {} TO {}\n    1 COST     BS {} 1 1 0\n".format
    ends = ["0", "1/1000000007", "1/1000000006", "1/1000000005", "1/3", "1/2", "5000/9999", "1"]
    listing = "PARAOBJ FROM 0 CHANGE ROW\n" + "".join(entry(k, *pair, 0) for k, pair in enumerate(zip(ends, ends[1:]), 1)) + "PARAOBJ ENDS AT 1\nEND 0\n"
    picture = call(SCRIPT, "--svg", input=listing.encode()).stdout.decode()
    wide = float(re.search(r'viewBox="0 0 (\d+)', picture)[1])
    found = list(boxes(picture))
    assert [box[0] for box in found if box[0] in ("0", "1/3", "1/2", "1")] and len(found) >= len(ends), f"plot_parametric.py: labels: {picture}"
    for k, (words, left, right, above, below) in enumerate(found):
        assert left >= 0 and right <= wide, f"plot_parametric.py: {words} is outside"
        for other, start, end, top, bottom in found[:k]:
            assert right <= start or end <= left or below <= top or bottom <= above, f"plot_parametric.py: {words} lies over {other}"


@pytest.mark.parametrize("words", ((), ("--svg",)))
def test_escapes_of_a_terminal(words):
    parametric = (places.EXAMPLES / "pararhs.listing").read_bytes()
    told = call(SCRIPT, *words, input=parametric.replace(b"CHANGE MORE", b"CHANGE M\x1b[2J"))
    assert told.returncode == 0 and b"\\x1b[2J" in told.stdout and b"\x1b" not in told.stdout
