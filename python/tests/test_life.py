"Lines of life: one line that is written over on a terminal, lines in a growing distance elsewhere; what they say of a run."
import io
import os
import pty
import re
import subprocess
import sys
import time

import fakes
import places
import pytest
from mps360 import life

JOB = "".join(f"         {card}\n" for card in ("PROGRAM", "TITLE('T')", "CONVERT", "SETUP", "PRIMAL", "SOLUTION", "RANGE", "EXIT", "PEND"))
UNTIL_SETUP = ["TITLE T", "CONVERT M        ROWS 2 COLUMNS 1 ENTRIES 2", "SETUP   M        MIN"]


class Terminal(io.StringIO):
    "a stream that calls itself a terminal"
    def isatty(self):
        return True


def test_a_line_that_is_written_over():
    "from the first second on, each second; it goes before another line comes, and at the end"
    stream = Terminal()
    told = life.Life("solve", stream=stream, seconds=60.0)
    for seconds in (0.5, 1.0, 1.5, 2.1):
        told.tick(seconds, lambda: "PRIMAL")
    told.say("done")
    first, second = "solve: 1 s of 60, PRIMAL", "solve: 2 s of 60, PRIMAL"
    assert stream.getvalue() == f"{first}\r{' ' * len(first)}\r{second}\r{' ' * len(second)}\rsolve: done\n"


def test_lines_elsewhere():
    "after 5, 15 and 35 seconds, and no carriage return"
    stream = io.StringIO()
    told = life.Life("solve", stream=stream)
    for seconds in range(1, 40):
        told.tick(float(seconds), lambda: "PRIMAL")
    assert stream.getvalue() == "solve: 5 s, PRIMAL\nsolve: 15 s, PRIMAL\nsolve: 35 s, PRIMAL\n"


def test_none_is_wanted():
    stream = Terminal()
    life.Life("solve", 0.0, stream).tick(100.0, lambda: "PRIMAL")
    assert not stream.getvalue()


def test_a_long_line_is_cut():
    "no line goes past the end of the terminal, where it couldn't be written over"
    stream = Terminal()
    life.Life("solve", stream=stream).tick(1.0, lambda: "x" * 200)
    assert len(stream.getvalue()) == 79


@pytest.mark.parametrize("seconds, limit, words", ((0.4, None, "0 s"), (12.0, 60.0, "12 s of 60"), (3.0, 4.96, "3 s of 5"), (1.0, 2.25, "1 s of 2.2")))
def test_seconds_of_a_limit(seconds, limit, words):
    assert life.within(seconds, limit) == words


@pytest.mark.parametrize("lines, is_on_path", (([], False), (UNTIL_SETUP[:1], False), (UNTIL_SETUP, True),
                                               ([*UNTIL_SETUP, "PRIMAL OPTIMAL STEPS 1 OBJECTIVE 1 CHECKED"], False), (["STOP 12 DECK FAULT 1 CARD 1"], False)))
def test_whether_a_run_is_on_its_path(lines, is_on_path):
    "between the line of SETUP and that of PRIMAL the program prints nothing"
    assert life.is_on_path(JOB, lines) == is_on_path


def test_solve_at_a_terminal(tmp_path):
    "a run that has no end says each second which route is in hand, for how long and of how many seconds, in one line"
    slow = fakes.program(tmp_path, "slow", "import time\nsys.stdin.read()\n" + f"print({chr(10).join(UNTIL_SETUP)!r}, flush=True)\n" + "time.sleep(60)")
    reads, writes = pty.openpty()
    words = [sys.executable, str(places.SCRIPTS / "solve"), "--program", slow, "--with", "none", "--seconds", "3.5", str(places.EXAMPLES / "glass.mps")]
    begun = time.monotonic()
    ended = subprocess.run(words, stdout=subprocess.DEVNULL, stderr=writes, timeout=60, check=False)
    os.write(writes, b".")
    told = b""
    while not told.endswith(b"."):
        told += os.read(reads, 10_000)
    os.close(reads)
    os.close(writes)
    assert time.monotonic() - begun < 30 and ended.returncode in (70, 124), told
    lines = re.findall(r"solve: (\d) s of 3\.5, PRIMAL from the opening basis, \d s of 3\.\d", told.decode())
    assert lines and lines == sorted(lines) and b"\n" not in told[:told.index(b"PRIMAL from")], told
