"Programs in a process group of their own: what they print, and that none of them outlives its block."
import sys
import time

import fakes
from mps360.processes import Processes

PRINTS = "import sys; data = sys.stdin.read(); print(data.upper(), end=''); print('said', file=sys.stderr)"


def test_prints_what_it_is_given():
    told = []
    with Processes() as processes:
        run = processes.start([sys.executable, "-c", PRINTS], b"abc\n", tell=told.append)
        assert processes.wait([run], time.monotonic() + 120) is run
        assert (run.status, run.printed(), told) == (0, b"ABC\n", ["said"])


def test_room_has_the_files_and_goes():
    with Processes() as processes:
        run = processes.start([sys.executable, "-c", "print(open('note').read())"], files={"note": b"here"})
        processes.wait([run], time.monotonic() + 120)
        assert run.printed() == b"here\n"
        room = run.room
        assert room.exists()
    assert not room.exists()


def test_the_first_that_ends():
    with Processes() as processes:
        slow = processes.start([sys.executable, "-c", "import time; time.sleep(600)"])
        fast = processes.start([sys.executable, "-c", "pass"])
        assert processes.wait([slow, fast], time.monotonic() + 120) is fast
        assert processes.wait([slow], time.monotonic() + 0.1) is None
        assert slow.status is None
    assert slow.status is not None and slow.was_ended


def test_nothing_is_left(tmp_path):
    with fakes.only_path(tmp_path) as pids:
        hangs = fakes.program(tmp_path, "hangs", fakes.HANGS)
        try:
            with Processes() as processes:
                processes.start([hangs])
                while not pids.exists() or not pids.read_text().endswith("\n"):
                    time.sleep(0.01)
                raise KeyboardInterrupt
        except KeyboardInterrupt:
            pass
        assert len(pids.read_text().split()) == 2
        assert fakes.left_over(pids) == []


def test_what_a_program_leaves_behind_is_ended(tmp_path):
    "the program has ended by itself, and what it has started still runs"
    leaves = """
        import subprocess
        child = subprocess.Popen([sys.executable, "-c", "import time; time.sleep(600)"], stdout=subprocess.DEVNULL, stderr=subprocess.DEVNULL)
        open(os.environ["FAKE_PIDS"], "a").write(f"{child.pid}\\n")
    """
    with fakes.only_path(tmp_path) as pids:
        with Processes() as processes:
            run = processes.start([fakes.program(tmp_path, "leaves", leaves)])
            assert processes.wait([run], time.monotonic() + 120) is run
            assert len(pids.read_text().split()) == 1
        assert fakes.left_over(pids) == []


def test_a_file_that_grows_without_end(tmp_path):
    with Processes() as processes:
        run = processes.start([fakes.program(tmp_path, "grows", fakes.GROWS)], keeps=False)
        assert processes.wait([run], time.monotonic() + 240) is run
        assert run.was_ended


def test_a_program_that_wont_end(tmp_path):
    "it leaves the request to end unheeded, and so does its child: both are killed"
    stubborn = """
        import signal, subprocess, time
        signal.signal(signal.SIGTERM, signal.SIG_IGN)
        child = subprocess.Popen([sys.executable, "-c", "import time; time.sleep(600)"])
        open(os.environ["FAKE_PIDS"], "a").write(f"{os.getpid()} {child.pid}\\n")
        time.sleep(600)
    """
    with fakes.only_path(tmp_path) as pids:
        with Processes() as processes:
            run = processes.start([fakes.program(tmp_path, "stubborn", stubborn)])
            while not pids.exists() or not pids.read_text().endswith("\n"):
                time.sleep(0.01)
        assert run.was_ended and run.status == -9
        assert fakes.left_over(pids) == []
