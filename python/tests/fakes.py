"Programs that stand for solvers, for the program and for the checker in tests: small Python scripts in a folder that goes first on the path."
import contextlib
import os
import pathlib
import sys
import textwrap
import time

import places  # pylint: disable=unused-import  (the packages are known from here on)

# what a stand-in for a solver does; its words stand in sys.argv
CRASHES = "import os, signal; os.kill(os.getpid(), signal.SIGSEGV)"
FAILS = "sys.exit(3)"
SILENT = "pass"
HANGS = """
    import subprocess, time
    child = subprocess.Popen([sys.executable, "-c", "import time; time.sleep(600)"])
    open(os.environ["FAKE_PIDS"], "a").write(f"{os.getpid()} {child.pid}\\n")
    time.sleep(600)
"""
# (each solver's way to name the file that it writes)
WRITES = """
    words = sys.argv[1:]
    after = next((word for word in ("-basisOut", "-b", "-w", "-wbas", "--solution_file") if word in words), None)
    written = words[words.index(after) + 1]
    open(written, "wb").write({content!r})
"""
GROWS = """
    words = sys.argv[1:]
    with open("written", "wb") as out:
        while True:
            out.write(b"x" * 1_000_000)
"""

# a stand-in for the program: by the job whether it answers, and how
PROGRAM = """
    import time
    job = sys.stdin.read()
    inserted = "         INSERT\\n" in job
    how = {inserted!r} if inserted else {opening!r}
    print("TITLE FAKE", flush=True)
    if how == "hangs":
        open(os.environ["FAKE_PIDS"], "a").write(f"{{os.getpid()}}\\n")
        time.sleep(600)
    if how == "late":
        time.sleep(1.5)
    if how == "fails":
        sys.exit(70)
    if how == "overflow":
        print("STOP 20 OVERFLOW F2 MUL 1 2")
        sys.exit(20)
    if how == "singular":
        print("STOP 10 VERB FAULT 15 CARD 7")
        sys.exit(10)
    print("PRIMAL OPTIMAL STEPS 0 OBJECTIVE 36 CHECKED")
    print("END 0")
"""
CHECKER = """
    sys.stdin.read()
    listing = open("LISTING").read()
    print({answer!r})
    sys.exit({status})
"""


def program(folder, name, text, **values):
    "an executable of this name in a folder, and its path"
    path = pathlib.Path(folder, name)
    body = textwrap.dedent(text.format(**values) if values else text)
    path.write_text(f"#!{sys.executable}\nimport os, sys\n{body}\n", encoding="utf-8")
    path.chmod(0o755)
    return str(path)


@contextlib.contextmanager
def only_path(folder):
    "this folder is the whole path, and FAKE_PIDS a file in it to which stand-ins that hang write their numbers"
    before = {name: os.environ.get(name) for name in ("PATH", "FAKE_PIDS")}
    os.environ |= {"PATH": str(folder), "FAKE_PIDS": str(pathlib.Path(folder, "pids"))}
    try:
        yield pathlib.Path(folder, "pids")
    finally:
        for name, value in before.items():
            if value is None:
                os.environ.pop(name, None)
            else:
                os.environ[name] = value


def runs(number):
    "whether a process of this number runs"
    try:
        os.kill(number, 0)
    except ProcessLookupError:
        return False
    stat = pathlib.Path(f"/proc/{number}/stat")
    return not stat.exists() or stat.read_text().rpartition(")")[2].split()[0] != "Z"


def left_over(pids):
    "which of the processes that wrote their numbers still run, a second later at most"
    numbers = [int(word) for word in pids.read_text().split()] if pids.exists() else []
    until = time.monotonic() + 1
    while time.monotonic() < until and any(runs(number) for number in numbers):
        time.sleep(0.02)
    return [number for number in numbers if runs(number)]
