"What mps360 says on a terminal alone: the command that explains a stop."
import os
import pty
import shutil
import subprocess

import fakes
import places
import pytest


def installed(folder, status):
    "a copy of the command mps360 as it is installed, whose program stops with a status"
    shutil.copy(places.SCRIPTS / "mps360", folder / "mps360")
    (folder / "version").write_text("mps360 1\n", encoding="ascii")
    fakes.program(folder, "program", f"sys.stdin.read()\nprint('STOP')\nsys.exit({status})")
    job = folder / "a job"
    job.write_text("         PROGRAM\n", encoding="ascii")
    return folder / "mps360", job


def at_terminal(*words, **streams):
    "the status of a command whose standard error is a terminal, and what it says there"
    reads, writes = pty.openpty()
    try:
        ended = subprocess.run(words, stdout=subprocess.PIPE, stderr=writes, timeout=60, check=False, **streams)
        os.write(writes, b".")
        told = b""
        while not told.endswith(b"."):
            told += os.read(reads, 10_000)
        assert ended.stdout == b"STOP\n"
        return ended.returncode, told[:-1].replace(b"\r\n", b"\n").decode()
    finally:
        os.close(reads)
        os.close(writes)


@pytest.mark.parametrize("status, is_told", ((8, True), (10, True), (12, True), (13, True), (16, True), (17, True), (20, True), (28, True), (0, False),
                                             (1, False), (2, False), (25, False)))
def test_a_stop_at_a_terminal(tmp_path, status, is_told):
    command, job = installed(tmp_path, status)
    escaped = str(job).replace(" ", "\\ ")
    told = f"mps360: mps360-explain {escaped} says what this stop means and what to do\n" if is_told else ""
    assert at_terminal(command, job) == (status, told)


def test_a_stop_elsewhere(tmp_path):
    "nothing is said where nobody reads: standard error is a pipe, or the job has no name"
    command, job = installed(tmp_path, 20)
    ended = subprocess.run([command, job], stdout=subprocess.PIPE, stderr=subprocess.PIPE, check=False)
    assert (ended.returncode, ended.stdout, ended.stderr) == (20, b"STOP\n", b"")
    with open(job, "rb") as given:
        assert at_terminal(command, stdin=given) == (20, "")
