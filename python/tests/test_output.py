"A write that fails is 73 in every command, with one line on standard error: never a traceback, never a status that means an answer."
import contextlib
import errno
import io
import os
import pathlib
import re
import resource
import subprocess
import sys
import tempfile

import calls
import places
import programs_at_hand
import pytest
from mps360 import output
from mps360 import unproved as kept_programs
from mps360.cli import attest, batch, explain, solve, unproved

MODEL, JOB, LISTING = places.EXAMPLES / "glass.mps", places.EXAMPLES / "store.job", places.EXAMPLES / "store.listing"
PARAMETRIC = places.EXAMPLES / "paraobj.listing"
COMMANDS = sorted(path.name for path in places.SCRIPTS.iterdir() if path.is_file())
FULL = pathlib.Path("/dev/full")
SPACE = os.strerror(28)
SOLUTION = '{"answer": "optimal", "columns": {"C1": 4}, "prices": {"R2": 3}}'
TINY = "NAME  TINY\nOBJSENSE\n MAX\nROWS\n N R1\n L R2\nCOLUMNS\n C1 R1 3 R2 1\nRHS\n B R2 4\nENDATA\n"
BASIS = "NAME  TINY\n XU C1 R2\nENDATA\n"
# the words of each command that prints an answer; FILE stands for a file of the test's folder
ANSWERS = {
    "solve": ("--with", "none", "--program", "PROGRAM", MODEL),
    "solve --json": ("--json", "--with", "none", "--program", "PROGRAM", MODEL),
    "solve --csv": ("--csv", "--with", "none", "--program", "PROGRAM", MODEL),
    "prove": ("--program", "PROGRAM", MODEL),
    "attest": ("--program", "CHECKER", "TINY", "SOLUTION"),
    "explain": (JOB, LISTING),
    "listing2json.py": (LISTING,),
    "listing2json.py --csv": ("--csv", LISTING),
    "listing2json.py --table": ("--table", "verdicts", LISTING),
    "listing2html.py": (JOB, LISTING),
    "mps2job.py": ("TINY",),
    "free_deck.py": (JOB,),
    "basis2deck.py": ("TINY", "BASIS"),
    "solution2listing.py": ("-o", "OUT", "TINY", "SOLUTION"),
    "listing2vipr.py": (JOB, LISTING),
    "plot_parametric.py": (PARAMETRIC,),
    "plot_parametric.py --svg": ("--svg", PARAMETRIC),
    "check_vipr.py": ("CERTIFICATE",),
}
# the words of each command that writes files; NO stands for the file that can't be written
FILES = {
    "solve --html": ("--html", "NO", "--with", "none", "--program", "PROGRAM", MODEL),
    "solve --write-basis": ("--write-basis", "NO", "--with", "none", "--program", "PROGRAM", MODEL),
    "solve --solution": ("--solution", "NO", "--with", "none", "--program", "PROGRAM", MODEL),
    "listing2html.py -o": ("-o", "NO", JOB, LISTING),
    "mps2job.py -o": ("-o", "NO", "TINY"),
    "mps2job.py --names": ("--names", "NO", "TINY"),
    "basis2deck.py -o": ("-o", "NO", "TINY", "BASIS"),
    "solution2listing.py -o": ("-o", "NO", "TINY", "SOLUTION"),
    "solution2listing.py --listing": ("-o", "OUT", "--listing", "NO", "TINY", "SOLUTION"),
    "solution2listing.py --names": ("-o", "OUT", "--listing", "OUT2", "--names", "NO", "TINY", "SOLUTION"),
    "listing2vipr.py -o": ("-o", "NO", JOB, LISTING),
    "vipr2listing.py -o": ("-o", "NO", "CERTIFICATE"),
    "vipr2listing.py --listing": ("-o", "OUT", "--listing", "NO", "CERTIFICATE"),
    "plot_parametric.py -o": ("-o", "NO", PARAMETRIC),
}
FOLDERS = {
    "solve --keep": ("--keep", "NO", "--with", "none", "--program", "PROGRAM", MODEL),
    "prove --keep": ("--keep", "NO", "--program", "PROGRAM", MODEL),
    "attest --keep": ("--keep", "NO", "--program", "CHECKER", "TINY", "SOLUTION"),
}


def words_of(folder, words):
    "the words with the files that they stand for"
    made = {"TINY": TINY, "SOLUTION": SOLUTION, "BASIS": BASIS}
    paths = {"NO": folder / "no", "OUT": folder / "out", "OUT2": folder / "out2", "CERTIFICATE": folder / "certificate"}
    for name, text in made.items():
        paths[name] = folder / name.lower()
        paths[name].write_text(text, encoding="ascii")
    if "PROGRAM" in words:
        paths["PROGRAM"] = programs_at_hand.solver(folder)
    if "CHECKER" in words:
        paths["CHECKER"] = programs_at_hand.checker(folder)
    if "CERTIFICATE" in words:
        subprocess.run([*called("listing2vipr.py"), "-o", paths["CERTIFICATE"], JOB, LISTING], check=True)
    return [paths.get(word, word) for word in words]


def called(command):
    "the words that call a command of scripts/; other words may stand behind its name"
    path = places.SCRIPTS / command.split(" ")[0]
    is_python = b"python3" in path.read_bytes().split(b"\n", 1)[0]
    return [*([sys.executable] if is_python else []), str(path)]


def run(command, words, folder, **streams):
    "what a command came to in a folder"
    return subprocess.run([*called(command), *words], cwd=folder, stderr=subprocess.PIPE, timeout=120, check=False,
                          **{"stdin": subprocess.DEVNULL, **streams})


def to_closed_pipe(command, words, folder):
    "the same with standard output to a pipe that nobody reads"
    reads, writes = os.pipe()
    os.close(reads)
    try:
        return run(command, words, folder, stdout=writes)
    finally:
        os.close(writes)


def last_line(ended, status=output.CANT_WRITE):
    "the last line that a command said on standard error; it had this status, and no traceback"
    told = ended.stderr.decode(errors="replace")
    assert ended.returncode == status, told
    assert "Traceback" not in told and "Exception ignored" not in told, told
    return told.rstrip("\n").split("\n")[-1]


def needs_full():
    if not FULL.exists():
        pytest.skip("there is no /dev/full")


@pytest.mark.parametrize("command", COMMANDS)
def test_help_to_a_full_disk(tmp_path, command):
    needs_full()
    with open(FULL, "wb") as full:
        ended = run(command, ["--help"], tmp_path, stdout=full)
    assert last_line(ended).startswith(f"{command}: can't write to standard output")
    assert len(ended.stderr.splitlines()) == 1


@pytest.mark.parametrize("command", ["mps360", "mps360check", "mps360long", "program.sh", "build.sh", "install.sh", "check.sh", "mps360-batch", "unproved.py"])
def test_help_to_a_closed_pipe(tmp_path, command):
    ended = to_closed_pipe(command, ["--help"], tmp_path)
    assert last_line(ended).startswith(f"{command}: can't write to standard output")
    assert len(ended.stderr.splitlines()) == 1


@pytest.mark.parametrize("command", COMMANDS)
def test_help_is_printed(tmp_path, command):
    ended = run(command, ["--help"], tmp_path, stdout=subprocess.PIPE)
    assert (ended.returncode, ended.stderr) == (0, b"") and len(ended.stdout.splitlines()) > 1


@pytest.mark.parametrize("command", ANSWERS)
def test_an_answer_to_a_full_disk(tmp_path, command):
    needs_full()
    words = words_of(tmp_path, ANSWERS[command])
    with open(FULL, "wb") as full:
        ended = run(command, words, tmp_path, stdout=full)
    assert last_line(ended) == f"{command.split(' ')[0]}: can't write to standard output: {SPACE}"


@pytest.mark.parametrize("command", ANSWERS)
def test_an_answer_to_a_closed_pipe(tmp_path, command):
    ended = to_closed_pipe(command, words_of(tmp_path, ANSWERS[command]), tmp_path)
    assert last_line(ended) == f"{command.split(' ')[0]}: can't write to standard output: {os.strerror(32)}"


@pytest.mark.parametrize("command", ANSWERS)
def test_an_answer_to_a_closed_output(tmp_path, command):
    words = [str(word) for word in words_of(tmp_path, ANSWERS[command])]
    ended = subprocess.run(["sh", "-c", '"$@" >&-', "sh", *called(command), *words], cwd=tmp_path, timeout=120,
                           stdin=subprocess.DEVNULL, stderr=subprocess.PIPE, check=False)
    assert last_line(ended) == f"{command.split(' ')[0]}: can't write to standard output: it is closed"


@pytest.mark.parametrize("command", FILES)
def test_a_file_on_a_full_disk(tmp_path, command):
    needs_full()
    (tmp_path / "no").symlink_to(FULL)
    ended = run(command, words_of(tmp_path, FILES[command]), tmp_path, stdout=subprocess.PIPE)
    assert last_line(ended) == f"{command.split(' ')[0]}: can't write {tmp_path / 'no'}: {SPACE}"


@pytest.mark.parametrize("command", FILES)
def test_a_file_that_is_a_folder(tmp_path, command):
    (tmp_path / "no").mkdir()
    ended = run(command, words_of(tmp_path, FILES[command]), tmp_path, stdout=subprocess.PIPE)
    assert last_line(ended) == f"{command.split(' ')[0]}: can't write {tmp_path / 'no'}: {os.strerror(21)}"


@pytest.mark.parametrize("command", FOLDERS)
def test_a_folder_that_is_a_file(tmp_path, command):
    (tmp_path / "no").write_text("", encoding="ascii")
    ended = run(command, words_of(tmp_path, FOLDERS[command]), tmp_path, stdout=subprocess.PIPE)
    assert last_line(ended) == f"{command.split(' ')[0]}: can't write {tmp_path / 'no'}: {os.strerror(17)}"


@pytest.mark.parametrize("command, words", (("solve", ANSWERS["solve"]), ("attest", ANSWERS["attest"]), ("explain", (JOB,))))
def test_a_file_that_takes_no_more(tmp_path, command, words):
    "a job that goes to a program by a file of a temporary folder is written whole, or it is 73: files take 100 bytes here"
    def limit():
        resource.setrlimit(resource.RLIMIT_FSIZE, (100, 100))
    ended = run(command, words_of(tmp_path, words), tmp_path, stdout=subprocess.PIPE, preexec_fn=limit)
    assert last_line(ended).endswith(os.strerror(errno.EFBIG))


@pytest.mark.parametrize("command, words", (("solve", ANSWERS["solve"]), ("prove", ANSWERS["prove"]), ("attest", ANSWERS["attest"]), ("explain", (JOB,))))
def test_no_temporary_folder(tmp_path, command, words):
    "where no folder takes a temporary file it is 73, and says so: no file takes a byte here"
    def limit():
        resource.setrlimit(resource.RLIMIT_FSIZE, (0, 0))
    ended = run(command, words_of(tmp_path, words), tmp_path, stdout=subprocess.PIPE, env={**os.environ, "TMPDIR": str(tmp_path / "none")}, preexec_fn=limit)
    told = last_line(ended)
    assert told.startswith(f"{command}: can't make a temporary folder: No usable temporary directory found in ['{tmp_path / 'none'}', ") and ended.stdout == b""
    assert len(ended.stderr.splitlines()) == 1


@pytest.mark.parametrize("name, module, words", (
    ("mps360-batch", batch, ("FOLDER",)), ("unproved.py", unproved, ()), ("unproved.py", unproved, ("--compile",)),
    ("solve", solve, ANSWERS["solve"]), ("attest", attest, ANSWERS["attest"]), ("explain", explain, (JOB,))))
def test_a_temporary_folder_that_isnt_there(tmp_path, monkeypatch, name, module, words):
    "the same where the folder for temporary ones isn't there: the path that can't be made is named"
    (tmp_path / "jobs").mkdir()
    (tmp_path / "jobs/store.job").write_bytes(JOB.read_bytes())
    words = [tmp_path / "jobs" if word == "FOLDER" else word for word in words_of(tmp_path, words)]
    monkeypatch.setattr(tempfile, "tempdir", str(tmp_path / "none"))
    monkeypatch.setattr(kept_programs, "kept", lambda *_: None)
    monkeypatch.setattr(unproved, "kept", lambda *_: None)
    monkeypatch.setattr(kept_programs, "kit", lambda: tmp_path)
    monkeypatch.setattr(batch, "a_program", lambda: ("/bin/cat", True))
    status, out, told = calls.called(module, *words)
    assert (status, out) == (73, "") and "Traceback" not in told
    assert re.fullmatch(rf"{re.escape(name)}: can't make a temporary folder: {tmp_path}/none/mps360-\w+: {os.strerror(2)}", told.rstrip("\n").split("\n")[-1])


# the words of each command that reads standard input
INPUTS = {
    "solve": ("-",), "prove": ("-",), "explain": ("-",), "listing2json.py": (), "listing2html.py": (JOB, "-"), "mps2job.py": ("-",), "free_deck.py": (),
    "listing2vipr.py": (JOB, "-"), "plot_parametric.py": (), "check_vipr.py": ("-",),
}


@pytest.mark.parametrize("command", INPUTS)
def test_a_closed_standard_input(tmp_path, command):
    "it can't be read, 66, and no file that is opened later is taken for it"
    ended = subprocess.run(["sh", "-c", '"$@" <&-', "sh", *called(command), *map(str, INPUTS[command])], cwd=tmp_path, timeout=120,
                           stdout=subprocess.PIPE, stderr=subprocess.PIPE, check=False)
    assert re.fullmatch(rf"{re.escape(command)}: can't read (-|standard input): it is closed", last_line(ended, 66)) and ended.stdout == b""


@pytest.mark.parametrize("command, words", (
    ("solve", ()), ("prove", ()), ("explain", ()), ("attest", (MODEL,)), ("listing2json.py", ()), ("listing2html.py", (JOB,)), ("mps2job.py", ()),
    ("free_deck.py", ()), ("listing2vipr.py", (JOB,)), ("plot_parametric.py", ()), ("check_vipr.py", ()), ("vipr2listing.py", ("-o", "OUT"))))
def test_a_read_that_fails(tmp_path, command, words):
    "the file is named, though Python doesn't: its first page can't be read"
    unreadable = pathlib.Path("/proc/self/mem")
    if not unreadable.exists():
        pytest.skip("there is no /proc/self/mem")
    ended = run(command, [*words_of(tmp_path, words), unreadable], tmp_path, stdout=subprocess.PIPE)
    assert last_line(ended, 66) == f"{command}: can't read {unreadable}: {os.strerror(errno.EIO)}" and ended.stdout == b""


def test_every_command_is_tried():
    tried = {command.split(" ")[0] for command in (*ANSWERS, *FILES)}
    # (the shell scripts print what programs print, and mps360-batch has a test of its own)
    assert set(COMMANDS) - tried == {"build.sh", "check.sh", "install.sh", "mps360", "mps360-batch", "mps360check", "mps360long", "program.sh", "unproved.py"}


def test_notes_that_cant_be_written(tmp_path):
    "a note on standard error that is lost is no success either"
    needs_full()
    model = tmp_path / "model"
    model.write_text(TINY.replace("ENDATA", " B R1 -7\nENDATA"), encoding="ascii")
    with open(FULL, "wb") as full:
        ended = subprocess.run([*called("mps2job.py"), "-o", tmp_path / "job", model], stderr=full, check=False)
    assert ended.returncode == output.CANT_WRITE


def test_a_closed_standard_error(tmp_path):
    "notes don't get into standard output where standard error is closed"
    model = tmp_path / "model"
    model.write_text(TINY.replace("ENDATA", " B R1 -7\nENDATA"), encoding="ascii")
    ended = subprocess.run(["sh", "-c", '"$@" 2>&-', "sh", *called("mps2job.py"), "--names", tmp_path / "names", model],
                           stdout=subprocess.PIPE, check=False)
    assert ended.returncode == 0 and ended.stdout.splitlines()[-1] == b"ENDATA" and b"mps2job.py" not in ended.stdout


def test_ctrl_c_is_told():
    @output.command("name")
    def main(_words):
        raise KeyboardInterrupt
    with contextlib.redirect_stderr(io.StringIO()) as told:
        assert main([]) == output.INTERRUPTED
    assert told.getvalue() == "name: interrupted\n" and not isinstance(sys.stdout, output.Stream)
