"Where no proved program is there: jobs run, and listings are attested, unproved; a program that was compiled is kept until a source changes."
import hashlib
import io
import os
import shutil
import subprocess
import time
import unittest.mock

import fakes
import places
import programs_at_hand
from house import (CHECKER, EXAMPLES, STATUSES, STUB, UNPROVED, call, check_checker, check_made, example, make_house, make_jobs, model_and_solution, with_rt,
                   without_rt)
from mps360 import unproved
from test_routes import ESOLVER, GOOD_DECK, SOLUTION
from test_solvers import GLASS


def made(folder):
    "a house without a program, and a folder of jobs"
    make_house(folder / "house")
    make_jobs(folder / "jobs")
    return folder / "house", folder / "jobs"


def test_without_a_program(tmp_path):
    house, jobs = made(tmp_path)
    prefix, out = tmp_path / "prefix", tmp_path / "out"
    ended = call(house / "scripts/install.sh", prefix)
    said = ended.returncode == 70 and ended.stderr.startswith(b"install.sh: no proved program mps360 is there; scripts/build.sh proves")
    assert said and not ended.stdout and not prefix.exists(), ("install.sh is refused without a proved program", ended)
    ended = call(house / "scripts/mps360-batch", jobs, out, env=without_rt())
    assert ended.returncode == 70 and b"no command rt" in ended.stderr, ("mps360-batch: no program, no rt", ended)
    ended = call(house / "scripts/mps360-batch", jobs, out, env={**without_rt(), "MPS360_PROVED": "1"})
    assert ended.returncode == 70 and b"no proved program" in ended.stderr, ("mps360-batch: MPS360_PROVED refuses", ended)


def test_unproved_runs(tmp_path):
    "where there is no proved program a job runs unproved; here rt gives no module, and runs it itself"
    house, jobs = made(tmp_path)
    said = b"mps360: running UNPROVED, which takes about half a minute the first time, to compile" + UNPROVED
    for name, (status, _) in STATUSES.items():
        ended = call(house / "scripts/mps360", jobs / f"{name}.job", env=with_rt(house))
        assert (ended.returncode, ended.stdout, ended.stderr) == (status, example(name), said), (f"mps360 unproved: {name}", ended)
    for what, words in (("standard input is closed", "<&-"), ("standard input is a folder", "</")):
        ended = call("bash", "-c", f"{house}/scripts/mps360 {words}", env=with_rt(house))
        assert ended.returncode == 66 and ended.stderr == b"mps360: standard input is closed, or a folder\n", (f"mps360: {what}", ended)
    ended = call("bash", "-c", f"{house}/scripts/mps360 {jobs}/first.job >/dev/full", env=with_rt(house))
    assert ended.returncode == 25 and b"Traceback" not in ended.stderr, ("mps360 unproved: the listing can't be written", ended)
    ended = call(house / "scripts/mps360", input=b"no job", env=with_rt(house))
    assert ended.returncode == 70 and not ended.stdout and b"gave no answer" in ended.stderr, ("mps360 unproved: no answer", ended)
    known = places.DATA / "bcdout-one"
    ended = call(house / "scripts/mps360", f"{known}.job", env=with_rt(house))
    told = ended.stdout == known.with_suffix(".listing").read_bytes() and b"keeps no punched deck" in ended.stderr
    assert ended.returncode == 0 and told, ("mps360 unproved: a punched deck", ended)
    check_made(house / "scripts/mps360", with_rt(house))
    ended = call(house / "scripts/mps360", "--version", env=with_rt(house))
    assert ended.stdout.endswith(b", no proved program: it would run unproved\n"), ("mps360 --version", ended)


def test_a_program_that_is_kept(tmp_path):
    "rt gives a module: the program that is compiled of it is kept, and runs at once from then on, until a source changes"
    house, jobs = made(tmp_path)
    folder = tmp_path / "kept"
    (house / "module").touch()
    folder.mkdir()
    tried, mps360, known = house / "tried", house / "scripts/mps360", places.DATA / "bcdout-one"
    there = {"env": with_rt(house), "cwd": folder}
    (house / "made").write_text("#!/bin/sh\necho END 0\n")
    ended = call(mps360, jobs / "first.job", **there)
    assert ended.returncode == 70 and b"another answer" in ended.stderr and not ended.stdout, ("a program with another answer isn't kept", ended)
    (house / "made").write_text(STUB.format(house))
    tried.unlink()
    for count, (name, (status, _)) in enumerate(STATUSES.items()):
        ended = call(mps360, jobs / f"{name}.job", **there)
        how = b"by the program that was compiled of these sources before" if count else b"which takes about half a minute the first time, to compile"
        said = b"mps360: running UNPROVED, " + how + UNPROVED
        assert (ended.returncode, ended.stdout, ended.stderr) == (status, example(name), said), (f"mps360 unproved, kept: {name}", ended)
    assert tried.read_text() == "once\n", "rt is called once"
    ended = call(mps360, f"{known}.job", **there)
    assert (folder / "PUNCH").read_bytes() == known.with_suffix(".punch").read_bytes(), ("a kept program punches", ended)
    (folder / "PUNCH").write_text("mine")
    ended = call(house / "scripts/explain", f"{known}.job", **there)
    assert ended.returncode == 0 and (folder / "PUNCH").read_text() == "mine", ("explain overwrites no PUNCH", ended)
    check_made(mps360, with_rt(house))
    ended = call(house / "scripts/mps360-batch", "-j", "3", jobs, folder / "out", **there)
    listings = {path.name: path.read_bytes() for path in (folder / "out").glob("*.listing")}
    assert ended.returncode == 0 and listings == {f"{name}.listing": example(name) for name in STATUSES}, ("mps360-batch unproved", ended)
    source = house / "crates/mps360/src/main.rt"
    source.parent.mkdir()
    source.touch()
    call(mps360, jobs / "first.job", **there)
    call(mps360, jobs / "first.job", **there)
    assert tried.read_text() == "once\n" * 2, "a changed source is compiled once again"
    place = house / "cache/mps360/unproved/mps360"
    kept = [path for path in place.iterdir() if path.is_dir()]
    assert len(kept) == 2, f"a program of sources that ran today stays: {kept}"
    shutil.rmtree(source.parent)
    (house / "module").unlink()


def test_a_line_of_life():
    said, begun = io.StringIO(), time.monotonic() - 12
    with unittest.mock.patch("sys.__stderr__", said):
        unproved.Line(begun).tell("LLVM compiles", begun + 2, 15)
    assert said.getvalue() == "mps360: 12 s: LLVM compiles, 10 s of some 15\n", f"the line of life: {said.getvalue()}"


def test_the_unproved_checker(tmp_path):
    "where there is no proved checker: none at all, rt without a module, and one that is compiled and kept"
    house, _ = made(tmp_path)
    script, store = house / "scripts/mps360check", EXAMPLES / "store.job"
    listing = store.with_suffix(".listing")
    for env, wanted in ((without_rt(), b"no command rt"), ({**with_rt(house), "MPS360_PROVED": "1"}, b"no proved checker of listings"), (with_rt(house), b"gave no answer")):
        ended = call(script, store, listing, env=env)
        assert ended.returncode == 70 and wanted in ended.stderr and not ended.stdout, (f"mps360check: {wanted}", ended)
    ended = call(house / "scripts/attest", *model_and_solution(tmp_path), env=without_rt())
    assert ended.returncode == 70 and not ended.stdout and b"Traceback" not in ended.stderr, ("attest: no checker", ended)
    (house / "module").touch()
    (house / "made").write_text("#!/bin/sh\necho ATTESTED 4 REPORTS\n")
    ended = call(script, store, listing, env=with_rt(house))
    assert ended.returncode == 70 and b"another answer" in ended.stderr and not ended.stdout, ("a checker with another answer isn't kept", ended)
    (house / "made").write_text(CHECKER.format(house))
    (house / "tried").unlink()
    ended = call(script, store, listing, env=with_rt(house))
    said = b"mps360check: running UNPROVED, which takes about half a minute the first time, to compile" + UNPROVED
    assert (ended.returncode, ended.stdout, ended.stderr) == (0, b"ATTESTED 5 REPORTS\n", said), ("mps360check unproved", ended)
    check_checker(script, with_rt(house), b"mps360check: running UNPROVED, by the program that was compiled of these sources before" + UNPROVED, tmp_path)
    assert (house / "tried").read_text() == "once\n", "rt is called once for the checker"
    ended = call(house / "scripts/attest", *model_and_solution(tmp_path), env=with_rt(house))
    assert ended.returncode == 0 and ended.stdout.startswith(b"not proved, since the checker ran unproved; it attests: OPTIMAL, objective 9\n"), \
        ("attest unproved", ended)
    (house / "module").unlink()


def test_solve_compiles_the_checker_that_it_needs(tmp_path):
    "esolver's exact answer goes to a checker that nobody compiled before; what it attests isn't called proved, and its checksum is said"
    house, _ = made(tmp_path)
    (house / "module").touch()
    (house / "made").write_text(CHECKER.format(house))
    fakes.program(house / "bin", "esolver", ESOLVER, solution=SOLUTION, deck=GOOD_DECK)
    model = tmp_path / "glass.mps"
    model.write_text(GLASS)
    words = (house / "scripts/solve", "--program", programs_at_hand.solver(tmp_path), "--only", "exact", model)
    ended = call(*words, env={**with_rt(house), "MPS360_PROVED": "1"})
    assert b"no checker of listings is at hand" in ended.stderr, ("solve: an unproved checker is refused", ended)
    ended = call(*words, env=with_rt(house))
    assert ended.returncode == 0 and b"solve: compiling the checker of listings, which then runs UNPROVED\n" in ended.stderr, ("solve compiles", ended)
    assert b"not proved, since the checker ran unproved: by esolver's exact answer, attested by the checker" in ended.stderr, ("solve says who attests", ended)
    assert b"checker " + hashlib.sha256((house / "made").read_bytes()).hexdigest().encode() in ended.stdout, ("solve: the checksum", ended)
    ended = call(*words, env=with_rt(house))
    assert ended.returncode == 0 and b"compiling" not in ended.stderr and (house / "tried").read_text() == "once\n", ("solve: it is kept", ended)


def test_several_at_once(tmp_path):
    "three runs begin at once: one compiles, the others wait for it"
    house, jobs = made(tmp_path)
    (house / "module").touch()
    (house / "made").write_text(STUB.format(house))
    runs = [subprocess.Popen([house / "scripts/mps360", jobs / "first.job"], stdout=subprocess.PIPE, stderr=subprocess.PIPE, env=with_rt(house)) for _ in range(3)]
    for run in runs:
        listing, said = run.communicate(timeout=120)
        assert (run.returncode, listing) == (0, example("first")), said
    assert (house / "tried").read_text() == "once\n", "the kit is called once"


def test_whose_program_runs(tmp_path):
    "a kept program that others may write isn't run, nor one of another's"
    house, jobs = made(tmp_path)
    (house / "module").touch()
    (house / "made").write_text(STUB.format(house))
    call(house / "scripts/mps360", jobs / "first.job", env=with_rt(house))
    program = next((house / "cache").glob("mps360/unproved/mps360/*/program"))
    assert program.stat().st_mode & 0o777 == 0o700 and program.parent.stat().st_mode & 0o777 == 0o700
    program.write_text("#!/bin/sh\necho END 0\n")
    program.chmod(0o777)
    ended = call(house / "scripts/mps360", jobs / "first.job", env=with_rt(house))
    assert ended.stdout == example("first"), ended
    with unittest.mock.patch("os.geteuid", lambda: os.getuid() + 1):
        assert not unproved.is_own(program)


def test_old_programs_go(tmp_path):
    "of other sources the three stay that ran last, and what ran in the last day"
    now = time.time()
    for name, days in (("used", 9), ("a", 0.5), ("b", 2), ("c", 3), ("d", 4), ("e", 5)):
        (tmp_path / name).mkdir()
        os.utime(tmp_path / name, (now, now - days * 86_400))
    unproved.drop_old(tmp_path, tmp_path / "used")
    assert sorted(path.name for path in tmp_path.iterdir()) == ["a", "b", "c", "used"]
    for name in "abc":
        os.utime(tmp_path / name)
    for name in "fg":
        (tmp_path / name).mkdir()
    unproved.drop_old(tmp_path, tmp_path / "used")
    assert len(list(tmp_path.iterdir())) == 6, "each ran today"


def test_where_programs_are_kept(tmp_path):
    for cache, wanted in ((str(tmp_path), tmp_path), ("relative", tmp_path / "home/.cache"), ("", tmp_path / "home/.cache")):
        with unittest.mock.patch.dict(os.environ, {"XDG_CACHE_HOME": cache, "HOME": str(tmp_path / "home")}):
            assert unproved.place_of("mps360") == wanted / "mps360/unproved/mps360"
