"build.sh, install.sh and the installed commands, in a house of their own (house.py tells of it)."
import os
import pathlib
import shutil

import places
import pytest
from house import (DIET, EXAMPLES, STATUSES, STUBS, call, check_checker, check_made, example, make_house, make_jobs, model_and_solution, put_program, with_rt, without_rt)

COMMANDS = ["mps360", "mps360check", "mps360long", "mps360-attest", "mps360-batch", "mps360-explain", "mps360-plot", "mps2job", "listing2json"]
COMMANDS += [command for script, command in (("listing2html.py", "listing2html"), ("solve", "mps360-solve"), ("basis2deck.py", "basis2deck"),
                                             ("prove", "mps360-prove"), ("free_deck.py", "free_deck"), ("solution2listing.py", "solution2listing"),
                                             ("listing2vipr.py", "listing2vipr"), ("vipr2listing.py", "vipr2listing"), ("check_vipr.py", "check_vipr")) if (places.SCRIPTS / script).exists()]


def put_programs(house):
    "whether mps360 is the proved program; stubs stand in the place of those that aren't fresh"
    return [put_program(house, name, stub) for name, stub in STUBS.items()][0]


def installed(folder):
    "the folder of the installed commands, one of jobs, and whether the program is the proved one"
    house, prefix, jobs = folder / "house", folder / "prefix", folder / "jobs"
    make_house(house)
    make_jobs(jobs)
    is_proved = put_programs(house)
    ended = call(house / "scripts/install.sh", prefix)
    assert ended.returncode == 0, ended
    return prefix / "bin", jobs, is_proved


def test_build(tmp_path):
    house = tmp_path / "house"
    make_house(house)
    ended = call(house / "scripts/build.sh", env=without_rt())
    assert ended.returncode == 70 and b"no command rt" in ended.stderr, ("build.sh: no rt", ended)
    for words in (("all",), ("mps360", "mps360check")):
        assert call(house / "scripts/build.sh", *words).returncode == 64, f"build.sh: wrong use {words}"
        assert call(house / "scripts/program.sh", "--fresh", *words).returncode == 64, f"program.sh: wrong use {words}"
    (house / "broken").touch()
    ended = call(house / "scripts/build.sh", env=with_rt(house))
    assert ended.returncode == 70 and b"a goal is open" in ended.stderr and b"not built" in ended.stderr, ("build.sh: not proved", ended)
    (house / "broken").unlink()
    ended = call(house / "scripts/build.sh", env=with_rt(house))
    built_programs = {name: house / "crates" / name / "out" / name for name in STUBS}
    for words, names, crates in (((), "mps360, mps360check and mps360long", ("low", "left", "right", "mps360", "mps360check", "mps360long")),
                                 (("mps360",), "mps360", ("low", "left", "right", "mps360")), (("mps360check",), "mps360check", ("low", "left", "mps360check")),
                                 (("mps360long",), "mps360long", ("low", "left", "mps360long"))):
        for program in built_programs.values():
            program.unlink(missing_ok=True)
        ended, count = call(house / "scripts/build.sh", *words, env=with_rt(house)), len(crates)
        lines = [f"{names} with the crates below: {count}. What is proved already is passed over.", *(f"crate {k} of {count}: {name}" for k, name in enumerate(crates, 1))]
        told, wanted = ended.stdout.decode().splitlines(), [program for name, program in built_programs.items() if name in names.replace(",", "").split()]
        built = [line.startswith("built in 0 minutes") and line.endswith(str(program)) for line, program in zip(told[count + 1:], wanted)]
        assert ended.returncode == 0 and told[:count + 1] == lines and built == [True] * len(wanted) == [True] * (len(told) - count - 1), \
            (f"build.sh {words}", ended)
        assert [program for program in built_programs.values() if program.exists()] == wanted, f"build.sh {words}: what is built"
    ended = call(house / "scripts/build.sh", env=with_rt(house))
    for words, name in (((), "mps360"), (("mps360",), "mps360"), (("mps360check",), "mps360check"), (("mps360long",), "mps360long")):
        assert call(house / "scripts/program.sh", "--fresh", *words).stdout.decode() == f"{built_programs[name]}\n", f"program.sh --fresh {words}"
    source = house / "crates/low/src/lib.rt"
    source.parent.mkdir(parents=True)
    source.touch()
    os.utime(source, (2_000_000_000, 2_000_000_000))
    assert call(house / "scripts/program.sh", "--fresh").returncode == 1, "a program older than a source isn't fresh"
    shutil.rmtree(house / "crates/low")


def test_install(tmp_path):
    house, prefix = tmp_path / "house", tmp_path / "prefix"
    make_house(house)
    put_programs(house)
    script, checker = house / "scripts/install.sh", house / "crates/mps360check/out/mps360check"
    checker.rename(house / "kept")
    ended = call(script, prefix)
    assert ended.returncode == 70 and b"no proved program mps360check is there" in ended.stderr and not prefix.exists(), \
        ("install.sh is refused without a proved checker", ended)
    (house / "kept").rename(checker)
    for words in ((), ("--prefix",), (prefix, prefix), ("",)):
        ended = call(script, *words)
        assert ended.returncode == 64 and ended.stderr.startswith(b"usage: "), (f"install.sh: wrong use {words}", ended)
    ended = call(script, "--help")
    assert ended.returncode == 0 and b"PREFIX" in ended.stdout, ("install.sh --help", ended)
    ended = call(script, house / "crates.txt")
    assert ended.returncode == 73, ("install.sh: a prefix that is a file", ended)
    for _ in ("first", "over the first"):
        ended = call(script, prefix.name, cwd=prefix.parent)
        assert ended.returncode == 0 and ended.stdout.startswith(b"installed in "), ("install.sh", ended)
    found = sorted(path.name for path in (prefix / "bin").iterdir())
    assert found == sorted(COMMANDS), f"the commands are there: {found}"
    for command in COMMANDS:
        ended = call(prefix / "bin" / command, "--help", cwd="/")
        assert ended.returncode == 0 and b"usage" in ended.stdout, (f"{command} --help", ended)
    for name in ("README.md", "docs/FAULTS.md", "docs/LISTING.md", "docs/CONTROL_LANGUAGE.md", "docs/ATTESTING.md", "examples/first.job", "examples/INDEX"):
        assert (prefix / "share/doc/mps360" / name.removeprefix("docs/")).exists(), f"{name} is installed"
    ended = call(prefix / "bin/mps360", "--help", cwd="/")
    pages = [word.strip("(),") for word in ended.stdout.decode().split() if ".md" in word]
    assert pages and all(pathlib.Path(page).exists() for page in pages), f"mps360 --help names documents that are installed: {pages}"
    for name in STUBS:
        page = prefix / f"share/man/man1/{name}.1"
        assert page.read_bytes().startswith(f".TH {name.upper()} 1 ".encode()), f"the manual page {name}.1 is there"
        if shutil.which("man"):
            ended = call("man", page, env={**os.environ, "MANWIDTH": "80"})
            assert ended.returncode == 0 and not ended.stderr and b"EXIT STATUS" in ended.stdout, (f"the manual page {name}.1 can be read", ended)


def check_completion(folder, prefix):
    "what bash offers after 'mps360 f' and 'mps360 --v' in the folder of jobs"
    for command in ("mps360", "mps360check", "mps360long", "mps360-batch"):
        script = prefix / "share/bash-completion/completions" / command
        option = ("--r", "--resume") if command == "mps360-batch" else ("--v", "--version")
        for word, wanted in (("f", "first.job"), option):
            lines = f"cd {folder}; source {script}; COMP_WORDS=({command} {word}); COMP_CWORD=1; _mps360_of_{command.replace('-', '_')}; echo ${{COMPREPLY[@]}}"
            ended = call("bash", "-c", lines)
            assert ended.stdout.decode() == wanted + "\n", (f"completion of {command} {word}", ended)


def check_commands(folder, home):
    "the installed commands, from another folder, with no rt on the path"
    there = {"cwd": folder, "env": without_rt()}
    for name, (status, _) in STATUSES.items():
        for ended in (call(home / "mps360", f"{name}.job", **there), call(home / "mps360", input=example(name, "job"), **there)):
            assert (ended.returncode, ended.stdout, ended.stderr) == (status, example(name), b""), (f"mps360 {name}.job", ended)
    ended = call(home / "mps360", "--version", **there)
    assert ended.stdout.startswith(b"mps360 ") and ended.stdout.endswith(b", proved program\n"), ("mps360 --version", ended)
    ended = call(home / "mps360-explain", "conflict.job", **there)
    assert b"at most -10" in ended.stdout, ("mps360-explain", ended)
    ended = call(home / "mps360-explain", "first.job", **there)
    page = next((word for word in ended.stdout.decode().split() if word.endswith(".md")), "none")
    assert pathlib.Path(page).exists(), (f"mps360-explain names a document that is installed: {page}", ended)
    ended = call(home / "mps360-plot", input=example("pararhs"), **there)
    assert ended.stdout.endswith(b"no plan past 18\n"), ("mps360-plot", ended)
    ended = call(home / "listing2json", "--csv", input=example("first"), **there)
    assert b"columns,5,CHAIR,BS,46,,6,," in ended.stdout, ("listing2json", ended)


def check_punch(home, folder, is_proved):
    "a punched deck goes to PUNCH in the present folder, and from the batch to OUT/NAME.punch"
    known = places.DATA / "bcdout-one.job"
    wanted = known.with_suffix(".listing").read_bytes(), known.with_suffix(".punch").read_bytes()
    folder.mkdir()
    shutil.copy(known, folder)
    ended = call(home / "mps360", known, cwd=folder)
    assert (ended.stdout, (folder / "PUNCH").read_bytes()) == wanted, ("mps360: PUNCH in the present folder", ended)
    if is_proved:
        (folder / "none/PUNCH").mkdir(parents=True)
        ended = call(home / "mps360", known, cwd=folder / "none")
        assert ended.returncode == 26 and ended.stdout.endswith(b"STOP 26 PUNCH FAULT\n"), ("mps360: PUNCH can't be made", ended)
    (folder / "other.job").write_bytes(known.read_bytes().replace(b" ONE", b" TWO"))
    ended = call(home / "mps360-batch", "-j", "2", folder, folder / "out")
    assert (folder / "out/other.punch").read_bytes() == wanted[1].replace(b" ONE", b" TWO"), ("mps360-batch: each its own punched deck", ended)
    punched = (folder / "out/bcdout-one.listing").read_bytes(), (folder / "out/bcdout-one.punch").read_bytes()
    assert ended.returncode == 0 and punched == wanted, ("mps360-batch: OUT/NAME.punch", ended)


def test_installed_commands(tmp_path):
    home, jobs, is_proved = installed(tmp_path)
    check_completion(jobs, home.parent)
    check_commands(jobs, home)
    check_punch(home, tmp_path / "punched", is_proved)
    check_made(home / "mps360", without_rt())


def test_the_installed_checker(tmp_path):
    home, _, _ = installed(tmp_path)
    for name in ("mps360check", "mps360long"):
        check_checker(home / name, without_rt(), b"", tmp_path)
    for env in (without_rt(), {**without_rt(), "MPS360_UNPROVED": "1"}):
        ended = call(home / "mps360-attest", *model_and_solution(tmp_path), env=env, cwd="/")
        assert (ended.returncode, ended.stdout) == (0, b"attested: OPTIMAL, objective 9\n"), ended


def test_an_installed_program_of_the_same_sources(tmp_path):
    "where nothing is built, a clone runs the installed program that was built of its sources, and no other"
    house, prefix = tmp_path / "house", tmp_path / "prefix"
    make_house(house)
    put_programs(house)
    assert call(house / "scripts/install.sh", prefix).returncode == 0
    for name in STUBS:
        (house / "crates" / name / "out" / name).unlink()
    env = without_rt()
    env["PATH"] = f"{prefix / 'bin'}:{env['PATH']}"
    for words, file in (((), "program"), (("mps360check",), "check"), (("mps360long",), "long")):
        ended = call(house / "scripts/program.sh", "--fresh", *words, env=env)
        assert (ended.returncode, ended.stdout.decode().strip()) == (0, str(prefix / "libexec/mps360" / file)), ended
    (house / "crates.txt").write_text((house / "crates.txt").read_text() + "more:\n")
    assert call(house / "scripts/program.sh", "--fresh", env=env).returncode == 1, "a program of other sources isn't taken"


def test_a_trial_package(tmp_path):
    "programs that are unproved are installed as such, and no answer of theirs is called proved"
    house, prefix = tmp_path / "house", tmp_path / "prefix"
    make_house(house)
    (house / "module").touch()
    env = with_rt(house)
    for name, stub in STUBS.items():
        (house / "made").write_text(stub.format(house))
        assert call(house / "scripts/unproved.py", "--program", name, "--compile", env=env).returncode == 0
    ended = call(house / "scripts/install.sh", "--unproved", prefix, env=env)
    assert ended.returncode == 0, ended
    home = prefix / "libexec/mps360"
    assert not any((home / name).exists() for name in ("program", "check", "long"))
    (house / "model.mps").write_text(DIET)
    for command, words, status in (("mps360", [EXAMPLES / "first.job"], 0), ("mps360-solve", [house / "model.mps"], 0), ("mps360-batch", ["--out", tmp_path / "out", house / "model.mps"], 0),
                                   ("mps360check", [EXAMPLES / "store.job", EXAMPLES / "store.listing"], 0),
                                   ("mps360long", [EXAMPLES / "store.job", EXAMPLES / "store.listing"], 0)):
        ended = call(prefix / "bin" / command, *words, env=without_rt(), cwd=tmp_path)
        assert ended.returncode == status and b"UNPROVED" in ended.stderr and b"proved by the program" not in ended.stdout + ended.stderr, ended
        ended = call(prefix / "bin" / command, *words, env={**without_rt(), "MPS360_PROVED": "1"}, cwd=tmp_path)
        assert ended.returncode == 70, ended
    ended = call(prefix / "bin/mps360-solve", "--version", env=without_rt())
    assert ended.stdout.startswith(b"mps360-solve ") and b"no proved program" in ended.stdout, ended
