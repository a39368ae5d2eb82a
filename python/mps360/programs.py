"""Runs jobs, and attests listings, for the other scripts: by the proved program where it is fresh, else all jobs unproved, built once
(`rt try --cases`)."""
from collections.abc import Mapping
import os
import pathlib
import re
import shutil
import subprocess
from mps360.commands import who_proves
from mps360.errors import NoProgram
from mps360.output import temporary_folder

# the repository, or the folder where the commands are installed
TOP = pathlib.Path(__file__).resolve().parents[2]
COMMANDS = TOP / "scripts" if (TOP / "scripts").is_dir() else TOP
# what the programs of a trial package end in
UNPROVED = ".unproved"
BUILDS = "scripts/build.sh builds it"


def installed_program(name: str, ending: str = "") -> str | None:
    "the path of the program of this name that is installed beside these modules, proved, or with the ending .unproved of a trial package; else None"
    installed = COMMANDS / ({"mps360": "program", "mps360check": "check", "mps360long": "long"}[name] + ending)
    return str(installed) if installed.exists() else None


def proved_program(name: str = "mps360", may_be_built: bool = True) -> str | None:
    "the path of the proved program of this name, installed or (where that is asked too) built here and fresh; None where there is none"
    installed = installed_program(name)
    if installed or not may_be_built or installed_program(name, UNPROVED):
        return installed
    found = subprocess.run([COMMANDS / "program.sh", "--fresh", name], capture_output=True, text=True, check=False)
    return found.stdout.strip() if found.returncode == 0 else None


def may_be_compiled(name: str) -> bool:
    "whether the sources of a program are here, and an unproved run isn't refused"
    return (TOP / "crates" / name).is_dir() and not os.environ.get("MPS360_PROVED")


def checker_program(is_unproved: bool = False, name: str = "mps360check") -> str:
    "the path of a checker of listings: the proved one, or where there is none and an unproved one is wanted, that which is compiled of its sources"
    program = proved_program(name)
    if program:
        return program
    if not is_unproved:
        raise NoProgram(f"no proved program {name} is there ({who_proves(BUILDS)})")
    from mps360 import unproved
    try:
        return unproved.make(name, optimised=True)
    except unproved.NoAnswer as cause:
        raise NoProgram(str(cause)) from None


def attested_by(program: str, job: bytes, listing: bytes) -> tuple[int, str]:
    "the status of a checker of listings, and what it prints"
    with temporary_folder() as folder:
        pathlib.Path(folder, "LISTING").write_bytes(listing)
        ended = subprocess.run([program], input=job, stdout=subprocess.PIPE, cwd=folder, timeout=600, check=False)
    return ended.returncode, ended.stdout.decode("latin-1")


def run_proved(program: str, job: bytes) -> tuple[int, bytes, bytes | None]:
    "the status, the listing and the punched deck (None where nothing is punched) of a job"
    with temporary_folder() as folder:
        ended = subprocess.run([program], input=job, stdout=subprocess.PIPE, cwd=folder, timeout=600, check=False)
        punch = pathlib.Path(folder, "PUNCH")
        return ended.returncode, ended.stdout, punch.read_bytes() if punch.exists() else None


def run_jobs(jobs: Mapping[str, bytes], unproved: bool = False, whole: bool = True) -> dict[str, tuple[int | None, bytes]]:
    """from names to bytes of jobs, the status and the listing of each. The unproved run may have no answer to a job: then the status is None,
    or, where the whole is wanted, that is told as the want of a program."""
    program = None if unproved else proved_program()
    if program:
        return {name: run_proved(program, job)[:2] for name, job in jobs.items()}
    if not unproved or not shutil.which("rt"):
        raise NoProgram(f"no proved program is there ({who_proves(BUILDS)})" if not unproved else "no command rt on the path")
    with temporary_folder() as folder:
        for name, job in jobs.items():
            pathlib.Path(folder, name).write_bytes(job)
        ended = subprocess.run(["rt", "try", "--cases", folder], cwd=TOP / "crates/mps360", capture_output=True, check=False)
    text = ended.stdout + ended.stderr
    statuses = {found[1].decode(): int(found[2]) for found in re.finditer(rb"^case=(\S+) run=ended status=(\d+)", text, re.M)}
    parts = re.split(rb"^== (\S+)\n", ended.stdout, flags=re.M)
    listings = {name.decode(): re.sub(rb"^case=.*\n?", b"", listing, flags=re.M) for name, listing in zip(parts[1::2], parts[2::2])}
    if not statuses:
        raise NoProgram("the unproved run gave no answer:\n" + text.decode(errors="replace")[-600:])
    silent = [name for name in jobs if name not in statuses]
    if whole and silent:
        line = re.search(rb"^case=%s .*$" % re.escape(silent[0].encode()), text, re.M)
        said = line[0].decode() if line else text[-300:].decode(errors="replace")
        raise NoProgram(f"the unproved run gave no answer to {len(silent)} of {len(jobs)} jobs, as {silent[0]}: {said}")
    return {name: (statuses.get(name), re.sub(rb"cases=\d+ ended=.*\n?", b"", listings.get(name, b""))) for name in jobs}
