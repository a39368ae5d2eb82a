"""Runs a job, or attests a listing, unproved: compiles the program as its sources stand, keeps it for later runs, and says how far it is.

usage: unproved.py [--make N]               the job is read from standard input; ends with the run's status, or 70 where there is no answer
       unproved.py --program mps360check    the same by a checker of listings, mps360check or mps360long: the listing is the file LISTING in the
                                            present folder
       unproved.py [--program NAME] --compile     compiles alone, optimised, and prints the program's path

The parts of the first time: Rattle reads all crates and lowers them, by one processor, and LLVM compiles what the program reaches, by up
to four. The program NAME that comes of it is kept under the checksum of the sources, in mps360/unproved/NAME of the user's cache
(XDG_CACHE_HOME, or ~/.cache), and later runs begin at once, in each clone with these sources. Of other sources the last three programs
stay, and those that ran in the last day."""
import os
import re
import signal
import subprocess
import sys
import time
from typing import BinaryIO

from mps360.unproved import ATTESTS, ATTESTS_LONG, PROVES, RUNS, Answered, NoAnswer, crate_of, kept, make, say
from mps360.output import CantWrite, command, temporary_folder, write_file

LONG_RUN = 10
MOST_BYTES = 16_400_000   # that a job may have


def run(name: str, program: str, words: list[str], job: BinaryIO | None = None) -> int:
    "runs the program; its status"
    begun = time.monotonic()
    ended = subprocess.run([program, *words], stdin=job, check=False)
    if time.monotonic() - begun > LONG_RUN and os.path.basename(program) != "fast":
        option = "" if name == RUNS else f"--program {name} "
        say(name, f"it ran for {time.monotonic() - begun:.0f} s; scripts/unproved.py {option}--compile makes an optimised program, in about half a minute: some 30 times as fast")
    if ended.returncode < 0:
        raise NoAnswer(f"the unproved program was ended by signal {-ended.returncode}, so there is no answer; scripts/build.sh builds the proved one")
    return ended.returncode


def told(answered: Answered) -> int:
    "the answer of rt try"
    try:
        sys.stdout.buffer.write(answered.listing)
        sys.stdout.flush()
    except CantWrite:
        # (as the program ends where its listing can't be written)
        getattr(sys.stdout, "give_up")()
        return 25
    if re.search(rb"^BCDOUT  ", answered.listing, re.M):
        say(RUNS, "this unproved run keeps no punched deck; the program that scripts/build.sh builds does")
    return answered.status


def own_words(words: list[str]) -> tuple[str, bool, list[str]] | None:
    "the program's name, whether it is compiled alone, and the words that it gets; None where the words are no use of this"
    name, words = (words[1], words[2:]) if words[:1] == ["--program"] and len(words) > 1 else (RUNS, words)
    is_made = name == RUNS and words[:1] != [] and words[0].startswith("--make")
    return (name, words == ["--compile"], words if is_made else []) if name in (RUNS, ATTESTS, ATTESTS_LONG) and (is_made or words in ([], ["--compile"])) else None


def answer(name: str, words: list[str]) -> int:
    "runs the program that was kept, or compiles it first; its status"
    program = kept(name) if crate_of(name).is_dir() else None
    if program:
        say(name, f"running UNPROVED, by the program that was compiled of these sources before; {PROVES}")
        return run(name, program, words)
    say(name, f"running UNPROVED, which takes about half a minute the first time, to compile; {PROVES}")
    with temporary_folder() as folder:
        job = os.path.join(folder, "JOB")
        # (of a longer job each program says the same as of its first bytes: that it is too long)
        write_file(job, b"" if words else sys.stdin.buffer.read(MOST_BYTES + 1))
        program = make(name, job=job, words=words)
        with open(job, "rb") as given:
            return run(name, program, words, given)


@command("unproved.py")
def main(words: list[str] | None = None) -> int:
    "the command; its status"
    words = sys.argv[1:] if words is None else words
    signal.signal(signal.SIGTERM, lambda *_: sys.exit(143))
    own = own_words(words)
    if own is None:
        print(f"usage: unproved.py [--make N | --program {ATTESTS} | --program {ATTESTS_LONG}] | [--program NAME] --compile", file=sys.stderr)
        return 64
    name, is_compiled_alone, words = own
    try:
        if is_compiled_alone:
            print(make(name, optimised=True))
            return 0
        return answer(name, words)
    except Answered as answered:
        return told(answered)
    except NoAnswer as cause:
        say(name, str(cause))
        return 70
    except KeyboardInterrupt:
        say(name, "interrupted; what was compiled before is kept")
        return 130
    except OSError as cause:
        say(name, f"{cause.filename}: {cause.strerror}")
        return 70
