"""Makes a basis deck, which INSERT takes, of a basis that another solver has written, or says on which line it can't.

usage: basis2deck.py [OPTIONS] [-o DECK] [--names MAP] [--from WRITER] MODEL.mps BASIS

  BASIS            what clp -basisOut, esolver -b (of QSopt_ex), lp_solve -wbas or glpsol -w has written, or another program in the same
                   form; its names are those of MODEL.mps. It may be gzipped
  -o DECK          where the deck goes; without it to standard output
  --names MAP      the table of names that mps2job.py wrote with the job: it is to be the one of this model
  --from WRITER    clp, esolver, lp_solve or glpsol, or activity: another program, which calls a row's limit upper where the row's activity
                   is at its upper limit. Needed where the file doesn't tell, and has a row of two limits

Each other option is one of mps2job.py, and says how MODEL.mps is read: say here what was said there. The deck goes behind the data
deck of the job, and INSERT between SETUP and PRIMAL (scripts/prove does all of it).

A column that no line names stands where SETUP puts it: at its lower limit, or else at its upper one, or else it is free. Names that were
shortened for the job are shortened here. What is placed otherwise than the file says, since a limit isn't there, is said on standard error:
a basis is a place to begin, and none makes another problem. It ends with 0, with 64 for wrong use, 65 where a file is refused, 66 where it
can't be read, 73 where DECK can't be written."""
import os
import sys

from mps360 import errors
from mps360 import mps
from mps360.bases import Basis
from mps360.bases import WRITERS, deck_of, read_file
from mps360.cli import mps2job
from mps360.cli.options import Parser, ending
from mps360.cli.words import joined
from mps360.jobs.write import Job, exact_job
from mps360.listings.read import NoNames, read_names
from mps360.model import Model
from mps360.output import command, write_file

NAME = "basis2deck.py"


class Ended(Exception):
    "the work is over, with this status and these words"


def say(words: str) -> None:
    "a line on standard error"
    mps2job.say(f"{NAME}: {words}")


def read_job(path: str, words: list[str]) -> Job:
    "the model of an MPS file, read by these words for mps2job.py, and its job"
    try:
        options = mps2job.parsed_options([*words, "--", path])
        model = mps.read_file(path, mps2job.reading_of(options))
        return exact_job(model, options.ranging, model.name or path)
    except OSError as cause:
        raise Ended(66, f"can't read {path}: {cause.strerror}") from None
    except errors.Refused as cause:
        raise Ended(65, f"{path}: {cause}") from None


def check_names(path: str, job: Job) -> None:
    "the table of names is to be the one of this job"
    try:
        names, *_ = read_names(path)
    except (OSError, ValueError) as cause:
        raise Ended(66, f"can't read {path}: {getattr(cause, 'strerror', None) or cause}") from None
    except NoNames as cause:
        raise Ended(65, f"{path}: {cause}") from None
    own = job.name_map()
    if any(names.get(key, {}) != own[key] for key in ("rows", "columns")):
        raise Ended(65, f"{path} isn't the table of names of {job.model.name or 'this model'}, read in this way")


def read_basis(path: str, model: Model, writer: str | None) -> Basis:
    "the basis of a file, or Ended"
    try:
        return read_file(path, model, writer)
    except OSError as cause:
        raise Ended(66, f"can't read {path}: {cause.strerror}") from None
    except errors.Refused as cause:
        raise Ended(65, f"{path}: {cause}") from None


def same_file(path: str, other: str | None) -> bool:
    "(a device isn't written over)"
    return other is not None and os.path.isfile(other) and os.path.realpath(path) == os.path.realpath(other)


@command(NAME)
def main(words: list[str] | None = None) -> int:
    "the command; its status"
    words = sys.argv[1:] if words is None else words
    parser = Parser(ending(say))
    parser.add_argument("-o", dest="deck")
    parser.add_argument("--names")
    parser.add_argument("--from", dest="writer", choices=WRITERS)
    parser.add_argument("model")
    parser.add_argument("basis")
    options, passed = parser.parse_known_args(joined(words))
    if unknown := [word for word in passed if not word.startswith("--")]:
        parser.error(f"one model and one basis; what is {unknown[0]}?")
    if options.deck and any(same_file(options.deck, path) for path in (options.model, options.basis, options.names)):
        parser.error("DECK is a file of its own")
    try:
        job = read_job(options.model, passed)
        if options.names:
            check_names(options.names, job)
        basis = read_basis(options.basis, job.file, options.writer)
        for sentence in basis.said:
            say(sentence)
        deck = deck_of(basis, job)
        if options.deck:
            write_file(options.deck, deck)
        else:
            sys.stdout.write(deck)
    except Ended as ended:
        say(ended.args[1])
        return int(ended.args[0])
    return 0
