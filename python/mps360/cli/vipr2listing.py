"""Makes a job and a listing of a VIPR certificate (VER 1.0 or 1.1) of a linear program that was solved to its end: the job states the
certificate's linear program, and the listing its plan with its multipliers as prices, or its proof that there is no plan.

usage: vipr2listing.py -o JOB [--listing LISTING] [--names MAP] CERTIFICATE      CERTIFICATE may be gzipped

  -o JOB             where the job goes
  --listing LISTING  where the listing goes; without it to standard output
  --names MAP        where the table of names goes, as JSON for listing2json.py; needed where names were shortened

The certificate is checked first, and refused where it doesn't hold. A constraint of one variable is a limit of that column; where
it can't be, and said, a row. Its solutions and multipliers may have any length. A number of the linear program that 12 columns don't hold is kept
exactly, as mps2job.py --exact does it; one without a decimal form (1/3) or with more than 38 digits is refused with its line, and no row is
multiplied. Refused besides: derivations other than lin, variables of whole numbers, bounds that don't meet. It ends with 0, with 64 for wrong use,
65 where the certificate is refused, 66 where it can't be read, 73 where a file can't be written."""
import os
import sys

from mps360 import errors
from mps360.cli import solution2listing
from mps360.cli.mps2job import say
from mps360.cli.solution2listing import Ended
from mps360.files import unzipped
from mps360.jobs.write import Job, exact_job
from mps360.listings.write import Refused
from mps360.long_answers import listing_of
from mps360.vipr import NoCertificate, Wrong, check, model_of, read
from mps360.cli.options import Parser, ending
from mps360.output import command

NAME = "vipr2listing.py"
MOST_BYTES = 1_000_000_000


def told(message: object) -> None:
    "a line on standard error"
    say(f"{NAME}: {message}")


def text_of(path: str) -> str:
    "the text of a certificate's file, gzipped or not"
    try:
        with open(path, "rb") as source:
            return unzipped(source.read(MOST_BYTES + 1), MOST_BYTES).decode("latin-1")
    except errors.Refused as cause:
        raise Ended(65, f"{path}: {cause}") from None
    except OSError as cause:
        raise Ended(66, f"can't read {path}: {cause.strerror}") from None


def made(path: str) -> tuple[Job, str]:
    "the job and the listing of a certificate"
    text = text_of(path)
    try:
        found = read(text)
        check(found)
        if found.integers:
            raise Wrong(f"{found.variables[found.integers[0]]} is to be whole, and a linear program has no such variables")
        model, answer = model_of(found)
        job = exact_job(model, False, os.path.basename(path))
        return job, listing_of(job, answer)
    except errors.Refused as cause:
        from mps360.long_numbers import ROUNDS
        cause.cause = cause.cause.removesuffix(ROUNDS)
        raise Ended(65, f"{path}: {cause}") from None
    except (NoCertificate, Wrong, Refused) as cause:
        raise Ended(65, f"{path}: {cause}") from None


def run(words: list[str]) -> int:
    "the command, or Ended"
    parser = Parser(ending(told))
    parser.add_argument("-o", dest="job", required=True)
    parser.add_argument("--listing")
    parser.add_argument("--names")
    parser.add_argument("certificate")
    options = parser.parse_args(words)
    solution2listing.check_places(options.job, options.names, options.listing, options.certificate)
    job, listing = made(options.certificate)
    solution2listing.put(job, listing, options, told)
    return 0


@command(NAME)
def main(words: list[str] | None = None) -> int:
    "the command; its status"
    words = sys.argv[1:] if words is None else words
    try:
        return run(words)
    except Ended as end:
        told(end)
        return end.status
