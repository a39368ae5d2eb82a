"""Writes an answer of a listing, optimal or infeasible, as a VIPR certificate (VER 1.0): the linear program, the plan, and the proof by
multipliers of rows and bounds, which other programs can check.

usage: listing2vipr.py [--line N] [--names MAP] [-o CERTIFICATE] JOB LISTING

  --line N         the SOLUTION OPTIMAL or the INFEASIBLE verdict that begins at line N; without it the last one
  --names MAP      the table of names that mps2job.py wrote: names come as they were
  -o CERTIFICATE   where it goes; without it to standard output

Each verdict and each SOLUTION up to that one is tested on the way, so a listing whose numbers don't prove what it says is refused, with the
line. RANGE, PUNCH, INSERT and the intervals of parametric runs are passed over. It ends with 0, with 64 for wrong use, 65 where the listing is
refused or has no such answer, 66 where a file can't be read, 73 where one can't be written."""
import argparse
import json
import pathlib
import sys

from mps360.files import bytes_of
from mps360.listings.made import OtherJob
from mps360.listings.read import NoListing
from mps360.vipr import Certificate, NoClaim, claims_of, lines_of
from mps360.cli.options import Parser, ending
from mps360.output import command, write_file

NAME = "listing2vipr.py"


def claimed(job: str, listing: str, line: int | None, table: dict[str, dict[str, str]]) -> Certificate:
    "the certificate of the answer that is wanted; NoClaim where there is none"
    claims = []
    for claim in claims_of(job, listing, table):
        claims.append(claim)
        if claim.line == line:
            break
    wanted = [claim for claim in claims if line in (None, claim.line)]
    if not wanted:
        place = f"begins at line {line}" if line else "is in it; SOLUTION after PRIMAL prints the proof"
        raise NoClaim(f"no SOLUTION OPTIMAL and no verdict INFEASIBLE {place}")
    certificate = wanted[-1].certificate
    if certificate is None:
        raise NoClaim(f"line {wanted[-1].line}: the answer is UNBOUNDED, for which VIPR has no form")
    return certificate


def parsed_options(words: list[str]) -> argparse.Namespace:
    "the options that these words say"
    parser = Parser(ending(say))
    parser.add_argument("--line", type=int)
    parser.add_argument("--names")
    parser.add_argument("-o", dest="certificate")
    parser.add_argument("job")
    parser.add_argument("listing")
    return parser.parse_args(words)


def say(message: str) -> None:
    "a line on standard error"
    print("".join(letter if " " <= letter <= "~" else "?" for letter in f"{NAME}: {message}"), file=sys.stderr)


@command(NAME)
def main(words: list[str] | None = None) -> int:
    "the command; its status"
    words = sys.argv[1:] if words is None else words
    options = parsed_options(words)
    try:
        job, listing = (bytes_of(path).decode("latin-1") for path in (options.job, options.listing))
        table = json.loads(pathlib.Path(options.names).read_text(encoding="utf-8")) if options.names else {}
    except OSError as cause:
        say(f"can't read {cause.filename}: {cause.strerror}")
        return 66
    except ValueError:
        say(f"{options.names}: it isn't a table of names that mps2job.py wrote")
        return 65
    try:
        text = "\n".join(lines_of(claimed(job, listing, options.line, table))) + "\n"
    except (NoClaim, NoListing, OtherJob) as cause:
        say(f"{options.listing}: {cause}")
        return 65
    if options.certificate:
        write_file(options.certificate, text)
    else:
        sys.stdout.write(text)
    return 0
