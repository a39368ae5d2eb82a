"""Makes a job of an MPS file or a CPLEX LP file, or says on which line it can't be kept exactly. All that is changed, left out or chosen is said on
standard error, in the table of names, and in the job itself on cards that mean nothing to it.

usage: mps2job.py [OPTIONS] [-o JOB] [--names MAP] FILE      FILE is an MPS or an LP file, as it begins; it may be gzipped; - is standard input

  -o JOB           where the job goes; without it to standard output
  --names MAP      where the table of names goes, as JSON for listing2json.py; needed where names were shortened
  --max, --min     the sense; without it the file's OBJSENSE, and MIN where it has none
  --objective ROW  the objective; without it the file's OBJNAME, and the first N row where it has none
  --rhs SET, --ranges SET, --bounds SET      the set that counts; without it the first of the file
  --round          rounds a number that 12 columns don't hold to the nearest that they do; without it such a number is kept exactly, its digits
                   dealt out over rows that the job has more, and over a column that is fixed at 1
  --doubles        takes a number of 16 or 17 digits as the shortest decimal that is the same double, as .1 for .10000000000000001
  --relax          takes columns of whole numbers (MARKER, BV, LI, UI; General, Binary) as columns of any numbers; without it such a file is refused
  --ranging        RANGE after SOLUTION
  --free, --fixed  fields are words, or stand at their columns, as in old files whose names have blanks; without it fields are words,
                   and a line that says another thing by its columns is refused. The deck of the job is fixed in any case

Where programs differ, a file is refused until you say what it means:
  --negative-up keep|free      a negative UP where nothing is said of the lower limit: keep leaves it at 0 (no plan), free takes it away
  --marker-upper 1|none        the upper limit of a column between MARKERs that has no bound (with --relax)
  --blank-set same|own         a blank name of a set beside a named one: the same set as on the card before, or a set of its own
Two have a usual meaning, and other options for other programs:
  --constant minus|plus        the objective's constant is the negative of its number in RHS (minus, the usual), or that number
  --infinity NUMBER            a bound or range of this size and more is none; without it 1e20

Rows of type DN, DL, DG and DE, which are sums of multiples of rows before them, are taken with their parts. Numbers of more than 38
digits, sections that jobs don't know and problems past the limits are refused. It ends with 0, with 64 for wrong use, 65 where the file
is refused, 66 where it can't be read, 73 where JOB or MAP can't be written."""
import argparse
import json
import os
import sys
from collections.abc import Callable
from fractions import Fraction
from typing import NoReturn

from mps360 import errors
from mps360 import mps
from mps360.cli.options import Parser
from mps360.jobs.write import exact_job
from mps360.numbers import number
from mps360.output import command, write_file
from mps360.reading import INFINITY, Reading

Refuse = Callable[[str], NoReturn]


def say(message: str) -> None:
    "a message whose parts come from a file: no control character of it reaches the terminal"
    for line in message.split("\n"):
        shown = "".join(letter if letter.isprintable() else "?" for letter in line)
        print(shown.encode(sys.stderr.encoding or "ascii", "backslashreplace").decode(sys.stderr.encoding or "ascii"), file=sys.stderr)


def wrong_use(message: str) -> NoReturn:
    "tells wrong use, and ends the command"
    say(f"mps2job.py: {message}")
    sys.exit(64)


def parsed_options(words: list[str], refuse: Refuse = wrong_use) -> argparse.Namespace:
    "the options that these words say; wrong use is handed to refuse"
    parser = Parser(refuse)
    sense, form = parser.add_mutually_exclusive_group(), parser.add_mutually_exclusive_group()
    sense.add_argument("--max", dest="sense", action="store_const", const="MAX")
    sense.add_argument("--min", dest="sense", action="store_const", const="MIN")
    form.add_argument("--free", dest="form", action="store_const", const="free")
    form.add_argument("--fixed", dest="form", action="store_const", const="fixed")
    for word in ("--round", "--doubles", "--relax", "--ranging"):
        parser.add_argument(word, action="store_true")
    for word, choices in (("--negative-up", ("keep", "free")), ("--marker-upper", ("1", "none")), ("--blank-set", ("same", "own")),
                          ("--constant", ("minus", "plus"))):
        parser.add_argument(word, choices=choices)
    for word in ("--objective", "--rhs", "--ranges", "--bounds", "--infinity", "--names"):
        parser.add_argument(word)
    parser.add_argument("-o", dest="job")
    parser.add_argument("file")
    return parser.parse_args(words)


def reading_of(options: argparse.Namespace, refuse: Refuse = wrong_use) -> Reading:
    "how the options have a file read"
    infinity = INFINITY
    if options.infinity is not None:
        try:
            infinity = Fraction(number(options.infinity))
        except (errors.Refused, OverflowError) as cause:
            refuse(f"--infinity: {cause}")
        if infinity <= 0:
            refuse("--infinity is more than 0")
    return Reading(form=options.form or "either", numbers="round" if options.round else "exact", doubles=options.doubles, relax=options.relax,
                            marker_upper=options.marker_upper, negative_up=options.negative_up, blank_set=options.blank_set,
                            constant=options.constant or "minus", infinity=infinity, sense=options.sense, objective=options.objective,
                            rhs_set=options.rhs, range_set=options.ranges, bound_set=options.bounds)


def check_places(options: argparse.Namespace) -> None:
    "nothing is written over another file of this call"
    places = [os.path.realpath(place) for place in (options.job, options.names, options.file if options.file != "-" else None)
              if place and (os.path.isfile(place) or not os.path.exists(place))]
    if len(set(places)) < len(places):
        wrong_use("JOB, MAP and FILE are different files")


@command("mps2job.py")
def main(words: list[str] | None = None) -> int:
    "the command; its status"
    words = sys.argv[1:] if words is None else words
    options = parsed_options(words)
    check_places(options)
    try:
        model = mps.read_file(options.file, reading_of(options))
        job = exact_job(model, options.ranging, model.name or os.path.basename(options.file))
    except OSError as cause:
        say(f"mps2job.py: can't read {options.file}: {cause.strerror}")
        return 66
    except errors.Refused as cause:
        say(f"mps2job.py: {options.file}: {cause}")
        return 65
    if job.renamed and not options.names:
        say("mps2job.py: names were shortened; say by --names MAP where the table of names goes")
        return 64
    for sentence in job.said:
        say(f"mps2job.py: {sentence}")
    if options.names:
        write_file(options.names, json.dumps(job.name_map(), indent=1) + "\n")
    if options.job:
        write_file(options.job, job.text)
    else:
        sys.stdout.write(job.text)
    return 0
