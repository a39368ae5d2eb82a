"""Draws what a parametric run found: the best value of the objective over the parameter, which is a chain of straight lines.

usage: plot_parametric.py [--svg] [--run K] [-o FILE] [LISTING]      without LISTING the listing is read from standard input

  --svg    a picture in SVG; without it one of letters, and a table of the exact values
  --run K  the Kth parametric run of the listing; without it the last
  -o FILE  where it goes; without it to standard output

The value at each parameter is the sum of price times activity over rows and columns, which for a best plan is its objective (with the
parameter's share of the change row, in a run of PARAOBJ). It ends with 0, with 64 for wrong use, 65 where the text isn't a listing, or has
no such run, 66 where a file can't be read, 73 where one can't be written."""
import sys
from mps360.files import letters_of
from mps360.text import guard
from mps360.listings.read import NoListing, parse
from mps360.pages.parametric import NoRun, in_letters, in_svg, points_of
from mps360.cli.options import Parser, ending
from mps360.output import command, write_file

NAME = "plot_parametric.py"


def say(message: str) -> None:
    "a line on standard error"
    print(f"{NAME}: {message}", file=sys.stderr)


@command(NAME)
def main(words: list[str] | None = None) -> int:
    "the command; its status"
    words = sys.argv[1:] if words is None else words
    guard()
    parser = Parser(ending(say), allow_abbrev=True)
    parser.add_argument("--svg", action="store_true")
    parser.add_argument("--run", type=int)
    parser.add_argument("-o", dest="out")
    parser.add_argument("file", nargs="?")
    options = parser.parse_args(words)
    try:
        runs = [report for report in parse(letters_of(options.file))["reports"] if report["report"] == "parametric" and report["intervals"]]
        number = len(runs) if options.run is None else options.run
        if not 1 <= number <= len(runs):
            raise NoRun(f"it has {len(runs)} parametric runs")
        report = runs[number - 1]
        picture = (in_svg if options.svg else in_letters)(report, points_of(report))
        if options.out:
            write_file(options.out, picture)
        else:
            sys.stdout.write(picture)
    except OSError as cause:
        say(f"can't read {cause.filename}: {cause.strerror}")
        return 66
    except (NoListing, NoRun) as cause:
        say(f"{options.file or 'standard input'}: can't be drawn: {cause}")
        return 65
    return 0
