"""Makes a page to look at of a job and its listing: one HTML file without outside parts and without scripts.

usage: listing2html.py [--names MAP] [-o PAGE.html] JOB LISTING

  --names MAP   the table of names that mps2job.py wrote: names come as they were, and the objective's constant is said
  -o PAGE.html  where the page goes; without it to standard output

The page has each verdict in a sentence, a picture of what limits the plan, the plan and the rows as tables with decimals and exact
fractions, prices with the intervals of RANGE beside them, a ray as the sum of the limits that conflict, a direction as what grows, and
parametric runs as plots; the listing stands at its end. Units come from remarks of the job, as "* UNITS FLOUR: kg" (docs/PAGE.md).
It ends with 0, with 64 for wrong use, 65 where the text isn't a listing, or is one of another job, 66 where a file can't be read, 73
where the page can't be written."""
import hashlib
import sys
from mps360.files import bytes_of
from mps360.listings.made import OtherJob
from mps360.listings.read import NO_NAMES, NoListing, NoNames, read_names
from mps360.pages.html import Page
from mps360.pages.origin import Origin, now
from mps360.cli.options import Parser, ending
from mps360.output import command, write_file

NAME = "listing2html.py"


def say(message: str) -> None:
    "a line on standard error"
    print(f"{NAME}: {message}", file=sys.stderr)


def read_text(path: str) -> tuple[str, str]:
    "a file's lines, their bytes as letters of the same codes, and the file's SHA-256"
    content = bytes_of(path)
    return content.decode("latin-1").replace("\r\n", "\n").replace("\r", "\n"), hashlib.sha256(content).hexdigest()


@command(NAME)
def main(words: list[str] | None = None) -> int:
    "the command; its status"
    words = sys.argv[1:] if words is None else words
    parser = Parser(ending(say), allow_abbrev=True)
    parser.add_argument("--names")
    parser.add_argument("-o", dest="page")
    parser.add_argument("job")
    parser.add_argument("listing")
    options = parser.parse_args(words)
    try:
        (job, checksum), (listing, _) = (read_text(path) for path in (options.job, options.listing))
        names = read_names(options.names) if options.names else NO_NAMES
    except (OSError, ValueError) as cause:
        say(f"can't read {getattr(cause, 'filename', None) or options.names}: {getattr(cause, 'strerror', None) or cause}")
        return 66
    except NoNames as cause:
        say(f"{options.names}: {cause}")
        return 65
    try:
        page = Page(job, listing, names, Origin(now(), options.job, checksum))
        if not page.reports and not page.parsed["end"]:
            raise NoListing("it is empty")
        text = page.whole()
    except (NoListing, OtherJob, LookupError, ZeroDivisionError, TypeError, ValueError) as cause:
        say(f"{options.listing}: no page of this: {cause}")
        return 65
    if not page.has_constant:
        say("the objective or its right-hand side isn't that of the table of names; no constant is added")
    if options.page:
        write_file(options.page, text)
    else:
        getattr(sys.stdout, "reconfigure")(encoding="utf-8")
        sys.stdout.write(text)
    return 0
