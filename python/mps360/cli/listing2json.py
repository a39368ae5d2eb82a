"""Makes JSON of a listing, or CSV of its reports. Fractions stay exact, as text. docs/listing.schema.json has each field with its meaning.

usage: listing2json.py [--csv | --table NAME] [--decimal] [--names MAP] [FILE]      without FILE the listing is read from standard input

  --csv         the table lines of the last SOLUTION, with a head line
  --table NAME  CSV of all reports of a kind: verdicts, solutions, rays (and directions), ranges, intervals (of parametric runs), or
                others (titles, problems, setups, decks and bases); the column report numbers the reports of the listing
  --decimal     beside each fraction its value as a decimal number, which is rounded
  --names MAP   the table of names that mps2job.py wrote: names come as they were, and a constant of the objective is added to the objective
                of each verdict, under objective_with_constant; it isn't, and a line on standard error says so, where the SOLUTION below
                the verdict has another objective or right-hand side. What mps2job.py changed, left out or chosen stands under notes, in CSV
                on each line

In CSV a name that a spreadsheet could take for a formula (it begins with = + - @ or an apostrophe) has an apostrophe before it, and a control
character stands as an escape; in JSON names are exact. It ends with 0, with 64 for wrong use, 65 where the text isn't a listing, 66 where it
can't be read."""
import sys
from mps360.files import letters_of
from mps360.listings.read import NoListing, NoNames, name_back, parse, read_names
from mps360.listings.tables import TABLES, add_decimals, document, json_text, write_solution, write_table
from mps360.cli.options import Parser, ending
from mps360.output import command
from mps360 import notes

OTHER_OBJECTIVE = "the objective or its right-hand side isn't that of the table of names; no constant is added"

NAME = "listing2json.py"


def say(message: str) -> None:
    "a line on standard error"
    print(f"{NAME}: {message}", file=sys.stderr)


@command(NAME)
def main(words: list[str] | None = None) -> int:
    "the command; its status"
    words = sys.argv[1:] if words is None else words
    parser = Parser(ending(say), allow_abbrev=True)
    kind = parser.add_mutually_exclusive_group()
    kind.add_argument("--csv", action="store_true")
    kind.add_argument("--table", choices=TABLES)
    parser.add_argument("--decimal", action="store_true")
    parser.add_argument("--names")
    parser.add_argument("file", nargs="?")
    options = parser.parse_args(words)
    try:
        text = letters_of(options.file)
        names = read_names(options.names) if options.names else None
    except (OSError, ValueError) as cause:
        say(f"can't read {getattr(cause, 'filename', None) or options.names}: {getattr(cause, 'strerror', None) or cause}")
        return 66
    except NoNames as cause:
        say(f"{options.names}: {cause}")
        return 65
    getattr(sys.stdout, "reconfigure")(encoding="utf-8")
    try:
        listing = parse(text)
        if not listing["reports"] and not listing["end"]:
            raise NoListing("it is empty")
        if names and not name_back(listing, names):
            say(OTHER_OBJECTIVE)
        more = None if names is None else {notes.COLUMN: notes.as_cell(notes.of_table(names[0]))}
        if options.csv:
            write_solution(listing, options.decimal, sys.stdout, more)
        elif options.table:
            write_table(listing, options.table, options.decimal, sys.stdout, more)
        else:
            whole = document(listing, notes=None if names is None else notes.of_table(names[0]))
            if options.decimal:
                add_decimals(whole)
            sys.stdout.write(json_text(whole))
    except NoListing as cause:
        say(f"{options.file or 'standard input'}: not a listing: {cause}")
        return 65
    return 0
