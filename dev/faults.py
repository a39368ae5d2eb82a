#!/usr/bin/env python3
"""The statuses and faults of a run, from examples/faults: INDEX and a job for each.

usage: faults.py --write       makes docs/FAULTS.md
       faults.py --check       ends with 1 where docs/FAULTS.md isn't what --write makes
       faults.py --run         runs each job by the proved program, and ends with 1 where a status or a line differs (70: no program)
       faults.py --run --unproved      the same by the program as it stands, unproved, built once"""
import pathlib
import re
import sys
from collections.abc import Iterator
sys.path.insert(0, str(pathlib.Path(__file__).resolve().parents[1] / "python"))
from mps360 import programs
from mps360.errors import NoProgram

FOLDER = programs.TOP / "examples/faults"
PAGE = programs.TOP / "docs/FAULTS.md"
HEADINGS = {
    "end": "The good end, and verdicts", "words": "Words of the command line", "control": "Faults of the control program",
    "verb": "Faults of a statement", "deck": "Faults of a deck", "card": "Faults of cards",
    "limit": "Limits, devices, memory", "check": "What mps360check answers besides 0, 4, 24, 25 and 28",
}
HEADING_OF = dict.fromkeys(("overflow", "read", "write", "punch", "memory"), "limit")
TITLES = {"control": "Control fault", "verb": "Verb fault", "deck": "Deck fault", "card": "Card fault"}
PROGRAM = "".join(f"         {verb}\n" for verb in ("PROGRAM", "CONVERT", "SETUP", "PRIMAL", "SOLUTION", "EXIT", "PEND"))
DECK = PROGRAM + "NAME          T\nROWS\n N  COST\n"


def made(name: str) -> str | None:
    "the jobs that are too long to be kept as files"
    entry = "    {:<10}{:<10}{}\n".format
    if name == "control-11":
        return "         PROGRAM\n" + "         INITIALZ\n" * 5001 + "         PEND\n"
    if name == "deck-16":
        return DECK + "".join(f" L  R{k}\n" for k in range(1000)) + "COLUMNS\nENDATA\n"
    if name == "deck-17":
        return DECK + "COLUMNS\n" + "".join(entry(f"X{k}", "COST", 1) for k in range(5001)) + "ENDATA\n"
    if name == "deck-18":
        rows = "".join(f" L  R{k}\n" for k in range(999))
        cards = (entry(f"X{k // 1000}", f"R{k % 1000}" if k % 1000 < 999 else "COST", 1) for k in range(50001))
        return DECK + rows + "COLUMNS\n" + "".join(cards) + "ENDATA\n"
    if name == "card-2":
        return "\n" * 200001
    return None


def job_of(name: str) -> bytes:
    "the job of a fault, from its file or made"
    path = FOLDER / f"{name}.job"
    if path.exists():
        return path.read_bytes()
    return (made(name) or "").encode()


def entries() -> Iterator[dict[str, str]]:
    text = re.sub(r"^#.*\n", "", (FOLDER / "INDEX").read_text(), flags=re.M)
    for block in text.strip().split("\n\n"):
        name, *lines = block.split("\n")
        yield {"name": name, **dict(line[2:].split(" ", 1) for line in lines)}


def wrong_card(entry: dict[str, str]) -> str | None:
    "the card that the line names"
    if "card" in entry:
        return entry["card"]
    found, job = re.search(r" CARD (\d+)", entry.get("stop", "")), job_of(entry["name"])
    if not found or not job:
        return None
    card = job.decode("latin-1").split("\n")[int(found[1]) - 1]
    return card.replace("\t", "<TAB>")


def page() -> str:
    lines = [
        "# Statuses and faults", "",
        "What each last line of a listing means, a card that has the fault, the line exactly, and the cure; at the end the answers of",
        "`mps360check`. `dev/faults.py --write` makes this page of `examples/faults/`; its jobs are run to see that they end so. The first",
        "card with a fault decides.",
        "[DEFINITIONS.md](DEFINITIONS.md#from-a-rule-to-its-code) has the definition of each fault, and the code that finds it.", "",
    ]
    begun = None
    for entry in entries():
        kind, _, rest = entry["name"].partition("-")
        heading = HEADINGS[HEADING_OF.get(kind, kind)]
        if heading != begun:
            lines += [f"## {heading}", ""]
            begun = heading
        if kind in TITLES:
            number, *more = [int(part) for part in rest.split("-")]
            title = f"{TITLES[kind]} {number}" + (f", number fault {more[0]}" if more else "") + f" (status {entry['status']})"
        else:
            title = f"Status {entry['status']}"
        lines += [f"### {title}", "", entry["means"][0].upper() + entry["means"][1:] + ".", ""]
        shown = [text for text in (wrong_card(entry), entry.get("stop")) if text]
        if shown:
            lines += ["```", *shown, "```", ""]
        lines += ["Cure: " + entry["cure"] + ".", ""]
    return "\n".join(lines).rstrip("\n") + "\n"


def run(unproved: bool) -> int:
    "runs the jobs, and compares how they end; the status"
    wanted = [entry for entry in entries() if "stop" in entry]
    try:
        answers = programs.run_jobs({entry["name"]: job_of(entry["name"]) for entry in wanted}, unproved)
    except NoProgram as cause:
        print(f"faults.py: {cause}", file=sys.stderr)
        return 70
    wrong = 0
    for entry in wanted:
        status, listing = answers[entry["name"]]
        last = next((line for line in listing.decode("latin-1").split("\n") if re.match("STOP |END ", line)), None)
        if (status, last) != (int(entry["status"]), entry["stop"]):
            wrong += 1
            print(f"{entry['name']}: status {status} and {last!r}, not {entry['status']} and {entry['stop']!r}", file=sys.stderr)
    print(f"{len(wanted) - wrong} faults as they are to be, {wrong} otherwise")
    return 1 if wrong else 0


def main(words: list[str]) -> int:
    if words == ["--write"]:
        PAGE.write_text(page())
    elif words == ["--check"]:
        if not PAGE.exists() or PAGE.read_text() != page():
            print("docs/FAULTS.md isn't what dev/faults.py --write makes", file=sys.stderr)
            return 1
    elif words in (["--run"], ["--run", "--unproved"]):
        return run(len(words) == 2)
    else:
        print(__doc__)
        return 0 if words in (["-h"], ["--help"]) else 64
    return 0


if __name__ == "__main__":
    sys.exit(main(sys.argv[1:]))
