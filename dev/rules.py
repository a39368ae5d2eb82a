#!/usr/bin/env python3
"""The rules of a run, from docs/rules.txt: of each its definitions, its faults, its contract, its code and the tests that try it.

usage: rules.py --write      makes the tables of "From a rule to its code" in docs/DEFINITIONS.md
       rules.py --check      ends with 1 where they aren't what --write makes; where a row lacks a definition, a contract or code; where a
                             file, a definition, a function with a contract, a fault, a test or an example that a row names isn't there;
                             where a definition doesn't test a fault, or tests it before one that stands above it; and where a fault
                             stands in no row"""
import pathlib
import re
import sys
from collections.abc import Iterator
from dataclasses import dataclass, field
from pathlib import Path

TOP = pathlib.Path(__file__).resolve().parent.parent
CRATES, TABLE, PAGE = TOP / "crates", TOP / "docs/rules.txt", TOP / "docs/DEFINITIONS.md"
MARKS = "<!-- rules -->", "<!-- /rules -->"
KINDS = ("definition", "fault", "contract", "code", "test", "example")
EXAMPLES = ("examples", "examples/faults")
# where the numbers of faults are defined
NUMBERS = {
    "deck": ("run_definitions/specs/Verbs", "deck_fault_number"), "number": ("run_definitions/specs/Verbs", "number_fault_of"),
    "verb": ("listing_definitions/specs/Ending", "verb_fault_number"), "control": ("control_definitions/specs/Compiled", "fault_number"),
    "card": ("listing_definitions/specs/Listing", "card_stop_text"),
}


@dataclass
class Line:
    "a line of a rule's row: a place, and what stands there; of a fault the definition that tests it, its kind, and the faults"
    number: int
    kind: str
    place: str
    names: list[str]

    def path(self) -> Path:
        "the file"
        if self.place in EXAMPLES:
            return TOP / self.place
        return CRATES / f"{self.place}{'.rt' if '/src/' in self.place else '.antt'}"


@dataclass
class Rule:
    "a rule: the line and the part in which it stands, what it is about, and its row"
    number: int
    part: str
    title: str
    lines: list[Line] = field(default_factory=list)

    def of(self, *kinds: str) -> list[Line]:
        return [line for line in self.lines if line.kind in kinds]


class WrongTable(Exception):
    "a line of docs/rules.txt that can't be read"


def names_in(text: str) -> list[str]:
    "the names of a line, of which those in quotes may have blanks"
    return re.findall(r'"[^"]+"|[^\s"]+', text)


def read(text: str) -> list[Rule]:
    "the rules of a table"
    rules: list[Rule] = []
    part = ""
    for number, line in enumerate(text.splitlines(), 1):
        row = re.fullmatch(r" +(\w+) +([\w/]+) +(\S.*)", line)
        if not line.strip() or line.startswith("#"):
            continue
        if heading := re.fullmatch(r"\[(.+)\]", line):
            part = heading[1]
        elif not line.startswith(" "):
            rules.append(Rule(number, part, line))
        elif line.startswith(" " * 8) and rules and rules[-1].lines:
            rules[-1].lines[-1].names += names_in(line)
        elif row and row[1] in KINDS and rules:
            rules[-1].lines.append(Line(number, row[1], row[2], names_in(row[3])))
        else:
            raise WrongTable(f"{number}: not a line of a rule")
    return rules


def table() -> list[Rule]:
    "the rules of docs/rules.txt"
    return read(TABLE.read_text(encoding="utf-8"))


def text_of(path: Path) -> str:
    return path.read_text(encoding="utf-8")


def defined_in(name: str, path: Path) -> bool:
    "whether a file defines this name, and a function of this name with a clause that it ensures"
    text = text_of(path)
    if path.suffix == ".antt":
        return bool(re.search(rf"^\s*(?:(?:abbrev|unfoldable) )?(?:pub )?(?:record |data )?{re.escape(name)}(?: :| \(|\s*$)", text, re.M))
    return bool(re.search(rf"\bfn {re.escape(name)}\b[^{{}}]*?(?:requires[^{{}}]*{{.*?)?\bensures\b", text, re.S))


def body_of(name: str, path: Path) -> str:
    "the text of a definition, up to the empty line after it"
    found = re.search(rf"^\s*(?:(?:abbrev|unfoldable) )?(?:pub )?{re.escape(name)} :.*?(?:\n\s*\n|\Z)", text_of(path), re.M | re.S)
    return found[0] if found else ""


def numbers_of_faults() -> dict[tuple[str, str], int]:
    "the number of each fault, by its kind and name, as the definitions have it"
    numbers = {}
    for kind, (place, name) in NUMBERS.items():
        for case, value in re.findall(rf"^{name} (.*?) = (.*)$", text_of(CRATES / f"{place}.antt"), re.M):
            if found := re.search(r"(?:^|Some |FAULT |fault_text )(\d+)", value):
                numbers[kind, re.findall(r"[A-Z]\w*", case)[-1 if kind == "number" else 0]] = int(found[1])
    return numbers


def run_jobs(place: str) -> dict[str, Path]:
    "the jobs of a folder of examples that are run and compared, each with its file, or with the index where it is made"
    folder = TOP / place
    if place == "examples":
        return {path.stem: path for path in folder.glob("*.job") if path.with_suffix(".listing").exists()}
    blocks = re.split(r"\n\n+", re.sub(r"^#.*\n", "", text_of(folder / "INDEX"), flags=re.M).strip())
    names = [block.split("\n")[0] for block in blocks if re.search(r"^  stop ", block, re.M)]
    return {name: path if (path := folder / f"{name}.job").exists() else folder / "INDEX" for name in names}


def is_test(name: str, path: Path) -> bool:
    "whether a file of tests has a test function of this name, or a case of this name in quotes"
    if name.startswith('"'):
        return name in text_of(path)
    return bool(re.search(rf"#\[test\]\s*fn {re.escape(name)}\b", text_of(path)))


def wrong_names(line: Line) -> Iterator[str]:
    "what a line names that isn't there"
    path = line.path()
    if not path.exists():
        yield f"there is no {path.relative_to(TOP)}"
    elif line.place in EXAMPLES:
        yield from (f"no {name} is run in {line.place}" for name in line.names if name not in run_jobs(line.place))
    elif line.kind == "test":
        if not line.place.partition("/")[0].endswith("_tests"):
            yield f"{line.place} isn't a file of tests"
        yield from (f"{path.relative_to(TOP)} has no test {name}" for name in line.names if not is_test(name, path))
    else:
        names = line.names[:1] if line.kind == "fault" else line.names
        yield from (f"{name} isn't defined in {path.relative_to(TOP)}, or ensures nothing" for name in names if not defined_in(name, path))


def wrong_faults(rule: Rule, numbers: dict[tuple[str, str], int]) -> Iterator[tuple[int, str]]:
    "what isn't so of the faults of a rule, with the line that says it"
    last: dict[str, int] = {}
    for line in rule.of("fault"):
        name, kind, *faults = [*line.names, "", ""][:max(len(line.names), 2)]
        for fault in faults:
            test = re.search(rf"\b{fault}\b", body_of(name, line.path())) if line.path().exists() else None
            if (kind, fault) not in numbers:
                yield line.number, f"there is no {kind} fault {fault}"
            elif not test:
                yield line.number, f"{name} doesn't test {fault}"
            elif test.start() < last.get(name, 0):
                yield line.number, f"{name} tests {fault} before the fault above"
            else:
                last[name] = test.start()


def wrong_rules(rules: list[Rule]) -> Iterator[tuple[int, str]]:
    "what isn't so in the table, with the line that says it"
    numbers = numbers_of_faults()
    for rule in rules:
        for line in rule.lines:
            yield from ((line.number, what) for what in wrong_names(line))
        yield from wrong_faults(rule, numbers)
        yield from ((rule.number, f"{rule.title}: no {kind} stands here") for kind in ("definition", "contract", "code") if not rule.of(kind))
    given = {(line.names[1], fault) for rule in rules for line in rule.of("fault") if len(line.names) > 1 for fault in line.names[2:]}
    for kind, fault in sorted(set(numbers) - given):
        yield 1, f"{kind} fault {numbers[kind, fault]}, {fault}, stands in no rule"


def link(name: str, path: Path) -> str:
    return f"[{name}](../{path.relative_to(TOP)})"


def links(lines: list[Line]) -> str:
    "the names of lines, each linked to its file"
    return ", ".join(link(f"`{name}`", line.path()) for line in lines for name in line.names)


def definition_cell(rule: Rule, numbers: dict[tuple[str, str], int]) -> str:
    "the definitions of a rule, and under them its faults"
    cell = [links(rule.of("definition"))]
    for line in rule.of("fault"):
        name, kind, *faults = line.names
        cell.append(", ".join(f"{kind} fault {numbers[kind, fault]} `{fault}`" for fault in faults) + f": {link(f'`{name}`', line.path())}")
    return "<br>".join(cell)


def tests_of(line: Line) -> str:
    "the jobs of a line, each linked to its file, or its file, linked, with the tests or worked examples of the line"
    if line.place in EXAMPLES:
        jobs = run_jobs(line.place)
        return ", ".join(link(name, jobs[name]) for name in line.names)
    names = ", ".join(name if name.startswith('"') else f"`{name}`" for name in line.names)
    crate, *_, file = line.place.split("/")
    return f"{'computed: ' if line.kind == 'example' else ''}{link(f'{crate}/{file}', line.path())}: {names}"


def section(rules: list[Rule]) -> str:
    "the tables, with a sentence that counts"
    numbers = numbers_of_faults()
    tested = sum(bool(rule.of("test")) for rule in rules)
    computed = sum(not rule.of("test") and bool(rule.of("example")) for rule in rules)
    lines = [f"Of {len(rules)} rules {tested} are tried by a test, {computed} by worked examples of their definitions alone, and "
             f"{len(rules) - tested - computed} are proved alone."]
    for part in dict.fromkeys(rule.part for rule in rules):
        lines += ["", f"### {part}", "", "| Rule | Definition, faults | Contract | Code | Test |", "|---|---|---|---|---|"]
        for rule in (rule for rule in rules if rule.part == part):
            cells = (rule.title, definition_cell(rule, numbers), links(rule.of("contract")), links(rule.of("code")),
                     "<br>".join(map(tests_of, rule.of("test", "example"))) or "proved alone")
            lines.append(f"| {' | '.join(cells)} |")
    return "\n".join(lines)


def with_section(text: str, made: str) -> str:
    "the text of a page with this section between the markers"
    return re.sub(f"{re.escape(MARKS[0])}.*?{re.escape(MARKS[1])}", lambda _: f"{MARKS[0]}\n{made}\n{MARKS[1]}", text, flags=re.S)


def check(rules: list[Rule]) -> list[str]:
    "what is wrong with the table and the page"
    wrong = [f"{TABLE.relative_to(TOP)}:{number}: {what}" for number, what in wrong_rules(rules)]
    page = text_of(PAGE)
    if page.count(MARKS[0]) != 1 or page.count(MARKS[1]) != 1:
        wrong.append(f"{PAGE.relative_to(TOP)}: the tables of rules aren't between {MARKS[0]} and {MARKS[1]}")
    elif not wrong and page != with_section(page, section(rules)):
        wrong.append(f"{PAGE.relative_to(TOP)} isn't what dev/rules.py --write makes of {TABLE.relative_to(TOP)}")
    return wrong


def main(words: list[str]) -> int:
    if words not in (["--write"], ["--check"]):
        print(__doc__)
        return 0 if words in (["-h"], ["--help"]) else 64
    try:
        rules = table()
    except WrongTable as cause:
        print(f"{TABLE.relative_to(TOP)}:{cause}", file=sys.stderr)
        return 1
    if words == ["--write"]:
        wrong = [f"{TABLE.relative_to(TOP)}:{number}: {what}" for number, what in wrong_rules(rules)]
        if not wrong:
            PAGE.write_text(with_section(text_of(PAGE), section(rules)), encoding="utf-8")
    else:
        wrong = check(rules)
    for line in wrong:
        print(line, file=sys.stderr)
    return 1 if wrong else 0


if __name__ == "__main__":
    sys.exit(main(sys.argv[1:]))
