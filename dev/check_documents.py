#!/usr/bin/env python3
"""Checks what documents say of the repository: no text cites a paper by number; each path and each heading that a document names is there;
each definition of docs/DEFINITIONS.md stands where it says (those of docs/rules.txt: dev/rules.py --check), and links alone lead from
README.md to the definitions of each rule; each call and each clause of docs/CLAIMS.md is there. dev/check.sh runs it.

usage: check_documents.py                     ends with 1 where something isn't so
       check_documents.py --walks [SEED]      prints ten rules, picked by a seed, with the links by which README.md leads to each"""
import pathlib
import random
import re
import sys
from collections.abc import Iterator
from pathlib import Path

import rules

TOP = pathlib.Path(__file__).resolve().parent.parent
CRATES = TOP / "crates"
CITED = re.compile(
    r"\b0[1-4]-[0-9]{1,2}\b"
    r"|\b(?:document|paper|demand|request|stage|rung)s? [0-9]+"
    r"|\b[DRTW][0-9]{1,2}(?:\.[0-9]+)?\b"
)
NAMED = re.compile(r"`((?:\.ci|scripts|python|dev|docs|examples|crates)/[^`\s]*)|\]\(([^)#\s]+)(?:#[^)]*)?\)")
NAME = re.compile(r"[A-Za-z_◌][\w◌]*")
wrong = 0


def told(path: Path, number: int, what: str) -> None:
    "says what is wrong in a line of a file"
    global wrong
    wrong += 1
    print(f"{path.relative_to(TOP)}:{number}: {what}", file=sys.stderr)


def lines_of(path: Path) -> enumerate[str]:
    "the lines of a file, counted from 1"
    return enumerate(path.read_text(encoding="utf-8").splitlines(), 1)


def prose(path: Path) -> Iterator[tuple[int, str]]:
    "the lines of prose of a file: all but its code"
    fenced = False
    for number, line in lines_of(path):
        if path.suffix == ".md":
            if line.lstrip().startswith("```"):
                fenced = not fenced
            elif not fenced:
                yield number, re.sub(r"`[^`]*`", "", line)
        else:
            mark = "//" if path.suffix in (".rt", ".edit") else "--"
            _, found, comment = re.sub(r'"(?:[^"\\]|\\.)*"', '""', line).partition(mark)
            if found:
                yield number, re.sub(r"`[^`]*`", "", comment)


def check_citations() -> None:
    for path in sorted(TOP.rglob("*")):
        if path.suffix in (".rt", ".antt", ".md", ".edit") and not {"out", ".git"} & set(path.parts):
            for number, text in prose(path):
                if found := CITED.search(text):
                    told(path, number, f"a paper is cited by number: {found.group()}")


def check_paths() -> None:
    for page in [*TOP.glob("*.md"), *TOP.glob("docs/*.md"), *TOP.glob("examples/*.md")]:
        for number, line in lines_of(page):
            for found in NAMED.finditer(line):
                name = (found[1] or "").rstrip(".,:)") or found[2]
                if "://" in name or re.search(r"NAME|[A-Z]+\.job|<|\.\.\.", name) or "/out/" in name:
                    continue
                base = TOP if found[1] else page.parent
                if not (list(base.glob(name)) if re.search(r"[*?]", name) else (base / name).exists()):
                    told(page, number, f"there is no {name}")


def rows(page: Path) -> Iterator[tuple[int, str, list[str]]]:
    "the rows of the tables of a page, as cells, each with the heading above it"
    heading = ""
    for number, line in lines_of(page):
        heading = line if line.startswith("#") else heading
        cells = [cell.strip() for cell in re.split(r"(?<!\\)\|", line)[1:-1]]
        if len(cells) == 3 and not set(line) <= set("|-: "):
            yield number, heading, cells


def quoted(cell: str) -> list[str]:
    return re.findall(r"`([^`]+)`", cell)


def sources(crate: str, folder: str, endings: tuple[str, ...]) -> str:
    return "\n".join(path.read_text(encoding="utf-8") for path in sorted((CRATES / crate / folder).rglob("*")) if path.suffix in endings)


def check_definitions() -> None:
    page = TOP / "docs/DEFINITIONS.md"
    for number, _, (_, names, places) in rows(page):
        crates, files = set(), []
        for place in quoted(places):
            found = re.fullmatch(r"(\w+)/(specs|src)(?:/(\w+))?", place)
            if found and (CRATES / found[1]).is_dir():
                crates.add(found[1])
            if found or re.fullmatch(r"[A-Z]\w*", place):
                files.append((found[1] if found else None, found[3] if found else place))
            elif not NAME.fullmatch(place):
                told(page, number, f"{place} isn't a place")
        for crate, file in files:
            if file and not any(list((CRATES / one).glob(f"*/{file}.*")) for one in ([crate] if crate else crates)):
                told(page, number, f"there is no {crate or ' or '.join(sorted(crates))}/specs/{file}")
        text = "".join(sources(crate, folder, (".antt", ".rt")) for crate in crates for folder in ("specs", "src"))
        words = set(NAME.findall(text))
        for name in quoted(names):
            if crates and not all(part in words for part in NAME.findall(name)):
                told(page, number, f"{name} isn't defined in {', '.join(sorted(crates))}")


def links_of(page: Path) -> set[Path]:
    "the pages and files to which the links of a page lead"
    text = re.sub(r"^```.*?^```", "", page.read_text(encoding="utf-8"), flags=re.M | re.S)
    return {(page.parent / name).resolve() for name in re.findall(r"\]\(([^)#\s]+)(?:#[^)]*)?\)", text) if "://" not in name}


def walks() -> dict[Path, list[Path]]:
    "the files to which links alone lead from README.md in three steps at most, each with the files on the way"
    ways = {TOP / "README.md": [TOP / "README.md"]}
    edge = list(ways)
    for _ in range(3):
        following = []
        for page in (page for page in edge if page.suffix == ".md"):
            for to in sorted(links_of(page)):
                if to.is_file() and to not in ways:
                    ways[to] = [*ways[page], to]
                    following.append(to)
        edge = following
    return ways


def walk_to(rule: rules.Rule, ways: dict[Path, list[Path]]) -> tuple[list[Path], str] | None:
    "the way to a file that defines a rule, and its definition there; or None"
    return next(((ways[line.path()], line.names[0]) for line in rule.of("definition") if line.path() in ways), None)


def check_walks() -> None:
    "from README.md, links alone lead in three steps at most to a file that defines each rule"
    ways = walks()
    for rule in rules.table():
        if not walk_to(rule, ways):
            told(rules.TABLE, rule.number, f"{rule.title}: README.md is more than three links away from its definition")


def print_walks(seed: str) -> None:
    "ten rules, with the way to each"
    ways = walks()
    for rule in random.Random(seed).sample(rules.table(), 10):
        found = walk_to(rule, ways)
        print(f"{rule.title}: {' -> '.join(str(path.relative_to(TOP)) for path in found[0])}, `{found[1]}`" if found else f"{rule.title}: no way")


def headings_of(page: Path) -> set[str]:
    "the headings of a page, as links name them"
    text = re.sub(r"^```.*?^```", "", page.read_text(encoding="utf-8"), flags=re.M | re.S)
    return {re.sub(r"[^\w\- ]", "", heading.lower()).strip().replace(" ", "-") for heading in re.findall(r"^#+ (.*)$", text, re.M)}


def check_headings() -> None:
    for page in [*TOP.glob("*.md"), *TOP.glob("docs/*.md"), *TOP.glob("examples/*.md")]:
        for number, line in lines_of(page):
            for name, heading in re.findall(r"\]\(([^)#\s]*)#([^)\s]+)\)", line):
                to = page.parent / name if name else page
                if "://" not in name and to.suffix == ".md" and to.exists() and heading not in headings_of(to):
                    told(page, number, f"there is no heading #{heading} in {name or page.name}")


def check_claims() -> None:
    page = TOP / "docs/CLAIMS.md"
    everywhere = {folder.name: sources(folder.name, "src", (".rt",)) for folder in sorted(CRATES.iterdir()) if folder.is_dir()}
    labels = {crate: set(re.findall(r"\b(?:ensures|requires)\s+(\w+)\s*\{", text) +
                        re.findall(r"^ +(?:pub )?(\w+) :", sources(crate, "specs", (".antt",)), re.M)) for crate, text in everywhere.items()}
    crates = []
    for number, heading, (calls, _, clauses) in rows(page):
        named = [part for call in quoted(calls) for part in re.split("::", call)]
        if calls == "Call":
            continue
        if calls:
            crates = [part for part in named + quoted(heading) if part in everywhere]
        text = "\n".join(everywhere[one] for one in crates) if crates else "\n".join(everywhere.values())
        for part in named:
            if part not in everywhere and not re.search(rf"\b{re.escape(part)}\b", text):
                told(page, number, f"there is no {part} in {', '.join(crates) or 'any crate'}")
        known = set().union(*(labels[one] for one in crates or labels))
        for clause in quoted(re.sub(r"\bof `[^`]+`|`[^`]+`'", "", clauses)):
            if clause not in known:
                told(page, number, f"there is no clause {clause} in {', '.join(crates) or 'any crate'}")


def main() -> int:
    words = sys.argv[1:]
    if words[:1] == ["--walks"] and len(words) <= 2:
        print_walks(words[1] if len(words) > 1 else "0")
        check_walks()
        return 1 if wrong else 0
    if words:
        print(__doc__)
        return 0 if words[0] in ("-h", "--help") else 64
    check_citations()
    check_paths()
    check_headings()
    check_definitions()
    check_walks()
    check_claims()
    return 1 if wrong else 0


if __name__ == "__main__":
    sys.exit(main())
