#!/usr/bin/env python3
"""The layers of the crates, from crates.txt and the files: docs/LAYERS.md with its picture docs/layers.svg.

usage: layers.py --write      makes docs/LAYERS.md and docs/layers.svg
       layers.py --trim       makes the lines of crates.txt list exactly what the crates' files cite (but of those being written)
       layers.py --check      ends with 1 where one of these isn't what --write makes; where a crate stands on one of a higher layer, or
                              of its own layer but further down in crates.txt; where crates.txt lists another crate than the files
                              cite; and where a crate isn't listed in docs/ARCHITECTURE.md, under its layer, and in crates.txt"""
import html
import pathlib
import re
import sys
from collections.abc import Iterator
from pathlib import Path

TOP = pathlib.Path(__file__).resolve().parent.parent
LIST, PAGE, PICTURE, MAP = TOP / "crates.txt", TOP / "docs/LAYERS.md", TOP / "docs/layers.svg", TOP / "docs/ARCHITECTURE.md"
NUMBERS = "no one two three four five six seven eight nine ten eleven twelve thirteen fourteen fifteen sixteen seventeen eighteen nineteen".split()

# The picture: sizes, what fills a box by its crate's kind, and the colours of lines by the layer in which they begin.
WIDE, MARGIN, LETTER = 960, 14, 6.45
BOX, GAP, ROW, HEAD, FOOT = 20, 16, 40, 22, 6
FILL = {"definitions": "#dbe9f9", "laws": "#dcf0dc", "code": "#f4f4f4", "tests": "#fbeed5"}
LINES = ["#7a7a7a", "#2f6fb0", "#8a5a2b", "#3d8b57", "#8a4fa0", "#b0486a", "#b9b9b9"]
TURNS = 12


def listed() -> tuple[list[tuple[str, list[str]]], dict[str, list[str]]]:
    "the crates as crates.txt lists them, in their order: the layers with their crates, and what each line lists"
    layers: list[tuple[str, list[str]]] = []
    lines: dict[str, list[str]] = {}
    for line in re.sub(r"\A(?:#.*\n)+", "", LIST.read_text(encoding="utf-8")).splitlines():
        if line.startswith("#"):
            layers.append((line.strip("# ").rstrip("."), []))
        elif line.strip():
            head, _, rest = line.partition(":")
            name = head.split()[0]
            layers[-1][1].append(name)
            lines[name] = rest.split()
    return layers, lines


def code_of(path: Path) -> str:
    "the text of a file without its comments and strings"
    text = re.sub(r'"(?:[^"\\\n]|\\.)*"', '""', path.read_text(encoding="utf-8"))
    return re.sub(r"--.*" if path.suffix == ".antt" else r"//.*", "", text)


def files_of(crate: str, folder: str = "") -> list[Path]:
    return [path for path in sorted((TOP / "crates" / crate / folder).rglob("*"))
            if path.suffix in (".rt", ".antt", ".edit") and "out" not in path.relative_to(TOP / "crates" / crate).parts]


def cited_by(crate: str, names: set[str]) -> set[str]:
    "which of the names the files of a crate cite: as Rattle.NAME, as NAME:: or by use NAME"
    text = "\n".join(map(code_of, files_of(crate)))
    words = set(re.findall(r"\bRattle\.(\w+)", text)) | set(re.findall(r"(?<![\w.:])(\w+)::(?!<)|(?<=\buse )(\w+)\b", text))
    return {word for found in words for word in (found if isinstance(found, tuple) else (found,))} & names - {crate}


def kind_of(crate: str, layer: int, last: int) -> str:
    "the kind of a crate, by the rule that docs/ARCHITECTURE.md states"
    if layer == last:
        return "tests"
    text = "\n".join(code_of(path) for path in files_of(crate, "src"))
    functions = len(re.findall(r"\bfn \w+", text))
    if functions and len(re.findall(r"^\{(?:\n(?:    \w+\(\);\n)+)?\}$", text, re.M)) == functions:
        return "laws"
    shared = set(re.findall(r"\benum (\w+)", text))
    alone = re.sub(r"^impl (\w+) \{$.*?^\}$", lambda found: "" if found[1] in shared else found[0], text, flags=re.M | re.S)
    return "code" if re.search(r"\bfn \w+", alone) else "definitions"


class Map:
    "the crates, in layers, with what each stands on"
    def __init__(self) -> None:
        self.layers, self.lines = listed()
        self.order = list(self.lines)
        self.layer = {crate: place for place, (_, crates) in enumerate(self.layers) for crate in crates}
        self.below = {crate: [other for other in self.order if other in self.lines[crate]] for crate in self.order}
        self.kind = {crate: kind_of(crate, self.layer[crate], len(self.layers) - 1) for crate in self.order}
        self.level: dict[str, int] = {}
        self.all_below: dict[str, set[str]] = {}
        for crate in self.order:
            self.sink(crate)
        self.reduced = {crate: [one for one in self.below[crate] if not any(one in self.all_below[other] for other in self.below[crate])]
                        for crate in self.order}

    def sink(self, crate: str, over: tuple[str, ...] = ()) -> None:
        "finds the level of a crate, the length of its longest chain down, and all that it stands on"
        if crate in over:
            sys.exit(f"layers.py: crates.txt has a circle: {' '.join(over[over.index(crate):])} {crate}")
        if crate not in self.level:
            for other in self.below[crate]:
                self.sink(other, (*over, crate))
            self.level[crate] = 1 + max((self.level[other] for other in self.below[crate]), default=0)
            self.all_below[crate] = set(self.below[crate]).union(*(self.all_below[other] for other in self.below[crate]))

    def longest(self) -> list[str]:
        "a longest chain, the lowest crate first; of several the one whose crates, from the top, stand first in crates.txt"
        chain = [max(self.order, key=self.level.__getitem__)]
        while self.level[chain[-1]] > 1:
            chain.append(next(other for other in self.below[chain[-1]] if self.level[other] == self.level[chain[-1]] - 1))
        return chain[::-1]

    def libraries(self) -> dict[str, list[str]]:
        "the libraries of the kit, with the crates that cite each"
        return {name: [crate for crate in self.order if name in self.lines[crate]]
                for name in sorted({one for line in self.lines.values() for one in line} - set(self.order))}


def chain_text(crates: Map) -> str:
    chain = crates.longest()
    number = NUMBERS[len(chain)] if len(chain) < len(NUMBERS) else len(chain)
    return f"The longest chain of crates has {number}: {', '.join(f'`{crate}`' for crate in chain)}."


def lines_in(crate: str, folder: str) -> int:
    return sum(path.read_text(encoding="utf-8").count("\n") for path in files_of(crate, folder))


def table(crates: Map, place: int) -> Iterator[str]:
    yield "| Crate | Level | Kind | Code | Definitions | Proofs | Stands on |"
    yield "|---|---|---|---|---|---|---|"
    for crate in crates.layers[place][1]:
        sizes = [lines_in(crate, folder) for folder in ("src", "specs", "proofs")]
        below = ", ".join(f"`{one}`" for one in crates.reduced[crate])
        yield f"| [`{crate}`](../crates/{crate}) | {crates.level[crate]} | {crates.kind[crate]} | {' | '.join(map('{:,}'.format, sizes))} | {below} |"


def mermaid(crates: Map) -> Iterator[str]:
    yield "flowchart TB"
    for place, (title, members) in reversed(list(enumerate(crates.layers))):
        yield f'    subgraph layer_{place + 1} ["{place + 1}. {title.partition(":")[0]}"]'
        yield from (f"        {crate}" for crate in members)
        yield "    end"
    yield from (f"    {crate} --> {other}" for crate in crates.order for other in crates.reduced[crate])


def page_of(crates: Map) -> Iterator[str]:
    of_tests = sum(lines_in(crate, "src") for crate in crates.order if crates.kind[crate] == "tests")
    sizes = [sum(lines_in(crate, folder) for crate in crates.order) for folder in ("src", "specs", "proofs")]
    edges, shown = (sum(map(len, some.values())) for some in (crates.below, crates.reduced))
    yield "# The layers of the crates\n"
    yield "`dev/layers.py --write` makes this page of `crates.txt` and the crates' files; `dev/layers.py --check` says where it isn't " \
        "fresh. [ARCHITECTURE.md](ARCHITECTURE.md) says what each crate holds, and which kinds of crates there are.\n"
    yield f"{len(crates.order)} crates stand in {NUMBERS[len(crates.layers)]} layers, over {edges} dependencies. An edge is drawn, and a crate is " \
        f"named under \"stands on\", only where no other crate in between leads there: {shown} are left. The level of a crate is the length of " \
        f"its longest chain down. Lines are counted as they stand, with comments: {sizes[0] - of_tests:,} of code, {sizes[1]:,} of definitions, " \
        f"{sizes[2]:,} of proofs, and {of_tests:,} of tests, with the jobs and listings that stand in them.\n"
    yield f"{chain_text(crates)}\n"
    yield "![The crates in their layers, the lowest at the foot](layers.svg)\n"
    for place, (title, _) in enumerate(crates.layers):
        yield f"## {place + 1}. {title}\n"
        yield from table(crates, place)
        yield ""
    yield "## Libraries of the kit\n"
    yield "| Library | Crates that cite it |\n|---|---|"
    yield from (f"| `{name}` | {', '.join(f'`{crate}`' for crate in users)} |" for name, users in crates.libraries().items())
    yield "\n## The same as a graph\n"
    yield "```mermaid"
    yield from mermaid(crates)
    yield "```"


def width(crate: str) -> int:
    return round(len(crate) * LETTER + 10)


def rows_of(crates: Map, members: list[str]) -> Iterator[list[str]]:
    "the crates of a layer in rows, the lowest first: each stands over those of its layer that it stands on; a row that is too long is parted"
    depth: dict[str, int] = {}
    for crate in members:
        depth[crate] = 1 + max((depth[other] for other in crates.below[crate] if other in depth), default=0)
    for number in range(1, max(depth.values()) + 1):
        row: list[str] = []
        for crate in (one for one in members if depth[one] == number):
            if sum(width(one) + GAP for one in (*row, crate)) > WIDE - 2 * MARGIN:
                yield row
                row = []
            row.append(crate)
        yield row


def spread(row: list[str], wanted: dict[str, float]) -> dict[str, float]:
    "where the middles of a row come to stand: in the order of the places that they want, with the least moves (squared) that part them"
    row.sort(key=lambda crate: wanted[crate])
    before, room = [], 0
    for crate in row:
        before.append(room)
        room += width(crate) + GAP
    blocks: list[tuple[float, int]] = []
    for place, crate in enumerate(row):
        blocks.append((wanted[crate] - width(crate) / 2 - before[place], 1))
        while len(blocks) > 1 and blocks[-2][0] >= blocks[-1][0]:
            mean, count = blocks.pop()
            blocks[-1] = ((blocks[-1][0] * blocks[-1][1] + mean * count) / (blocks[-1][1] + count), blocks[-1][1] + count)
    lefts = [min(max(mean, MARGIN), WIDE - MARGIN - room + GAP) for mean, count in blocks for _ in range(count)]
    return {crate: round(left + offset + width(crate) / 2) for crate, left, offset in zip(row, lefts, before)}


def placed(crates: Map, rows: list[list[str]]) -> dict[str, float]:
    "the middle of each box, from row to row: near the middle of those that it is joined with"
    joined = {crate: list(crates.reduced[crate]) for crate in crates.order}
    for crate in crates.order:
        for other in crates.reduced[crate]:
            joined[other].append(crate)
    middle: dict[str, float] = {crate: WIDE / 2 for crate in crates.order}
    for row in rows:
        middle.update(spread(row, {crate: sum(middle[one] for one in crates.reduced[crate]) / len(crates.reduced[crate])
                                   if crates.reduced[crate] else WIDE / 2 for crate in row}))
    for turn in range(TURNS):
        for row in rows if turn % 2 else rows[::-1]:
            middle.update(spread(row, {crate: sum(middle[one] for one in joined[crate]) / len(joined[crate]) if joined[crate] else middle[crate]
                                       for crate in row}))
    return middle


def line(crates: Map, crate: str, other: str, x: dict[str, float], y: dict[str, int]) -> str:
    first, last = y[crate] + BOX, y[other]
    bend = min((last - first) / 2, 60)
    look = f'stroke="{LINES[crates.layer[crate] % len(LINES)]}" stroke-opacity="0.55"'
    return f'<path d="M{x[crate]} {first:g}C{x[crate]} {first + bend:g} {x[other]} {last - bend:g} {x[other]} {last:g}" {look}/>'


def picture(crates: Map) -> str:
    bands = [list(rows_of(crates, members)) for _, members in crates.layers]
    x = placed(crates, [row for band in bands for row in band])
    y, parts, top = {}, [], MARGIN + BOX + GAP
    for (title, _), band, place in reversed(list(zip(crates.layers, bands, range(len(bands))))):
        tall = HEAD + ROW * len(band) - (ROW - BOX) + FOOT
        parts.append(f'<rect x="4" y="{top}" width="{WIDE - 8}" height="{tall}" rx="6" fill="#fcfcfc" stroke="#cccccc"/>'
                     f'<text x="{MARGIN}" y="{top + 15}" font-weight="bold" fill="{LINES[place % len(LINES)] if place < 6 else "#7a6a3a"}">'
                     f'{place + 1}. {html.escape(title.partition(":")[0])}</text>')
        for number, row in enumerate(reversed(band)):
            y.update(dict.fromkeys(row, top + HEAD + ROW * number))
        top += tall + ROW - BOX
    lines = [line(crates, crate, other, x, y) for crate in crates.order for other in crates.reduced[crate]]
    boxes = [f'<g><title>{crate}: layer {crates.layer[crate] + 1}, level {crates.level[crate]}; stands on {", ".join(crates.reduced[crate]) or "nothing"}</title>'
             f'<rect x="{x[crate] - width(crate) / 2:g}" y="{y[crate]}" width="{width(crate)}" height="{BOX}" rx="3" fill="{FILL[crates.kind[crate]]}" stroke="#666666"/>'
             f'<text x="{x[crate]}" y="{y[crate] + 14}" text-anchor="middle">{crate}</text></g>' for crate in crates.order]
    legend, left = [], MARGIN
    for kind, fill in FILL.items():
        legend.append(f'<rect x="{left}" y="{MARGIN}" width="{width(kind)}" height="{BOX}" rx="3" fill="{fill}" stroke="#666666"/>'
                      f'<text x="{left + 5}" y="{MARGIN + 15}">{kind}</text>')
        left += width(kind) + GAP
    legend.append(f'<text x="{left + 6}" y="{MARGIN + 15}">a line leads down to what a crate stands on</text>')
    return "\n".join([
        f'<svg xmlns="http://www.w3.org/2000/svg" viewBox="0 0 {WIDE} {top}" font-family="monospace" font-size="10.5">',
        f'<rect width="{WIDE}" height="{top}" fill="#ffffff"/>', *legend, *parts, '<g fill="none" stroke-width="1.1">', *lines, "</g>", *boxes, "</svg>"]) + "\n"


def made(crates: Map) -> dict[Path, str]:
    "the files that are made, with their texts"
    return {
        PAGE: "\n".join(page_of(crates)) + "\n",
        PICTURE: picture(crates),
    }


def trimmed(crates: Map) -> str:
    "crates.txt, where each line lists what the files of its crate cite"
    names = set(crates.order) | set(crates.libraries())
    lines = []
    for line in LIST.read_text(encoding="utf-8").splitlines():
        head, name = line.partition(":")[0], line.partition(":")[0].partition(" ")[0]
        lines.append(f"{head}: {' '.join(sorted(cited_by(name, names)))}".rstrip() if name in crates.layer else line)
    return "\n".join(lines) + "\n"


def check_order(crates: Map) -> Iterator[str]:
    for crate in crates.order:
        for other in crates.below[crate]:
            if crates.layer[other] > crates.layer[crate]:
                yield f"crates.txt: {crate} stands on {other}, which is of a higher layer"
            elif crates.order.index(other) > crates.order.index(crate):
                yield f"crates.txt: {crate} stands on {other}, which is to stand above it"


def check_cited(crates: Map) -> Iterator[str]:
    names = set(crates.order) | set(crates.libraries())
    for crate in crates.order:
        cited, given = cited_by(crate, names), set(crates.lines[crate])
        if cited - given:
            yield f"crates.txt: the files of {crate} cite {' '.join(sorted(cited - given))}, which its line doesn't list"
        if given - cited:
            yield f"crates.txt: {crate} lists {' '.join(sorted(given - cited))}, which none of its files cites (dev/layers.py --trim)"
        if len(given) < len(crates.lines[crate]):
            yield f"crates.txt: {crate} lists a crate twice"


def check_map(crates: Map) -> Iterator[str]:
    "each crate stands once in the tables of docs/ARCHITECTURE.md, under the heading of its layer"
    headings = [part for part in re.split(r"^(?=## )", MAP.read_text(encoding="utf-8"), flags=re.M) if "\n| Crate |" in part]
    if len(headings) != len(crates.layers):
        yield f"docs/ARCHITECTURE.md: {len(headings)} tables for {len(crates.layers)} layers"
    found = []
    for place, part in enumerate(headings):
        for cell in re.findall(r"^\| (`[^|]*) \|", part, re.M):
            for crate in re.findall(r"`(\w+)`", cell):
                found.append(crate)
                if crate not in crates.layer:
                    yield f"docs/ARCHITECTURE.md: crates.txt doesn't list {crate}"
                elif crates.layer[crate] != place:
                    yield f"docs/ARCHITECTURE.md: {crate} isn't under the heading of its layer"
    for crate in crates.order:
        if found.count(crate) != 1:
            yield f"docs/ARCHITECTURE.md: {crate} stands in {found.count(crate)} rows of its tables"


def check_fresh(crates: Map) -> Iterator[str]:
    for path, text in made(crates).items():
        if not path.exists() or path.read_text(encoding="utf-8") != text:
            yield f"{path.relative_to(TOP)} isn't fresh: dev/layers.py --write makes it"
    for page in sorted({*TOP.glob("*.md"), *TOP.glob("docs/*.md")} - {PAGE}):
        if re.search(r"longest chain of crates (has|is)", page.read_text(encoding="utf-8")):
            yield f"{page.relative_to(TOP)}: a sentence says the longest chain of crates, which {PAGE.relative_to(TOP)} says"


def main(words: list[str]) -> int:
    if words not in (["--write"], ["--trim"], ["--check"]):
        print(__doc__)
        return 0 if words in (["-h"], ["--help"]) else 64
    crates = Map()
    if words == ["--trim"]:
        LIST.write_text(trimmed(crates), encoding="utf-8")
        return 0
    if words == ["--write"]:
        for path, text in made(crates).items():
            path.write_text(text, encoding="utf-8")
        return 0
    wrong = [line for check in (check_order, check_cited, check_map, check_fresh) for line in check(crates)]
    for line in wrong:
        print(line, file=sys.stderr)
    return 1 if wrong else 0


if __name__ == "__main__":
    sys.exit(main(sys.argv[1:]))
