#!/usr/bin/env python3
"""The source in numbers: prints a row of a table for each. Lines are counted as docs/LAYERS.md counts them. A parameter is one of a function
in src/, with self. A dependency points upward where a crate stands on one of a higher layer, or of its own layer but further down in
crates.txt. With --duplicates it counts, by the command duplicates where that is there, the pairs of places in src/ and specs/ that share
six or more lines: with all lines, and without imports, which that command passes over in Rust but not in the form `ghost use`.

usage: source_numbers.py [--duplicates] [TREE]     TREE is a checkout, this one where none is given"""
import os
import pathlib
import re
import shutil
import subprocess
import sys
import tempfile
from collections.abc import Iterator
from pathlib import Path
import layers

MANY = 7
MOST_PAIRS, MOST_SECONDS = 200, 600


def look_at(tree: Path) -> layers.Map:
    "has the module layers look at this checkout"
    layers.TOP, layers.LIST = tree, tree / "crates.txt"
    return layers.Map()


def after_angles(text: str, place: int) -> int:
    "the place behind what stands in angles here"
    depth = 0
    while True:
        depth += {"<": 1, ">": -1}.get(text[place], 0) if text[place - 1:place + 1] not in ("->", "=>") else 0
        place += 1
        if depth == 0:
            return place


def parameters(text: str, place: int) -> int:
    "how many parameters stand in the brackets that open here"
    depth, parts = 0, [""]
    for at in range(place, len(text)):
        letter = text[at]
        if letter in "([{<":
            depth += 1
        elif letter in ")]}" or letter == ">" and text[at - 1] not in "-=":
            depth -= 1
            if depth == 0:
                return sum(1 for part in parts if part.strip())
        if letter == "," and depth == 1:
            parts.append("")
        elif (at, depth) != (place, 1):
            parts[-1] += letter
    return 0


def functions(text: str) -> Iterator[int]:
    "the number of parameters of each function"
    for found in re.finditer(r"\bfn \w+\s*", text):
        place = found.end()
        if text[place:place + 1] == "<":
            place = after_angles(text, place)
        place += len(text[place:]) - len(text[place:].lstrip())
        if text[place:place + 1] == "(":
            yield parameters(text, place)


def code(crates: layers.Map) -> list[str]:
    return [layers.code_of(path) for crate in crates.order for path in layers.files_of(crate, "src")]


def upward(crates: layers.Map) -> int:
    place = {crate: (crates.layer[crate], at) for at, crate in enumerate(crates.order)}
    return sum(place[other] > place[crate] for crate in crates.order for other in crates.below[crate])


def without_imports(text: str) -> str:
    "the text without its lines of imports for clauses"
    return "".join(line for line in text.splitlines(keepends=True) if not line.lstrip().startswith("ghost use "))


def pairs(tree: Path, with_imports: bool) -> str | int:
    "how many pairs of places the command duplicates finds; it reads .rs files, so the code is read under such names"
    if not shutil.which("duplicates"):
        return "no command duplicates"
    with tempfile.TemporaryDirectory() as folder:
        for path in sorted(tree.glob("crates/*/src/**/*.rt")) + sorted(tree.glob("crates/*/specs/**/*.antt")):
            if "declared" not in path.parts:
                copy = pathlib.Path(folder) / f"{path.relative_to(tree)}.rs"
                copy.parent.mkdir(parents=True, exist_ok=True)
                text = path.read_text(encoding="utf-8")
                copy.write_text(text if with_imports else without_imports(text), encoding="utf-8")
        said = subprocess.run(["duplicates", "--most", str(MOST_PAIRS), "--seconds", str(MOST_SECONDS)], cwd=folder, capture_output=True, text=True).stdout
    more = re.search(r"^\(\+(\d+) more pairs\)", said, re.MULTILINE)
    whole = "" if "incomplete:" not in said else " at least"
    return f"{len(re.findall(r'^D[0-9]+ ', said, re.MULTILINE)) + (int(more[1]) if more else 0)}{whole}"


def rows(tree: Path, with_duplicates: bool) -> Iterator[tuple[str, int | str]]:
    crates = look_at(tree)
    sizes = [sum(layers.lines_in(crate, folder) for crate in crates.order) for folder in ("src", "specs", "proofs")]
    texts = code(crates)
    yield "lines: all · code with tests · definitions · proofs", " · ".join(f"{size:,}" for size in (sum(sizes), *sizes))
    yield "crates", len(crates.order)
    yield f"functions with {MANY} or more parameters", sum(count >= MANY for text in texts for count in functions(text))
    if with_duplicates:
        yield "pairs of repeated runs of six or more lines", pairs(tree, True)
        yield "the same without imports", pairs(tree, False)
    yield "longest chain of crates", len(crates.longest())
    yield "upward dependencies", upward(crates)
    yield "must-fail edits", len(list(tree.glob("crates/*/must-fail/*.edit")))
    yield "test functions", sum(len(re.findall(r"^ *#\[test\]", text, re.MULTILINE)) for text in texts)


def main(words: list[str]) -> int:
    if words in (["-h"], ["--help"]):
        print(__doc__)
        return 0
    with_duplicates = words[:1] == ["--duplicates"]
    words = words[with_duplicates:]
    if len(words) > 1 or any(word.startswith("-") for word in words):
        print(f"usage: {os.path.basename(sys.argv[0])} [--duplicates] [TREE]", file=sys.stderr)
        return 64
    for what, number in rows(pathlib.Path(words[0]).resolve() if words else layers.TOP, with_duplicates):
        print(f"| {what} | {number} |")
    return 0


if __name__ == "__main__":
    sys.exit(main(sys.argv[1:]))
