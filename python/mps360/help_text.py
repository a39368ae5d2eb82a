"""The text of --help: what a command's module says at its head, in lines of a terminal's width; and its parts, of which manual pages are made.

    parts = parts_of(text)        each a Usage, a Paragraph or a Row
    shown = wrapped(text)         lines of at most WIDTH columns

A head is written so: blank lines part its paragraphs; a line that begins with `usage: ` begins the forms of the command, each on lines of its own, those
after the first and their continuations indented; a line of two blanks begins a row of a table: a term, two blanks or more, and what it means, which goes on
in lines that are indented further. A form too may have two blanks or more and what it means."""
from __future__ import annotations

import os
import re
import subprocess
import textwrap
from collections.abc import Iterator
from dataclasses import dataclass

from mps360 import commands

WIDTH = 79
MOST_TERM = 20
USAGE = "usage: "


@dataclass(frozen=True)
class Paragraph:
    "a paragraph; an item of a list begins with a dash"
    text: str


@dataclass(frozen=True)
class Row:
    "a row of a table: a term, and what it means"
    term: str
    text: str


@dataclass(frozen=True)
class Usage:
    "a form of a command, and what it does where that is said"
    form: str
    text: str


Part = Paragraph | Row | Usage


def split_row(line: str) -> tuple[str, str]:
    "a term or a form, and what follows two blanks or more behind it"
    found = re.match(r"(\S.*?)(?:\s{2,}(\S.*))?$", line.strip())
    return (found[1], found[2] or "") if found else ("", "")


def usages(lines: list[str]) -> Iterator[Usage]:
    "the forms of a usage: a form goes on where a line doesn't begin with the command's name"
    name = lines[0].removeprefix(USAGE).split()[0]
    forms: list[str] = []
    for line in lines:
        line = line.removeprefix(USAGE)
        if line.split()[:1] == [name] or not forms:
            forms.append(line.strip())
        else:
            forms[-1] += (" " if split_row(forms[-1])[1] or line.lstrip()[0] in "[-A-Z|" else "  ") + line.strip()
    for form in forms:
        yield Usage(*split_row(form))


def parts_of(text: str) -> list[Part]:
    "the parts of a text, in their order"
    parts: list[Part] = []
    for block in re.split(r"\n\s*\n", text.strip("\n")):
        lines = block.split("\n")
        if lines[0].startswith(USAGE):
            parts += usages(lines)
            continue
        begins = True
        for line in lines:
            if re.match(r" {2,3}-? ?\S", line) and not re.match(r"  - ", line) and (begins or not isinstance(parts[-1], Paragraph) or not parts[-1].text.startswith("- ")):
                parts.append(Row(*split_row(line)))
            elif re.match(r"  - ", line) or begins or not line.startswith(" ") and isinstance(parts[-1], Row):
                parts.append(Paragraph(line.strip()))
            else:
                last = parts.pop()
                more = " ".join(filter(None, (last.text, line.strip())))
                parts.append(Row(last.term, more) if isinstance(last, Row) else Paragraph(more))
            begins = False
    return parts


def filled(text: str, first: str, others: str) -> str:
    "a text in lines, with what stands before the first and before the others"
    return textwrap.fill(text, WIDTH, initial_indent=first, subsequent_indent=others, break_long_words=False, break_on_hyphens=False)


def row_lines(row: Row, wide: int) -> str:
    "a row of a table whose terms have so many columns; a longer term has a line of its own"
    if not row.text:
        return f"  {row.term}"
    if len(row.term) <= wide:
        return filled(row.text, f"  {row.term.ljust(wide)}  ", " " * (wide + 4))
    return f"  {row.term}\n" + filled(row.text, " " * (wide + 4), " " * (wide + 4))


def usage_lines(usage: Usage, first: bool) -> str:
    "a form, and below it what it does"
    name = usage.form.split(" ", 1)[0]
    indent = " " * min(len(USAGE) + len(name) + 1, 16)
    # (what stands in brackets stays in one line)
    form = re.sub(r"\[[^\[\]]*(?:\[[^\[\]]*\][^\[\]]*)*\]", lambda found: found[0].replace(" ", "\0"), usage.form)
    lines = filled(form, USAGE if first else " " * len(USAGE), indent).replace("\0", " ")
    if len(lines) > WIDTH and any(len(line) > WIDTH for line in lines.split("\n")):
        lines = filled(usage.form, USAGE if first else " " * len(USAGE), indent)
    return lines + ("\n" + filled(usage.text, " " * (len(USAGE) + 4), " " * (len(USAGE) + 4)) if usage.text else "")


def wrapped(text: str) -> str:
    "a text as parts_of reads it, in lines of at most WIDTH columns"
    parts, lines = parts_of(text), []
    for at, part in enumerate(parts):
        before = parts[at - 1] if at else None
        is_item = isinstance(part, Paragraph) and part.text.startswith("- ")
        goes_on = type(before) is type(part) and not isinstance(part, Paragraph) or is_item and isinstance(before, Paragraph) and before.text.startswith("- ")
        if before and not goes_on:
            lines.append("")
        if isinstance(part, Usage):
            lines.append(usage_lines(part, not isinstance(before, Usage)))
        elif isinstance(part, Row):
            lines.append(row_lines(part, wide_of(parts, at)))
        else:
            lines.append(filled(part.text, "  " if is_item else "", "    " if is_item else ""))
    return "\n".join(lines)


def wide_of(parts: list[Part], at: int) -> int:
    "how many columns the terms have of the table in which this row stands"
    first = last = at
    while first and isinstance(parts[first - 1], Row):
        first -= 1
    while last + 1 < len(parts) and isinstance(parts[last + 1], Row):
        last += 1
    return max([len(row.term) for row in parts[first:last + 1] if isinstance(row, Row) and len(row.term) <= MOST_TERM] or [MOST_TERM])


def named(name: str, text: str) -> str:
    "the head of a command's module with the names that the commands have here"
    def is_called(found: re.Match[str]) -> str:
        return os.path.basename(commands.called(found[0]))
    text = re.sub(rf"^(usage: |       ){re.escape(name)}\b(?!\.)", lambda found: found[1] + os.path.basename(commands.called(name)), text, flags=re.M)
    if commands.IS_INSTALLED:
        text = re.sub(r"\b(?<!scripts/)[a-z0-9_]+\.py\b|\b(?<!-)(?:attest|explain|prove|solve)(?= --help)", is_called, text)
    return commands.here(text)


def shown(name: str, text: str) -> str:
    "what --help says"
    return wrapped(named(name, text)) + "\n\n--help says this, --version of which commit it is."


def version(name: str) -> str:
    "what --version says: of which commit the commands are, and whether there is a proved program"
    asked = subprocess.run([os.path.join(commands.TOP, "mps360" if commands.IS_INSTALLED else "scripts/mps360"), "--version"], check=False,
                           stdout=subprocess.PIPE, stdin=subprocess.DEVNULL, text=True)
    return f"{os.path.basename(commands.called(name))} {asked.stdout.strip().removeprefix('mps360 ')}"
