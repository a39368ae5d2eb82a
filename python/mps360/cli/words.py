"Words of commands: options with a value in both forms, as --word value and --word=value."
from __future__ import annotations

from collections.abc import Sequence

# the options of mps2job that have a value
VALUED = ("--negative-up", "--marker-upper", "--blank-set", "--constant", "--objective", "--rhs", "--ranges", "--bounds", "--infinity")


def joined(words: Sequence[str]) -> list[str]:
    "words in which the options of mps2job are one word each, so that both --infinity 1e25 and --infinity=1e25 are handed on whole"
    made: list[str] = []
    for word in words:
        if made and made[-1] in VALUED and not word.startswith("--"):
            made[-1] += f"={word}"
        else:
            made.append(word)
    return made


def taken(words: Sequence[str], name: str) -> tuple[list[str], str | None]:
    "the words without an option that has a value, and this; ValueError where it has none"
    kept, value, at = [], None, 0
    while at < len(words):
        if words[at] == name:
            if at + 1 == len(words):
                raise ValueError(f"{name} wants a value")
            value, at = words[at + 1], at + 2
        elif words[at].startswith(name + "="):
            value, at = words[at][len(name) + 1:], at + 1
        else:
            kept.append(words[at])
            at += 1
    return kept, value
