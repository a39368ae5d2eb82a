"The parts of a line of an MPS file: its words, or its fields by their columns."
from collections.abc import Collection
import re
from mps360.errors import Refused

FIELDS = ((1, 3), (4, 12), (14, 22), (24, 36), (39, 47), (49, 61))
GAPS = ((0, 1), (3, 4), (12, 14), (22, 24), (36, 39), (47, 49))
LAST_COLUMN = 61
FIRST_REMARK = {"ROWS": 2, "COLUMNS": 1, "RHS": 1, "RANGES": 1, "BOUNDS": 2}
WORDS = re.compile(r"[^ \t]+")
# a line of fixed fields, which is filled up with blanks to its last column
BY_COLUMNS = re.compile(r" ([^\t]{2}) ([^\t]{8})  ([^\t]{8})  ([^\t]{12})   ([^\t]{8})  ([^\t]{12})[^\t]*")


class Line:
    "the words or the fields of a line, by which its parts are known"

    def __init__(self, text: str, fixed: bool) -> None:
        self.text, self.fixed = text, fixed
        # the column, from 0, and the word that begin a remark
        self.remark: int | None = None
        self.marked = ""
        if fixed:
            self.check_gaps()
            text = self.text
            self.words = [text[a:b].strip(" ") if k in (0, 3, 5) else text[a:b].rstrip(" ") for k, (a, b) in enumerate(FIELDS)]
        else:
            self.words = WORDS.findall(text)

    @property
    def spans(self) -> list[tuple[int, int]]:
        "where the words or the fields stand"
        if self.fixed:
            return [(a, max(a + 1, min(b, len(self.text)))) for a, b in FIELDS]
        return [found.span() for found in WORDS.finditer(self.text)]

    def check_gaps(self) -> None:
        if "\t" in self.text:
            raise Refused("a tab has no place among columns", "\t")
        self.check_remark()
        if self.text[LAST_COLUMN - 1:LAST_COLUMN].strip(" ") and self.text[LAST_COLUMN:LAST_COLUMN + 1].strip(" "):
            raise Refused(f"field 6 goes on past column {LAST_COLUMN}", (LAST_COLUMN, len(self.text)))
        for a, b in GAPS:
            if between := self.text[a:b].strip(" "):
                start = self.text.index(between, a)
                raise Refused(f"something stands between the fields, in columns {a + 1} to {b}", (start, start + len(between)))

    def check_remark(self) -> None:
        "a $ at the start of field 3 or 5 begins a remark"
        self.remark = next((a for a, b in (FIELDS[2], FIELDS[4]) if self.text[a:a + 1] == "$"), None)
        if self.remark is not None:
            self.marked = self.text[self.remark:self.remark + 8].rstrip(" ")
            self.text = self.text[:self.remark].rstrip(" ")

    def cut_remark(self, section: str, known: Collection[str]) -> None:
        "leaves out a remark; refused where the word that begins it is a name"
        if self.fixed:
            if self.remark is not None and self.marked in known:
                raise Refused(f"{self.marked} is a name, and where it stands a $ begins a remark")
            return
        if "$" not in self.text:
            return
        for place in range(FIRST_REMARK[section], len(self.words)):
            if self.words[place].startswith("$"):
                if self.words[place] in known:
                    raise Refused(f"{self.words[place][:30]} is a name, and where it stands a $ begins a remark", place)
                self.text = self.text[:self.spans[place][0]].rstrip(" \t")
                del self.words[place:]
                return

    def by_columns(self) -> list[str] | None:
        "the parts of the line by the columns of fields, or None where something stands between these"
        found = BY_COLUMNS.fullmatch(self.text.ljust(LAST_COLUMN))
        return [part.strip(" ") for part in found.groups()] if found else None

    def span_of(self, word: int | str | tuple[int, int]) -> tuple[int, int] | None:
        "where a part stands: a place among the words, a word, or columns"
        if isinstance(word, tuple):
            return word
        if isinstance(word, int):
            return self.spans[word] if word < len(self.spans) else (len(self.text), len(self.text) + 1)
        place = next((place for place, other in enumerate(self.words) if other == word), None)
        if place is not None:
            return self.spans[place][0], self.spans[place][0] + len(word)
        at = self.text.find(word)
        return (at, at + len(word)) if at >= 0 else None
