"The faults that the public calls raise: Error is above all of them."


class Error(Exception):
    "a fault of the package's own"


class NoProgram(Error):
    "neither a proved program nor another one can be had, or a solver that was asked for isn't installed"


class CantRun(Error):
    "a program can't be run, or gives no answer"


class Refused(Error):
    """why a file or a model isn't taken: cause; where it is known, file, line (counted from 1), text of the line, span (the columns of it that are meant,
    counted from 0) and word"""

    file: str | None
    text: str | None
    span: tuple[int, int] | None

    def __init__(self, cause: str, word: int | str | tuple[int, int] | None = None, line: int | None = None) -> None:
        "the word is shown in its line: as text, as the number of a word or field of the line (from 0), or as the columns from and to"
        super().__init__(cause)
        self.cause, self.word, self.line = cause, word, line
        self.file = self.text = self.span = None

    @property
    def column(self) -> int | None:
        "the column of the line where the word begins, counted from 1; None where no word is meant"
        return None if self.span is None else self.span[0] + 1

    def __str__(self) -> str:
        if self.line is None:
            return self.cause
        told = f"line {self.line}: {self.cause}"
        if self.text is None:
            return told
        start, end = self.span or (0, 0)
        first = max(0, start - 60)
        shown = "".join(letter if letter.isprintable() else " " if letter == "\t" else "?" for letter in self.text[first:first + 120])
        caret = f"\n    {' ' * (start - first)}{'^' * max(1, min(end, first + 120) - start)}" if self.span else ""
        return f"{told}\n    {shown}{caret}"
