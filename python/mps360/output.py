"""What is written, to standard output and to files: each write is checked, and one that fails ends a command with CANT_WRITE and a line on standard
error, never as an answer would."""
from __future__ import annotations

import contextlib
import errno
import functools
import os
import sys
from collections.abc import Callable, Iterator
from typing import TYPE_CHECKING, Any

if TYPE_CHECKING:
    import tempfile

CANT_WRITE, INTERRUPTED, REFUSED = 73, 130, 65
# what Python says of a number that it makes no text of
TOO_LONG = "Exceeds the limit ("
OUT, ERRORS = "to standard output", "to standard error"
CLOSED = "it is closed"
Main = Callable[[list[str] | None], int]


class CantWrite(Exception):
    "a write that failed: to which file or stream, and why; or a folder that can't be made"

    def __init__(self, place: object, cause: str, verb: str = "write") -> None:
        super().__init__(f"can't {verb} {place}: {cause}")
        self.place = place


def write_file(path: str | os.PathLike[str], content: str | bytes) -> None:
    "the whole content of a file, text as UTF-8; CantWrite where the file can't be opened, or holds less"
    try:
        with open(path, "wb") as file:
            file.write(content.encode("utf-8") if isinstance(content, str) else content)
    except OSError as cause:
        raise CantWrite(path, cause.strerror or str(cause)) from None


def make_folder(path: str | os.PathLike[str]) -> None:
    "a folder with those above it, where it isn't there; CantWrite where it can't be made"
    try:
        os.makedirs(path, exist_ok=True)
    except OSError as cause:
        raise CantWrite(cause.filename or path, cause.strerror or str(cause)) from None


def temporary_folder() -> tempfile.TemporaryDirectory[str]:
    "a new folder for files that go with it; CantWrite where none can be made"
    import tempfile
    try:
        return tempfile.TemporaryDirectory(prefix="mps360-")
    except OSError as cause:
        # (where no folder takes files, Python names those that it tried, and no file)
        told = cause.strerror or str(cause)
        raise CantWrite("a temporary folder", f"{cause.filename}: {told}" if cause.filename else told, "make") from None


class Stream:
    "a stream of this process each of whose writes is checked; None stands for one that is closed"

    def __init__(self, stream: Any, place: str) -> None:
        self._stream, self._place = stream, place

    def write(self, content: Any) -> int:
        if self._stream is None:
            raise CantWrite(self._place, CLOSED)
        with self.checked():
            return int(self._stream.write(content) or 0)

    def writelines(self, lines: Any) -> None:
        for line in lines:
            self.write(line)

    def flush(self) -> None:
        if self._stream is not None:
            with self.checked():
                self._stream.flush()

    def isatty(self) -> bool:
        return self._stream is not None and bool(self._stream.isatty())

    def reconfigure(self, **words: Any) -> None:
        if hasattr(self._stream, "reconfigure"):
            with self.checked():
                self._stream.reconfigure(**words)

    @property
    def buffer(self) -> Stream:
        return Stream(getattr(self._stream, "buffer", None), self._place)

    @property
    def encoding(self) -> str:
        return getattr(self._stream, "encoding", None) or "utf-8"

    @contextlib.contextmanager
    def checked(self) -> Iterator[None]:
        "what fails in here is told as this stream's fault"
        try:
            yield
        except OSError as cause:
            raise CantWrite(self._place, cause.strerror or str(cause)) from None

    def give_up(self) -> None:
        "what couldn't be written isn't tried again when Python ends"
        try:
            os.dup2(os.open(os.devnull, os.O_WRONLY), self._stream.fileno())
        except (AttributeError, OSError, ValueError):
            pass

    def __getattr__(self, name: str) -> Any:
        return getattr(self._stream, name)


class ClosedInput:
    "standard input where it is closed, and its bytes: whoever reads it is told so"

    def read(self, *_: int) -> Any:
        raise OSError(errno.EBADF, CLOSED, "standard input")

    readline = read

    @property
    def buffer(self) -> ClosedInput:
        return self


@contextlib.contextmanager
def checked_streams() -> Iterator[tuple[Stream, Stream]]:
    "standard output and standard error are checked in here; where a stream is closed, no file that is opened gets its number"
    before = sys.stdin, sys.stdout, sys.stderr
    for number, stream in enumerate(before):
        if stream is None:
            keep_number(number)
    out, errors = Stream(sys.stdout, OUT), Stream(sys.stderr if sys.stderr is not None else open(os.devnull, "w", encoding="utf-8"), ERRORS)
    sys.stdin, sys.stdout, sys.stderr = sys.stdin or ClosedInput(), out, errors  # type: ignore[assignment]
    try:
        yield out, errors
    finally:
        sys.stdin, sys.stdout, sys.stderr = before


def keep_number(number: int) -> None:
    "the number of a closed stream stands for /dev/null, so that what a child process prints goes into no file"
    try:
        os.fstat(number)
    except OSError:
        opened = os.open(os.devnull, os.O_WRONLY)
        if opened != number:
            os.dup2(opened, number)
            os.close(opened)


def is_told(name: str, module: str, words: list[str]) -> bool:
    "whether the words ask what the command is, or which; that is told, as the head of its module has it"
    if "-h" in words or "--help" in words:
        from mps360 import help_text
        print(help_text.shown(name, sys.modules[module].__doc__ or ""))
    elif "--version" in words:
        from mps360 import help_text
        print(help_text.version(name))
    else:
        return False
    return True


def command(name: str) -> Callable[[Main], Main]:
    """of the main of a command, which takes the words behind its name and gives its status: the same, with each write to standard output and
    standard error checked to the last byte. CantWrite, from there or from write_file, ends it with CANT_WRITE and one line on standard error; so
    does Ctrl-C, where the command doesn't meet it itself, with INTERRUPTED. --help and --version are answered here."""
    def of(main: Main) -> Main:
        @functools.wraps(main)
        def checked(words: list[str] | None = None) -> int:
            with checked_streams() as (out, errors):
                try:
                    try:
                        return 0 if is_told(name, main.__module__, sys.argv[1:] if words is None else words) else main(words)
                    finally:
                        out.flush()
                        errors.flush()
                except CantWrite as cause:
                    out.give_up()
                    tell(errors, f"{name}: {cause}")
                    return CANT_WRITE
                except KeyboardInterrupt:
                    tell(errors, f"{name}: interrupted")
                    return INTERRUPTED
                except ValueError as cause:
                    if not str(cause).startswith(TOO_LONG):
                        raise
                    tell(errors, f"{name}: a number that comes of what is read has more than {sys.get_int_max_str_digits():,} digits")
                    return REFUSED
        return checked
    return of


def tell(stream: Stream, line: str) -> None:
    "a line on standard error, where that can be written"
    shown = "".join(letter if letter.isprintable() else "?" for letter in line)
    try:
        stream.write(shown.encode(stream.encoding, "backslashreplace").decode(stream.encoding) + "\n")
        stream.flush()
    except CantWrite:
        stream.give_up()
