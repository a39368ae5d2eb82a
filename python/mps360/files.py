"The bytes of files that others wrote, gzipped or not."
import sys

from mps360.errors import Refused

GZIPPED = b"\x1f\x8b"


def bytes_of(path: str | None) -> bytes:
    "the bytes of a file, or of standard input, which None and - stand for; an OSError names the file, also where a read fails"
    try:
        if path in (None, "-"):
            return sys.stdin.buffer.read()
        with open(str(path), "rb") as source:
            return source.read()
    except OSError as cause:
        cause.filename = cause.filename or ("standard input" if path in (None, "-") else path)
        raise


def letters_of(path: str | None) -> str:
    "the same as letters of the same codes, with line feeds alone at the ends of lines"
    return bytes_of(path).decode("latin-1").replace("\r\n", "\n").replace("\r", "\n")


def unzipped(data: bytes, most: int) -> bytes:
    "the bytes themselves, or what they are gzipped of; Refused where they are no whole gzipped file, or there are more than so many"
    if data[:2] == GZIPPED:
        import gzip  # pylint: disable=import-outside-toplevel
        import io  # pylint: disable=import-outside-toplevel
        import zlib  # pylint: disable=import-outside-toplevel
        try:
            with gzip.open(io.BytesIO(data)) as source:
                data = source.read(most + 1)
        except (OSError, EOFError, zlib.error) as cause:
            raise Refused(f"it begins as a gzipped file, and isn't one: {cause}") from None
    if len(data) > most:
        raise Refused(f"it has more than {most:,} bytes")
    return data
