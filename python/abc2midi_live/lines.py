"""Lines: what a session takes and how a text is cut into them."""

from collections.abc import Iterable
from typing import Union

MOST_BYTES = 65_535  # of a line
MOST_LINES = 1_048_576  # of a text
MOST_BOOK_BYTES = 1 << 28  # of a file that is read as a book
MARK = b"\xef\xbb\xbf"  # may begin a book

Text = Union[bytes, str]
Lines = Union[Text, Iterable[Text]]


def lines_of(lines: Lines) -> list[bytes]:
    """The lines of an edit: of a text, cut at its line feeds, or of an iterable of lines, none with a line feed (else
    ValueError)."""
    if isinstance(lines, (bytes, bytearray, str)):
        return without_empty_end(bytes_of(lines).split(b"\n"))
    found = [line if type(line) is bytes else bytes_of(line) for line in lines]
    if b"\n" in b"".join(found):
        raise ValueError("a line of a list has a line feed: cut it there, or pass one text")
    return found


def lines_of_book(book: Text) -> list[bytes]:
    """The lines of a tune book: a byte order mark at its start is dropped."""
    return without_empty_end(bytes_of(book).removeprefix(MARK).split(b"\n"))


def without_empty_end(lines: list[bytes]) -> list[bytes]:
    """The lines that count of a text that was cut at line feeds: an empty last one does not."""
    return lines if lines[-1] else lines[:-1]


def bytes_of(text: Text) -> bytes:
    """The bytes of a text. A str is written in UTF-8; what `surrogateescape` read as half of a pair becomes its byte again."""
    if isinstance(text, str):
        return text.encode("utf-8", "surrogateescape")
    if isinstance(text, (bytes, bytearray)):
        return bytes(text)
    raise TypeError(f"a line is bytes or str, not {type(text).__name__}")
