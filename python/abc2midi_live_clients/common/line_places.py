"""Places in a text: bytes, characters and UTF-16 units."""

from bisect import bisect_left, bisect_right
from collections.abc import Sequence
from itertools import accumulate
from typing import Optional

# Windows-1252 is Latin-1 with more letters: bytes that are controls in Latin-1. It leaves five bytes out, which stay controls.
WINDOWS_LETTERS = {byte: bytes([byte]).decode("cp1252") for byte in range(0x80, 0xA0) if byte not in b"\x81\x8d\x8f\x90\x9d"}
WINDOWS_BYTES = {ord(letter): byte for byte, letter in WINDOWS_LETTERS.items()}


def text_of(line: bytes) -> str:
    """A line as text: UTF-8, or Windows-1252 if it is not UTF-8."""
    try:
        return line.decode("utf-8")
    except UnicodeDecodeError:
        return line.decode("latin-1").translate(WINDOWS_LETTERS)


def windows_1252(text: str) -> Optional[bytes]:
    """The bytes of a line that is read as this text, but is not UTF-8; None if there are none."""
    data = text.translate(WINDOWS_BYTES).encode("latin-1", "replace")
    return data if not data.isascii() and text_of(data) == text else None


def utf8(text: str) -> bytes:
    """The bytes of a text. JSON may bring halves of surrogate pairs; they pass too."""
    return text.encode("utf-8", "surrogatepass")


def utf16(text: str) -> bytes:
    """A text in UTF-16, two bytes a unit. Editors and web pages count in these units."""
    return text.encode("utf-16-le", "surrogatepass")


def from_utf16(units: bytes) -> str:
    """The text of UTF-16 units. Two halves of a pair that meet become one character."""
    return units.decode("utf-16-le", "surrogatepass")


def character_of(line: str, column: int) -> int:
    """The character, counted from 0, that has the byte of a column, counted from 1."""
    if line.isascii():
        return column - 1
    data, at = utf8(line), column - 1
    while at > 0 and data[at : at + 1] and data[at] & 0xC0 == 0x80:
        at -= 1
    return len(data[:at].decode("utf-8", "surrogatepass"))


def is_inside_character(line: bytes, column: int) -> bool:
    """Returns whether the byte of a column, counted from 1, belongs to a character of UTF-8 that begins before it."""
    at = column - 1
    if line[at] & 0xC0 != 0x80:
        return False
    starts = range(max(0, at - 3), at)
    return any(is_character(line[start:end]) for start in starts for end in range(at + 1, start + 5))


def is_character(data: bytes) -> bool:
    """Returns whether bytes are one character of UTF-8."""
    try:
        return len(data.decode("utf-8")) == 1
    except UnicodeDecodeError:
        return False


class LinePlaces:
    """The places of one line as windows see it: a half of a pair is one byte there, and so is each letter in Windows-1252."""

    def __init__(self, text: str, is_utf8: bool = True):
        self.text = text
        self.bytes_before: Sequence[int] = range(len(text) + 1)
        self.units_before: Sequence[int] = range(len(text) + 1)
        if not text.isascii():
            sizes = (1 if not is_utf8 or "\udc00" <= character <= "\udcff" else len(utf8(character)) for character in text)
            units = (2 if character > "\uffff" else 1 for character in text)
            self.bytes_before, self.units_before = [0, *accumulate(sizes)], [0, *accumulate(units)]

    def span(self, column: int, end: int) -> list[int]:
        """Where a fault begins and ends, in UTF-16 units, by its column and the one after it, which count bytes from 1. It has one
        character at least."""
        start = min(bisect_right(self.bytes_before, column - 1) - 1, len(self.text))
        stop = min(max(start + 1, bisect_left(self.bytes_before, end - 1)), len(self.text))
        return [self.units_before[start], self.units_before[stop]]
