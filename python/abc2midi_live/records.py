"""What the library copies of a line and of a play, as typed records and as columns: a list of numbers for each field. Callers that
read whole books take columns, `token_columns` and `play_columns` of a `LibrarySession`: they cost a fraction of a tuple for each
token."""

from __future__ import annotations

import sys
from collections.abc import Iterator
from ctypes import Structure, byref, sizeof
from itertools import chain
from struct import Struct
from typing import NamedTuple

from .bindings import JOINED, NO_KEY, TIED
from .plays import Entry, entry_kind_of
from .tokens import Token, kind_of

TOKEN, ENTRY = Struct("@4I"), Struct("@2Q3I4B")  # CToken and CEntry
LINE, COLUMN = (0, 32) if sys.byteorder == "little" else (32, 0)  # the bits of a place from which on it has them


class Room:
    """Room for some structs that a call copies."""

    def __init__(self, struct: type[Structure], count: int) -> None:
        data = bytearray(sizeof(struct) * max(count, 1))
        self.count = count
        self.size = sizeof(struct)
        self.here = byref(struct.from_buffer(data))
        self.data = memoryview(data)

    def first(self, count: int) -> memoryview:
        """The bytes of the first structs."""
        return self.data[: self.size * count]


class TokenColumns(NamedTuple):
    """The tokens of a line, field by field, as `Token` has them. A kind is the value of a `TokenKind`."""

    from_columns: list[int]
    to_columns: list[int]
    kinds: list[int]
    depths: list[int]


class PlayColumns:
    """The entries of a play, one track after another. An entry is asked for by its index, from 0."""

    def __init__(self, copied: memoryview) -> None:
        self.copied = copied.tobytes()
        self.words = memoryview(self.copied).cast("Q")  # four of an entry
        self.places: list[int] = self.words[2::4].tolist()  # each as `place` returns it

    def on(self, index: int) -> int:
        """When an entry begins."""
        return self.words[4 * index]

    def off(self, index: int) -> int:
        """When an entry ends."""
        return self.words[4 * index + 1]

    def numbers(self) -> list[int]:
        """The nine fields of each entry in the order of the C library's struct: on, off, line, from, to, kind, key, velocity, ties."""
        return list(chain.from_iterable(ENTRY.iter_unpack(self.copied)))

    def entry(self, index: int) -> Entry:
        """All fields of an entry."""
        return entry_of(ENTRY.unpack_from(self.copied, index * ENTRY.size))

    @staticmethod
    def place(line: int, column: int) -> int:
        """The place of an entry, by its line and its first column."""
        return line << LINE | column << COLUMN


def tokens_in(copied: memoryview) -> Iterator[Token]:
    """Yields the tokens of structs."""
    for start, end, kind, depth in TOKEN.iter_unpack(copied):
        yield Token(start, end, kind_of(kind), depth)


def token_columns(copied: memoryview) -> TokenColumns:
    """The columns of tokens."""
    words = copied.cast("I").tolist()
    return TokenColumns(words[0::4], words[1::4], words[2::4], words[3::4])


def entries_in(copied: memoryview) -> Iterator[Entry]:
    """Yields the entries of structs."""
    return map(entry_of, ENTRY.iter_unpack(copied))


def entry_of(fields: tuple[int, ...]) -> Entry:
    """An entry, by the fields of its struct."""
    on, off, line, start, end, kind, key, velocity, ties = fields
    joined, tied = bool(ties & JOINED), bool(ties & TIED)
    if key == NO_KEY:
        return Entry(on, off, entry_kind_of(kind), None, None, joined, tied, line, start, end)
    return Entry(on, off, entry_kind_of(kind), key, velocity, joined, tied, line, start, end)
