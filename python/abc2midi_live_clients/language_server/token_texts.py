"""Tokens with their texts."""

from bisect import bisect_right
from collections.abc import Iterator, Sequence
from itertools import accumulate
from typing import NamedTuple

from abc2midi_live import Token, TokenKind

from ..common.line_places import utf8


class TokenText(NamedTuple):
    """A token with its text: its line and the characters of it, from 0, its kind, and whether it is a part of a chord."""

    line: int
    start: int
    end: int
    kind: TokenKind
    is_part: bool
    text: str


def token_texts(line: int, text: str, tokens: Sequence[Token]) -> Iterator[TokenText]:
    """Yields the tokens of a line that have a character, with their texts."""
    before = byte_places(text)
    for from_column, to_column, kind, depth in tokens:
        start, end = character_at(before, from_column - 1), character_at(before, to_column - 1)
        if start < end:
            yield TokenText(line, start, end, kind, depth > 0, text[start:end])


def byte_places(text: str) -> Sequence[int]:
    """How many bytes precede each character of a line, and its end."""
    return range(len(text) + 1) if text.isascii() else [0, *accumulate(len(utf8(character)) for character in text)]


def character_at(before: Sequence[int], byte: int) -> int:
    """The character of a line that has a byte."""
    return min(bisect_right(before, byte), len(before)) - 1
