"""The tokens of a line, for editors and teaching tools."""

from __future__ import annotations

from enum import Enum
from typing import NamedTuple


class TokenKind(Enum):
    """What a token of a line is. The value is the number of the kind in the C library."""

    OTHER = 0  # of a library newer than this package
    NOTE = 1
    REST = 2
    BAR_REST = 3
    CHORD = 4
    INLINE_FIELD = 5
    BAR_LINE = 6
    ENDING = 7
    TUPLET = 8
    BROKEN_RHYTHM = 9
    TIE = 10
    DYNAMIC = 11
    BLANK = 12
    QUOTED = 13
    DECORATION = 14
    GRACE = 15
    SPACE = 16
    NO_EFFECT = 17
    BAD_BYTE = 18
    UNCLOSED = 19
    COMMENT = 20
    NUMBER_FIELD = 21
    TITLE_FIELD = 22
    KEY_FIELD = 23
    OTHER_FIELD = 24
    DIRECTIVE = 25
    FREE_TEXT = 26


class Token(NamedTuple):
    """A part of a line: the column of its first byte and the column after its last one, both counted from 1 in bytes, its kind,
    and its depth, which is 1 for a part of a chord and else 0."""

    from_column: int
    to_column: int
    kind: TokenKind
    depth: int


KINDS = {kind.value: kind for kind in TokenKind}
OTHER = TokenKind.OTHER


def kind_of(number: int) -> TokenKind:
    """The kind of a number of the C library."""
    return KINDS.get(number, OTHER)
