"""A line as the hints see it: its tokens, and the music between its bar lines and other signs. It depends on the bytes of the line
alone."""

from __future__ import annotations

from collections.abc import Iterator
from functools import lru_cache
from typing import TYPE_CHECKING, NamedTuple

from abc2midi_live import TokenKind

if TYPE_CHECKING:
    from abc2midi_live.records import TokenColumns

NOTE, REST, BAR_REST, CHORD = TokenKind.NOTE.value, TokenKind.REST.value, TokenKind.BAR_REST.value, TokenKind.CHORD.value
BAR_LINE, ENDING, TUPLET, TIE = TokenKind.BAR_LINE.value, TokenKind.ENDING.value, TokenKind.TUPLET.value, TokenKind.TIE.value
QUOTED, DECORATION, GRACE = TokenKind.QUOTED.value, TokenKind.DECORATION.value, TokenKind.GRACE.value
NO_EFFECT, BAD_BYTE, UNCLOSED = TokenKind.NO_EFFECT.value, TokenKind.BAD_BYTE.value, TokenKind.UNCLOSED.value
BLANK, INLINE_FIELD, KEY_FIELD = TokenKind.BLANK.value, TokenKind.INLINE_FIELD.value, TokenKind.KEY_FIELD.value
COMMENT, DIRECTIVE = TokenKind.COMMENT.value, TokenKind.DIRECTIVE.value
PART = 256  # is added to the kind of a token that is a part of a chord
NOTE_PART, TIE_PART = NOTE + PART, TIE + PART
END = MUSIC = -1  # the kind of the sign after the last music of a line, and of a line of music

FIELDS = frozenset((TokenKind.NUMBER_FIELD.value, TokenKind.TITLE_FIELD.value, KEY_FIELD, TokenKind.OTHER_FIELD.value))
NO_MUSIC = FIELDS | {DIRECTIVE, COMMENT, TokenKind.FREE_TEXT.value}
TIMED = frozenset((NOTE, REST, BAR_REST, CHORD))
UNPLAYED = frozenset((QUOTED, GRACE, DECORATION, NO_EFFECT))
SIGNS = frozenset((BAR_LINE, ENDING, TUPLET, BAD_BYTE, UNCLOSED, INLINE_FIELD))


class Sign(NamedTuple):
    """What ends a segment: the kind of a token and its bytes, and what it means if it is a bar line or an ending."""

    kind: int
    text: bytes
    closes: bool = False  # a repeat
    opens: bool = False
    is_thick: bool = False  # a bar line of colons or more lines than one
    is_soft: bool = False  # it may be inside a bar: an ending, and a bar line that is not one thin line


NO_SIGN = Sign(END, b"")


class Segment(NamedTuple):
    """Notes, chords and rests of a line with no sign between them, and the sign that ends them, or the end of the line."""

    timed: list[int]  # the tokens of its notes, chords and rests
    start: int  # the column of the first one in a play, that of a chord is at its first note; 0 if there is no music
    end: int  # the column of the last one
    column: int  # of the sign
    sign: Sign


LINE_END = Segment([], 0, 0, 0, NO_SIGN)


class Line(NamedTuple):
    """A line: its bytes, its kind, which is that of a field, a directive, a comment, free text or a blank line, or else MUSIC, and
    its tokens by columns, which count from 1. For music its segments, and the tokens that are not played."""

    text: bytes
    kind: int
    starts: list[int]
    ends: list[int]
    kinds: list[int]
    segments: list[Segment]
    others: list[int]

    def token(self, at: int) -> bytes:
        """Returns the bytes of a token."""
        return self.text[self.starts[at] - 1 : self.ends[at] - 1]

    def field(self) -> bytes:
        """Returns a line that is a field, without its comment."""
        return self.token(0) if self.kind in FIELDS else b""

    def after(self, at: int) -> int:
        """Returns the token after a token and its parts."""
        return next((part for part in range(at + 1, len(self.kinds)) if self.kinds[part] < PART), len(self.kinds))

    def notes(self, at: int) -> list[int]:
        """Returns a token that is a note, the notes of a chord, or nothing of a rest."""
        return [at] if self.kinds[at] == NOTE else [part for part in range(at, self.after(at)) if self.kinds[part] == NOTE_PART]


def line_of(text: bytes, tokens: TokenColumns) -> Line:
    """Returns a line with these tokens."""
    starts, ends, kinds, depths = tokens
    if any(depths):
        kinds = [kind + PART if depth else kind for kind, depth in zip(kinds, depths)]
    kind = kinds[0] if kinds else BLANK
    if kind not in NO_MUSIC:
        kind = BLANK if kinds.count(BLANK) == len(kinds) else MUSIC
    line = Line(text, kind, starts, ends, kinds, [], [])
    if kind == MUSIC:
        line.segments.extend(segments_of(line))
        line.others.extend(at for at, kind in enumerate(kinds) if kind in UNPLAYED)
    return line


def segments_of(line: Line) -> Iterator[Segment]:
    """Yields the segments of a line of music. A chord without notes takes no time."""
    timed: list[int] = []
    for at, kind in enumerate(line.kinds):
        if kind in SIGNS:
            is_dotted = kind == BAR_LINE and at > 0 and line.kinds[at - 1] == NO_EFFECT and line.token(at - 1) == b"."
            yield segment_of(line, timed, line.starts[at], sign_of(kind, line.token(at), is_dotted))
            timed = []
        elif kind in TIMED and (kind != CHORD or line.notes(at)):
            timed.append(at)
    if timed:
        yield segment_of(line, timed, len(line.text) + 1, NO_SIGN)


def segment_of(line: Line, timed: list[int], column: int, sign: Sign) -> Segment:
    """Returns the segment of some notes, chords and rests and a sign after them."""
    if not timed:
        return Segment(timed, 0, 0, column, sign)
    start, end = [line.notes(at)[0] if line.kinds[at] == CHORD else at for at in (timed[0], timed[-1])]
    return Segment(timed, line.starts[start], line.starts[end], column, sign)


@lru_cache(maxsize=1024)
def sign_of(kind: int, text: bytes, is_dotted: bool) -> Sign:
    """Returns a sign, a bar line with a dot before it or without."""
    if kind != BAR_LINE:
        return Sign(kind, text, is_soft=kind == ENDING)
    is_thick = text != b"|"
    return Sign(kind, text, text.startswith(b":"), text.endswith(b":"), is_thick, is_thick or is_dotted)


def is_blank(line: bytes) -> bool:
    """Returns whether a line ends a tune."""
    return not line.removesuffix(b"\r").strip(b" \t")


def value(field: bytes) -> bytes:
    """Returns what follows the colon of a field, blanks cut at both ends."""
    return field[2:].strip(b" \t")


def words_of(text: bytes) -> list[bytes]:
    """Returns the words of a value: its parts between blanks. No other white space cuts it."""
    return [word for word in text.replace(b"\t", b" ").split(b" ") if word]
