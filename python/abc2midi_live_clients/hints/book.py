"""Hints about a book as a whole: `SameNumber`, `NoTune`, `LoneReturns`, `FreeMusic`, `NotUtf8`."""

from __future__ import annotations

from collections.abc import Iterator, Sequence

from abc2midi_live import Fault, TokenKind

from ..common.session_book import Tune, files_of, lines_too_long
from .hint import Hint, counted
from .line import BAD_BYTE, BAR_LINE, BLANK, FIELDS, KEY_FIELD, MUSIC, NO_EFFECT, NOTE, PART, REST, UNCLOSED, Line, is_blank

LOOKED_AT = 400  # bytes by which a text in UTF-16 is known
NOT_UTF8 = "NotUtf8"  # one for a book
LEAST_NOTES = 3  # in what looks like a line of music

_IN_TWO_BYTES = (b"\xff\xfe", b"\xfe\xff")
_MUSIC = {kind.value for kind in TokenKind} - {TokenKind.OTHER.value, BAD_BYTE, UNCLOSED, NO_EFFECT}
_USUAL = frozenset(b"xzHLMOPSTuv0123456789/,'^_=[]:<>()~.\\&-")  # in music, also if it has no effect there


def number_is_used(number: int, line: int) -> str:
    """Returns the sentence that a tune has no file because another one at a line has its number."""
    return f"number {number} is used at line {line}, so this tune has no file; write another number"


def same_numbers(tunes: Sequence[Tune], faults: Sequence[Fault]) -> list[Hint]:
    """Returns the hints at tunes whose number an earlier tune has that is not too long."""
    if len({tune.number for tune in tunes}) == len(tunes):
        return []
    owners, too_long = files_of(tunes, faults), lines_too_long(faults)
    others = [tune for tune in tunes if tune.line not in too_long and tune != owners[tune.number]]
    return [Hint(tune.line, 1, "SameNumber", number_is_used(tune.number, owners[tune.number].line)) for tune in others]


def no_tune(lines: Sequence[bytes], music: Sequence[Hint]) -> Iterator[Hint]:
    """Yields a hint if a text without tunes is not empty, at its first music if it has any. Lone carriage returns have a hint of their
    own."""
    first = next((n for n, line in enumerate(lines) if not is_blank(line)), None)
    if first is None or any(b"\r" in line[:-1] for line in lines[:2]):
        return
    start = b"\n".join(lines[:LOOKED_AT])[:LOOKED_AT]
    if start.startswith(_IN_TWO_BYTES) or 4 * start.count(0) > len(start):
        text = "this text has no tune, and seems to be in UTF-16; save it in UTF-8"
    else:
        text = "this text has no tune, so there is no file; a tune begins with a line `X:1`"
    yield Hint(music[0].line if music else first, 1, "NoTune", text)


def lone_returns(lines: tuple[bytes, ...]) -> Iterator[Hint]:
    """Yields the lines in which carriage returns seem to end lines."""
    for n, line in enumerate(lines):
        count = line[:-1].count(b"\r")
        if count:
            what = f"this line has {counted(count, 'carriage return')} inside, which end no line"
            yield Hint(n, line.index(b"\r") + 1, "LoneReturns", f"{what}; save the book with line feeds")


def not_utf8(lines: tuple[bytes, ...]) -> Iterator[Hint]:
    """Yields the first line that is not UTF-8."""
    for n, line in enumerate(lines):
        try:
            line.decode()
        except UnicodeDecodeError as error:
            yield Hint(n, error.start + 1, NOT_UTF8, "this line is not UTF-8, and is shown as Windows-1252; save the book in UTF-8")
            return


def free_music(lines: list[Line], start: int, after_tune: bool) -> Iterator[Hint]:
    """Yields a hint at the first line of each block that looks like music and is in no tune; the first line is `start`. After a
    `K:` of its own every line of music does."""
    is_open, has_key, has_fields = True, False, False
    for n, line in enumerate(lines, start):
        if line.kind == BLANK:
            is_open, has_key, has_fields = True, False, False
        elif line.kind in FIELDS:
            has_key |= line.kind == KEY_FIELD
            has_fields = True
        elif line.kind == MUSIC and is_open and (has_key or looks_like_music(line)):
            is_open = False
            if after_tune and not has_key:
                text = "this music is in no tune: the blank line before it ends the tune; write a `%` on that line"
            else:
                where = "the first field above it" if has_fields else "it"
                text = f"this music is in no tune; write a line `X:` with a new number before {where}"
            yield Hint(n, 1, "FreeMusic", text)


def looks_like_music(line: Line) -> bool:
    """Returns whether a line has a bar line and notes, and no other letters but those of common decorations."""
    kinds = [kind % PART for kind in line.kinds]
    others = (line.text[start - 1] for start, kind in zip(line.starts, kinds) if kind not in _MUSIC)
    has_notes = kinds.count(NOTE) + kinds.count(REST) >= LEAST_NOTES
    return has_notes and BAR_LINE in kinds and all(byte in _USUAL for byte in others)
