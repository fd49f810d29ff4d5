"""Hints about what is written as in another notation: `LostFlat`, `GermanNote`, `Markup`."""

from __future__ import annotations

import re
from collections.abc import Iterator

from .bars import Piece, pieces_of
from .hint import Hint
from .line import BAD_BYTE, MUSIC, NO_EFFECT, NOTE, PART, Line
from .tune import Place, TuneText

FLAT = re.compile(rb"[A-G]b")
GERMAN = (b"H", b"h")
LENGTHS = b"0123456789/,'"  # after a note: its length and its octave
SIGNS = b"^_="  # before a note
# No tag of a note: `A<b>c` is broken rhythm.
MARKUP = re.compile(
    rb"</?(?:br|p|pre|hr|div|span|font|html|head|body|title|meta|link|script|style|table|tbody|tr|td|th|h[1-6]|i|u|em|strong|tt|code|center"
    rb"|blockquote|ul|ol|li|img)\b[^<>]*>|</[ab]>|<a\s[^<>]*>|&(?:amp|nbsp|lt|gt|quot|#\d+);",
    re.IGNORECASE,
)
PASSED = re.compile(rb'"[^"]*"|%.*')  # texts and a comment


def lost_flats(tune: TuneText) -> Iterator[Hint]:
    """Yields one hint for all pairs as `Bb` of a tune in bars that would fill the meter if each were one note."""
    if not any(FLAT.search(line.text) for line in tune.lines):
        return
    pieces = (piece for voice in tune.voices.values() for items in voice.sections.values() for piece in pieces_of(tune, items))
    places = sorted(place for piece in pieces for place in flats_in(tune, piece))
    if places:
        n, column = places[0]
        pair = tune.lines[n].text[column - 1 : column + 1].decode()
        what = f"this `{pair}` is two notes, and makes its bar" if len(places) == 1 else several_flats(pair, len(places) - 1)
        yield Hint(n, column, "LostFlat", f"{what} too long; write a flat before its note, as `_{pair[0]}`")


def several_flats(pair: str, others: int) -> str:
    """Returns the begin of the sentence on several pairs."""
    return f"this `{pair}` and {others} more are two notes each, and make their bars"


def flats_in(tune: TuneText, piece: Piece) -> list[Place]:
    """Returns the places of a capital letter and a `b` in a bar that their first notes make too long; none in other bars."""
    more = (piece.length or 0) - piece.meter.ticks
    if more <= 0 or not piece.meter.ticks or piece.is_odd:
        return []
    pairs = [(item.line, item.tokens, pair) for item in piece.music for pair in zip(item.segment.timed, item.segment.timed[1:])]
    places = [(n, line.starts[at]) for n, line, (at, after) in pairs if is_pair(line, at, after)]
    return places if sum(map(tune.note_length, places)) == more else []


def is_pair(line: Line, at: int, after: int) -> bool:
    """Returns whether a token is a capital letter alone, and the next one begins with a `b` beside it."""
    return line.kinds[at] == line.kinds[after] == NOTE and line.ends[at] == line.starts[after] and FLAT.match(line.text, line.starts[at] - 1) is not None


def german_notes(tune: TuneText) -> Iterator[Hint]:
    """Yields one hint for all signs `H` of a tune that have a length, an octave or an accidental, as only notes have."""
    lines = ((n, line) for n, line in enumerate(tune.lines) if line.kind == MUSIC and n not in tune.in_block and b"h" in line.text.lower())
    found = [(n, line.starts[at], line.token(at).decode()) for n, line in lines for at in german_in(line)]
    if found:
        n, column, sign = found[0]
        what = f"this `{sign}` is no note" if len(found) == 1 else f"this `{sign}` and {len(found) - 1} more are no notes"
        note = {"H": "B", "h": "b"}[sign]
        yield Hint(n, column, "GermanNote", f"{what}; write `{note}` for the German {sign}, and `_{note}` for the German {note}")


def german_in(line: Line) -> Iterator[int]:
    """Yields the signs `H` of a line that are meant as notes."""
    tokens = [at for at, kind in enumerate(line.kinds) if kind < PART]
    for before, at, after in zip([-1, *tokens], tokens, [*tokens[1:], -1]):
        if line.kinds[at] == NO_EFFECT and line.token(at) in GERMAN:
            is_long = after >= 0 and line.kinds[after] == BAD_BYTE and line.token(after) in LENGTHS
            is_altered = before >= 0 and line.kinds[before] == BAD_BYTE and line.token(before) in SIGNS
            if is_long or is_altered:
                yield at


def markup(tune: TuneText) -> Iterator[Hint]:
    """Yields one hint for all markup in the music of a tune."""
    lines = ((n, line) for n, line in enumerate(tune.lines) if line.kind == MUSIC and n not in tune.in_block)
    places = [(n, found.start() + 1) for n, line in lines for found in MARKUP.finditer(without_texts(line.text))]
    if places:
        what = "this is" if len(places) == 1 else f"this and {len(places) - 1} more places of this tune are"
        yield Hint(*places[0], "Markup", f"{what} markup of a web page, not music; delete it")


def without_texts(text: bytes) -> bytes:
    """Returns a line with blanks for its texts and its comment."""
    return PASSED.sub(lambda found: b" " * len(found[0]), text) if b"<" in text or b"&" in text else b""
