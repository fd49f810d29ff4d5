"""Hints about lyrics: `SurplusSyllables`."""

from __future__ import annotations

import re
from collections.abc import Iterator
from typing import NamedTuple

from .hint import Hint, counted
from .line import BAR_LINE, CHORD, ENDING, FIELDS, INLINE_FIELD, MUSIC, NOTE, PART, Line, words_of
from .tune import UNNAMED, TuneText

# A syllable ends with a hyphen, a blank or a bar. A star, an underscore and a lone hyphen take a note as a syllable does.
PIECE = re.compile(rb"[*_|]|(?:\\-|[^ \t*_|-])+-?|-")


class Sung(NamedTuple):
    """The notes of a voice to which lyrics belong: how many there are, and with which of them each bar begins."""

    notes: int
    bars: list[int]


def surplus_syllables(tune: TuneText) -> Iterator[Hint]:
    """Yields the lines of lyrics that have more syllables than the music before them has notes."""
    if not any(text.startswith(b"w:") for _, text in tune.fields):
        return
    current, sung, is_sung = UNNAMED, dict[bytes, Sung](), set[bytes]()  # voices whose music has lyrics already
    for n, line in enumerate(tune.lines):
        if line.kind == MUSIC and n not in tune.in_block:
            current = voice_in(line, current)
            before = Sung(0, [0]) if current in is_sung and has_notes(line) else sung.get(current, Sung(0, [0]))
            is_sung -= {current} if has_notes(line) else set()
            sung[current] = with_notes(line, before)
        elif line.kind in FIELDS:
            field = line.field()
            current = voice_of(field, current)
            if field.startswith(b"w:") and current in sung and sung[current].notes:
                is_sung.add(current)
                yield from surplus_in(n, field, sung[current])


def voice_of(field: bytes, current: bytes) -> bytes:
    """Returns the voice after a field."""
    words = words_of(field[2:]) if field.startswith(b"V:") else []
    return words[0] if words else current


def voice_in(line: Line, current: bytes) -> bytes:
    """Returns the voice of a line of music that may name one at its begin."""
    first = next((at for at, kind in enumerate(line.kinds) if kind == INLINE_FIELD), None)
    return current if first is None else voice_of(line.token(first)[1:-1], current)


def has_notes(line: Line) -> bool:
    """Returns whether a line has a note that may have a syllable."""
    return NOTE in line.kinds or CHORD in line.kinds


def with_notes(line: Line, before: Sung) -> Sung:
    """Returns the notes of a voice with those of one more line: a chord is one, and rests and grace notes are none."""
    notes, bars = before.notes, before.bars.copy()
    for at, kind in enumerate(line.kinds):
        if kind == NOTE or kind == CHORD and line.notes(at):
            notes += 1
        elif kind in (BAR_LINE, ENDING) and bars[-1] < notes:
            bars.append(notes)
    return Sung(notes, bars)


def surplus_in(n: int, field: bytes, sung: Sung) -> Iterator[Hint]:
    """Yields a hint at the first syllable of a line that no note has. A bar line goes to the begin of the next bar, if
    a syllable precedes it."""
    note, bar, surplus = 0, 0, list[int]()
    for found in PIECE.finditer(field, 2):
        if found[0] == b"|":
            bar += note > 0
            note = max(note, sung.bars[bar] if bar < len(sung.bars) else sung.notes)
        else:
            surplus += [found.start() + 1] if note >= sung.notes and found[0] not in (b"*", b"_") else []
            note += 1
    if surplus:
        what = "1 syllable has" if len(surplus) == 1 else f"{len(surplus)} syllables have"
        yield Hint(n, surplus[0], "SurplusSyllables", f"from here on {what} no note: the music before this line has {counted(sung.notes, 'note')}")
