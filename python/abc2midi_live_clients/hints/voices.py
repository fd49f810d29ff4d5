"""Hints about voices: `MusicBeforeVoice`, `VoiceLengths`."""

from __future__ import annotations

from collections.abc import Iterator
from itertools import zip_longest
from typing import Optional

from ..common.line_places import text_of
from .bars import Piece, fraction, pieces_of
from .hint import Hint
from .tune import UNNAMED, TuneText

OF_UNEVEN_VOICES = "VoiceLengths"  # kept at tunes whose voices the program finds uneven


def music_before_voice(tune: TuneText) -> Iterator[Hint]:
    """Yields a hint if music precedes the first `V:` of a tune with voices, and none is declared."""
    unnamed = tune.voices.get(UNNAMED)
    first = unnamed.first_music() if unnamed else None
    if first and any(voice.first_music() for name, voice in tune.voices.items() if name != UNNAMED):
        text = "this music is a voice of its own, played together with those that a `V:` begins; write a `V:` before it"
        yield Hint(*first.place(), "MusicBeforeVoice", text)


def voice_lengths(tune: TuneText) -> Iterator[Hint]:
    """Yields a hint at the first bar in which a voice has another length than the first voice, in the first part in which the
    voices are not equally long."""
    for section in range(len(tune.parts) + 1 if len(tune.voices) > 1 else 0):
        written = {name: pieces_of(tune, voice.sections.get(section, [])) for name, voice in tune.voices.items()}
        bars = {name: pieces for name, pieces in written.items() if pieces}
        totals = {name: sum(piece.length or 0 for piece in pieces) for name, pieces in bars.items()}
        first = next(iter(bars), UNNAMED)
        other = next((name for name in bars if totals[name] != totals[first]), None)
        if other is not None:
            pairs = zip_longest(bars[first], bars[other])
            pair = next((one, two) for one, two in pairs if (one and one.length or 0) != (two and two.length or 0))
            lasts = [fraction(piece.length, tune.meter) if piece else "nothing" for piece in pair]
            whole = ", ".join(f"{name_of(name)} {fraction(total, tune.meter)}" for name, total in totals.items())
            here = f"{name_of(first)} lasts {lasts[0]} in it, {name_of(other)} {lasts[1]}"
            text = f"from this bar on the voices differ: {here}; the whole lengths are {whole}"
            yield Hint(*odd_one(*pair).place(), OF_UNEVEN_VOICES, text)
            return


def odd_one(first: Optional[Piece], second: Optional[Piece]) -> Piece:
    """Returns of two bars the one that does not fill its meter, or else the second one, if they are there."""
    if second is None or first is not None and not first.fills() and second.fills():
        assert first is not None
        return first
    return second


def name_of(voice: bytes) -> str:
    """Returns the name of a voice."""
    return f"`{text_of(voice)}`" if voice else "the voice without a name"
