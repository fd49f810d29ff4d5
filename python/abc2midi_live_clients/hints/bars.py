"""Hints about bars and what goes over them: `BarLength`, `ShortTuplet`."""

from __future__ import annotations

from collections.abc import Iterator
from fractions import Fraction
from typing import Optional

from .hint import Hint, counted
from .line import BAR_LINE, ENDING
from .tune import WHOLE, Item, Meter, Place, TuneText, Voice

BOUNDS = frozenset((BAR_LINE, ENDING))  # of pieces
MOST_BARS = 8  # that are named one by one in a tune


class Piece:
    """The music between two bar lines or endings. A soft bound, as a double or dotted bar line, a
    repeat or an ending, may be inside a bar."""

    length: Optional[int] = None  # in ticks, if it is played
    before_soft = False
    is_odd = False  # it has a fault
    is_ended = False

    def __init__(self, first: Item, after_soft: bool):
        self.music = [first]
        self.meter = first.meter
        self.after_soft = after_soft

    def place(self) -> Place:
        """Returns the place of its first note, chord or rest."""
        return self.music[0].place()

    def fills(self) -> bool:
        """Returns whether it is a whole bar, or rests of whole bars."""
        bar, length = self.meter.ticks, self.length or 0
        return length == bar or bar > 0 and length % bar == 0 and all(item.is_rest() for item in self.music)


def pieces_of(tune: TuneText, items: list[Item]) -> list[Piece]:
    """Returns the pieces of a voice in a section."""
    found: list[Piece] = []
    is_new, is_soft, is_odd = True, True, False  # of the next piece
    for item in items:
        is_odd = is_odd or item.is_odd or item.breaks
        if item.segment.timed:
            if is_new:
                found.append(Piece(item, is_soft))
            else:
                found[-1].music.append(item)
            is_new = is_soft = False
        if is_odd and not is_new:
            found[-1].is_odd = True
        if item.sign.kind in BOUNDS:
            is_new, is_soft, is_odd = True, is_soft or item.sign.is_soft, item.breaks
            if found:
                found[-1].before_soft |= item.sign.is_soft
                found[-1].is_ended |= item.sign.kind == BAR_LINE
    for piece in found:
        lengths = [length for length in map(tune.length, piece.music) if length is not None]
        piece.length = sum(lengths) if len(lengths) == len(piece.music) else None
    if found:
        found[-1].before_soft = True
    return found


def odd_pieces(tune: TuneText, voice: Voice) -> Iterator[Piece]:
    """Yields the pieces of a voice that do not fill their meter. A first bar after a soft bound may be short. So may a last
    one that comes up to a bar with a first one, and one without a bar line after it, which is still being written."""
    pieces = [piece for items in voice.sections.values() for piece in pieces_of(tune, items)]
    starts = {piece.length for piece in pieces if piece.after_soft}
    for piece in pieces:
        bar = piece.meter.ticks
        if not bar or piece.is_odd or piece.length is None or piece.fills():
            continue
        may_be_short = piece.after_soft or piece.before_soft and (bar - piece.length in starts or not piece.is_ended)
        if piece.length > bar or not may_be_short:
            yield piece


def bars(tune: TuneText) -> Iterator[Hint]:
    """Yields the bars that do not fill the meter; of many only the first, with their count."""
    odd = sorted((piece for voice in tune.voices.values() for piece in odd_pieces(tune, voice)), key=lambda piece: piece.place())
    several = f"; so are {counted(len(odd) - 1, 'more bar')} of this tune" if len(odd) > MOST_BARS else ""
    for piece in odd[:1] if several else odd:
        meter = piece.meter
        text = f"this bar lasts {fraction(piece.length, meter)}, and the meter is {meter.over}/{meter.under}{several}"
        yield Hint(*piece.place(), "BarLength", text)


def fraction(ticks: Optional[int], meter: Meter) -> str:
    """Returns a length in the meter's fractions of a whole note, or in smaller ones."""
    whole = Fraction(ticks or 0, WHOLE)
    under = max(whole.denominator, meter.under)
    if under % whole.denominator:
        return f"{whole.numerator}/{whole.denominator}"
    return f"{whole.numerator * under // whole.denominator}/{under}"


def short_tuplets(tune: TuneText) -> Iterator[Hint]:
    """Yields the tuplets that a bar line, or the end of their voice, finds unfinished."""
    for tuplet in tune.short_tuplets:
        has = f"this tuplet has {tuplet.notes - tuplet.missing} of its {counted(tuplet.notes, 'note')}"
        where = " before the bar line, and goes on after it" if tuplet.passed_bar else ""
        yield Hint(*tuplet.place, "ShortTuplet", f"{has}{where}; write a rest, as `z`, for each that is missing")
