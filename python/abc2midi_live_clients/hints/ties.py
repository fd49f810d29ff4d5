"""The hint about ties: `TieToOtherKey`."""

from __future__ import annotations

from collections.abc import Iterator
from typing import NamedTuple, Optional

from abc2midi_live import Entry

from .hint import Hint
from .line import BAR_REST, ENDING, REST, TIE, TIE_PART
from .tune import Item, TuneText


class Tied(NamedTuple):
    """A note or chord with ties: its item and token, its notes with ties of their own, and the tie after it, -1 if there is none."""

    item: Item
    at: int
    own: list[int]
    tie: int


def ties(tune: TuneText) -> Iterator[Hint]:
    """Yields the ties that join nothing: the next note of the voice has another pitch, or is a rest. After a repeat, an ending
    or a part several notes may be next, so these ties have no hint, and neither has one at the end of the voice."""
    if any(b"-" in line.text for line in tune.lines):
        for voice in tune.voices.values():
            for items in voice.sections.values():
                yield from ties_in(tune, items)


def ties_in(tune: TuneText, items: list[Item]) -> Iterator[Hint]:
    """Yields the ties that join nothing among the items of a section."""
    tied: Optional[Tied] = None
    for item in items:
        for at in item.segment.timed if tied or b"-" in item.tokens.text else ():
            if item.tokens.kinds[at] != BAR_REST:
                if tied:
                    yield from loose(tune, tied, item, at)
                tied = tied_at(item, at)
        if item.sign.kind == ENDING or item.breaks or item.sign.closes or item.sign.opens:
            tied = None


def tied_at(item: Item, at: int) -> Optional[Tied]:
    """Returns a note or chord if it has ties."""
    kinds, after = item.tokens.kinds, item.tokens.after(at)
    own = [note for note in item.tokens.notes(at) if kinds[note + 1 : note + 2] == [TIE_PART]]
    tie = after if kinds[after : after + 1] == [TIE] and kinds[at] != REST else -1
    return Tied(item, at, own, tie) if own or tie >= 0 else None


def loose(tune: TuneText, tied: Tied, after: Item, at: int) -> Iterator[Hint]:
    """Yields a hint if ties do not join what follows: each of its own must, and of those after a chord one must. What is not
    played has no hint, and neither have silent notes on both sides whose keys are unknown."""
    item, line = tied.item, tied.item.tokens
    if not tune.is_played(item) or not tune.is_played(after):
        return
    own = tones(tune, item, tied.own)
    common = tones(tune, item, line.notes(tied.at)) if tied.tie >= 0 else []
    following = tones(tune, after, after.tokens.notes(at))
    if all(any(tone.key is None for tone in side) for side in ([*own, *common], following)):
        return
    keys = {tone.key for tone in following if tone.joined}
    if all(tone.key in keys for tone in own) and (not common or any(tone.key in keys for tone in common)):
        return
    column = line.starts[tied.at if own else tied.tie]
    is_rest = after.tokens.kinds[at] == REST
    what = "a rest" if is_rest else "a note of another pitch"
    instead = "delete it" if is_rest else "write a slur as `(C D)`, or the same note after it"
    yield Hint(item.line, column, "TieToOtherKey", f"{what} follows this tie, so it joins nothing; {instead}")


def tones(tune: TuneText, item: Item, tokens: list[int]) -> list[Entry]:
    """Returns the tones of notes of an item that are played. A silent one may be joined."""
    entries = [tune.played.get(tune.place(item.line, item.tokens.starts[at])) for at in tokens]
    found = [(entry, tune.play.entry(entry)) for entry in entries if tune.play and entry is not None]
    return [tone if tone.key is not None else tone._replace(key=silent_key(tune, entry), joined=True) for entry, tone in found]


def silent_key(tune: TuneText, entry: int) -> Optional[int]:
    """Returns the key of a silent tone, which is out of the range of MIDI: that of the tune some octaves lower or higher."""
    keys = [(shift, play.entry(entry).key) for shift, play in tune.transposed]
    return next((key - shift for shift, key in keys if key is not None), None)
