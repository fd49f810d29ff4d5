"""Hints about repeats and endings: `OpenRepeat`, `LostEnding`, `PartInRepeat`. How often a note is played is that of the play."""

from __future__ import annotations

from collections.abc import Iterator
from typing import Optional

from .hint import Hint
from .line import ENDING
from .tune import Item, TuneText

PART_IN_REPEAT = "this part begins inside a repeat, which does not reach over it; each part is played on its own"
OPEN_REPEAT = "nothing closes this repeat, so it is played once; write `:|` at its end"
LOST_ENDING = "no pass reaches this ending: an earlier one has its number; a double bar (`||`) or `|:` ends a repeat"


def repeats(tune: TuneText) -> Iterator[Hint]:
    """Yields the hints about repeats of a tune."""
    for voice in tune.voices.values() if tune.play else ():
        sections: list[tuple[int, list[Item]]] = [*voice.sections.items(), (0, [])]
        for (_, items), (after, following) in zip(sections, sections[1:]):
            yield from lost_endings(tune, items)
            last = next((item for item in reversed(items) if item.sign.opens), None)
            for opening in open_repeats(tune, items):
                if opening is last and next((item.sign.closes for item in following if item.sign.is_thick), False):
                    yield Hint(*tune.parts[after - 1], "PartInRepeat", PART_IN_REPEAT)
                else:
                    yield Hint(opening.line, opening.segment.column, "OpenRepeat", OPEN_REPEAT)


def open_repeats(tune: TuneText, items: list[Item]) -> Iterator[Item]:
    """Yields the bar lines that open a repeat whose first note is played once. The music of an ending always is: if one follows
    directly, a bar line that closes the repeat or a second ending shows that it is repeated."""
    opening: Optional[Item] = None
    for n, item in enumerate(items):
        is_music = bool(item.segment.timed)
        if opening and (tune.is_played_once(item) if is_music else item.sign.kind == ENDING and not is_repeated(items[n:])):
            yield opening
        if item.sign.opens:
            opening = item
        elif item.sign.closes or item.sign.kind == ENDING or is_music:
            opening = None


def is_repeated(items: list[Item]) -> bool:
    """Returns whether a repeat that begins with an ending has a second one, or is closed."""
    for item in items:
        if item.sign.kind == ENDING and item.sign.text.strip(b"[") != b"1":
            return True
        if item.sign.closes or item.sign.opens:
            return item.sign.closes
    return False


def lost_endings(tune: TuneText, items: list[Item]) -> Iterator[Hint]:
    """Yields the endings whose first note is never played: earlier ones of the repeat have all their numbers."""
    ending: Optional[Item] = None
    for item in items:
        if ending and item.segment.timed:
            if not tune.is_played(item):
                yield Hint(ending.line, ending.segment.column, "LostEnding", LOST_ENDING)
            ending = None
        if item.sign.kind == ENDING or item.sign.is_thick:
            ending = None if item.sign.is_thick else item
