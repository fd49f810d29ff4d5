"""Hints about what is written and not played as meant: `NotPlayed`, `TextBlock`, `Overlay`, `LostSharp`, `BagpipeKey`."""

from __future__ import annotations

import re
from collections import Counter
from collections.abc import Iterator

from .hint import Hint, counted
from .line import DECORATION, GRACE, MUSIC, NO_EFFECT, NOTE, PART, QUOTED, UNCLOSED, Line, value
from .tune import TuneText

CHORD_NAME = re.compile(
    rb'"\(?[A-G](?:#|b|\xe2\x99\xaf|\xe2\x99\xad)?(?:maj|min|dim|aug|sus|add|M|m|[o+0-9#b()-]|\xc2\xb0)*'
    rb'(?:/[A-G](?:#|b|\xe2\x99\xaf|\xe2\x99\xad)?)?\)?"\Z'
)
UNPLAYED = {  # what nobody hears, in the order of the sentence: one, and more
    "chord name": "chord names",
    "group of grace notes": "groups of grace notes",
    "decoration": "decorations",
    "line of lyrics": "lines of lyrics",
}
CONTINUED = b" \t|:(-[]%"  # after a `.`: a blank, a comment, a dotted bar line, slur or tie, and no decoration


def not_played(tune: TuneText) -> Iterator[Hint]:
    """Yields one hint for all chord names, grace notes, decorations and lyrics of a tune."""
    lyrics = [("line of lyrics", place) for place, text in tune.fields if text.startswith(b"w:") and value(text)]
    others = [(kind_of_other(tune.lines[n], at), (n, tune.lines[n].starts[at])) for n, at in tune.others]
    found = [(kind, place) for kind, place in [*others, *lyrics] if kind]
    if found:
        counts = Counter(kind for kind, _ in found)
        parts = [counted(counts[one], one, more) for one, more in UNPLAYED.items() if one in counts]
        yield Hint(*min(place for _, place in found), "NotPlayed", f"not played in this tune: {', '.join(parts)}")


def kind_of_other(line: Line, at: int) -> str:
    """Returns the kind of a token that is not played, or nothing if nobody would expect to hear it."""
    kind, text = line.kinds[at], line.token(at)
    if kind == QUOTED:
        return "chord name" if CHORD_NAME.match(text) else ""
    if kind == GRACE:
        return "group of grace notes"
    is_dot = text == b"." and (at + 1 == len(line.kinds) or line.token(at + 1)[:1] in CONTINUED)
    is_sign = kind == NO_EFFECT and (text.isalpha() or text in (b".", b"~")) and not is_dot
    return "decoration" if kind == DECORATION or is_sign else ""


def text_blocks(tune: TuneText) -> Iterator[Hint]:
    """Yields a hint for each text between `%%begintext` and `%%endtext`, or their like, that is read as music."""
    for start in dict.fromkeys(tune.in_block.values()):
        read = [n for n, begin in tune.in_block.items() if begin == start and tune.lines[n].kind == MUSIC]
        if read:
            lines = "this line is" if len(read) == 1 else f"{len(read)} lines of this text are"
            text = f"{lines} read as music; `%%begin..` has no effect, so write a `%` before each line"
            yield Hint(read[0], 1, "TextBlock", text)


def overlays(tune: TuneText) -> Iterator[Hint]:
    """Yields one hint for all overlays of a tune."""
    places = tune.overlays
    if places:
        what = "what follows this `&` is" if len(places) == 1 else f"what follows the {len(places)} signs `&` of this tune is"
        text = f"{what} played after what precedes it, not together with it; write a second voice (`V:`)"
        yield Hint(*min(places), "Overlay", text)


def lost_sharps(tune: TuneText) -> Iterator[Hint]:
    """Yields one hint for all signs `#` of a tune before or after a note, where they have no effect."""
    lines = ((n, line) for n, line in enumerate(tune.lines) if b"#" in line.text and n not in tune.in_block)
    places = [(n, line.starts[at]) for n, line in lines for at in sharps_in(line)]
    if places:
        what = "this `#` has" if len(places) == 1 else f"this `#` and {len(places) - 1} more have"
        yield Hint(*places[0], "LostSharp", f"{what} no effect; write a sharp before its note, as `^F`, and a flat as `_B`")


def sharps_in(line: Line) -> Iterator[int]:
    """Yields the signs `#` beside the letter of a note. What nothing closes may be a text up to the end."""
    tokens = [at for at, kind in enumerate(line.kinds) if kind < PART]
    for before, at, after in zip([-1, *tokens], tokens, [*tokens[1:], -1]):
        if line.kinds[at] == UNCLOSED:
            return
        if line.kinds[at] == NO_EFFECT and line.token(at) == b"#":
            follows = before >= 0 and line.kinds[before] == NOTE and line.token(before)[-1:] not in b"0123456789/"
            precedes = after >= 0 and line.kinds[after] == NOTE and line.token(after)[:1].isalpha()
            if follows or precedes:
                yield at


def bagpipe_keys(tune: TuneText) -> Iterator[Hint]:
    """Yields the keys of the bagpipe, which set no sharps."""
    for place, text in tune.fields:
        key = value(text)
        if text.startswith(b"K:") and key[:2] in (b"HP", b"Hp") and not key[2:3].isalpha():
            sharps = "`K:D` has the F and C sharp of the bagpipe"
            yield Hint(*place, "BagpipeKey", f"`K:{key[:2].decode()}` sets no sharps; {sharps}")
