"""The tonic and the mode of a `K:` field, by the rules of the program: one that it refuses has none."""

from __future__ import annotations

import re
from functools import lru_cache
from typing import NamedTuple, Optional

MODES = {  # by their first three letters: their names, and the sharps that they add
    "maj": ("major", 0),
    "ion": ("major", 0),
    "min": ("minor", -3),
    "aeo": ("minor", -3),
    "dor": ("dorian", -2),
    "phr": ("phrygian", -4),
    "lyd": ("lydian", 1),
    "mix": ("mixolydian", -1),
    "loc": ("locrian", -5),
}
SHARPS = {letter: sharps for sharps, letter in enumerate("FCGDAEB", -1)}
SIGNS = {"": 0, "#": 7, "b": -7}
MOST_SHARPS = 7
KEY = re.compile(r"([A-G])([#b]?)([ \t]*)([A-Za-z]*)")
LISTED = "explicit"  # the mode of a key that lists its accidentals


class Key(NamedTuple):
    """A tonic, as `F#`, and the name of a mode. A key without them has no tonic."""

    tonic: Optional[str] = None
    mode: Optional[str] = None


NO_KEY = Key()


@lru_cache(1024)
def key_of(value: str) -> Key:
    """Returns the key of a field by its value."""
    found = KEY.match(value)
    mode = found and mode_of(found[4], not found[3])
    if not found or not mode:
        return NO_KEY
    name, sharps = mode
    if name != LISTED and abs(SHARPS[found[1]] + SIGNS[found[2]] + sharps) > MOST_SHARPS:
        return NO_KEY
    return Key(found[1] + found[2], name)


def mode_of(run: str, is_direct: bool) -> Optional[tuple[str, int]]:
    """Returns the name and the sharps of the mode that a run of letters is. One after blanks that is no mode is a word like others."""
    if run == "m":
        return MODES["min"]
    if run == "exp" and not is_direct:
        return LISTED, 0
    return MODES.get(run[:3].lower(), MODES["maj"] if not (run and is_direct) else None)


def sharps_of(key: Key) -> int:
    """Returns the sharps of a key that has a tonic and a mode; flats are negative."""
    assert key.tonic and key.mode
    added = {name: sharps for name, sharps in MODES.values()}
    return SHARPS[key.tonic[0]] + SIGNS[key.tonic[1:]] + added[key.mode]
