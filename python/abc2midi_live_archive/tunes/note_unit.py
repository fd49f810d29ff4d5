"""The unit note length of a tune, by its header and the file header."""

from __future__ import annotations

import re
from fractions import Fraction
from functools import lru_cache
from typing import NamedTuple, Optional

POWERS = {1 << n for n in range(10)}  # of two up to 512
BEATS = {1 << n for n in range(7)}  # that a meter has
MOST_COUNT = 255  # of a meter
UNIT = re.compile(r"1(?:/([0-9]{1,9}))?")
METER = re.compile(r"(?:([0-9]{1,9}(?:\+[0-9]{1,9})*)|\(([0-9]{1,9}(?:\+[0-9]{1,9})+)\))/([0-9]{1,9})")
NAMED = {"": None, "none": None, "C": Fraction(1), "C|": Fraction(1)}
SHORT_BAR = Fraction(3, 4)  # a meter below it has a sixteenth


class UnitFields(NamedTuple):
    """The values of `M:` and `L:` in a header, in their order."""

    meters: tuple[str, ...] = ()
    units: tuple[str, ...] = ()


NO_FIELDS = UnitFields()


@lru_cache(1024)
def unit_of(header: UnitFields, file_header: UnitFields) -> str:
    """Returns the unit note length with which a tune opens, as `1/8`."""
    for units in (header.units, file_header.units):
        accepted = [unit for unit in map(read_unit, units) if unit]
        if accepted:
            return accepted[-1]
    meters = [*file_header.meters, *header.meters]
    accepted_meters = [meter for is_meter, meter in map(read_meter, meters) if is_meter]
    meter = accepted_meters[-1] if accepted_meters else None
    return "1/16" if meter is not None and meter < SHORT_BAR else "1/8"


def read_unit(value: str) -> Optional[str]:
    """Returns a unit note length, or None if the value is none."""
    found = UNIT.fullmatch(value)
    below = int(found[1] or 1) if found else 0
    if below not in POWERS:
        return None
    return f"1/{below}" if below > 1 else "1"


def read_meter(value: str) -> tuple[bool, Optional[Fraction]]:
    """Returns whether a value is a meter, and how long its bar is; that of a free meter is None."""
    if value in NAMED:
        return True, NAMED[value]
    found = METER.fullmatch(value)
    if not found:
        return False, None
    count, below = sum(map(int, (found[1] or found[2]).split("+"))), int(found[3])
    is_meter = 1 <= count <= MOST_COUNT and below in BEATS
    return is_meter, Fraction(count, below) if is_meter else None
