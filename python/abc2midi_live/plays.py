"""The play of a number, for players, editors and teaching tools."""

from __future__ import annotations

from enum import Enum
from typing import NamedTuple, Optional


class EntryKind(Enum):
    """What an entry of a play is. The value is the number of the kind in the C library."""

    OTHER = 0  # of a library newer than this package
    NOTE = 1
    REST = 2
    BAR = 3


class Entry(NamedTuple):
    """A tone, a rest or a bar line that is played. `on` and `off` are ticks from the beginning of the tune, 480 a quarter note. `key`
    and `velocity` are None for a silent tone, a rest and a bar line. `joined` is whether a tie joins a tone with one before it,
    `tied` whether a tie follows it and it has a key. The place in the text is a line, and the columns of the first byte and after the
    last one, all counted from 1, columns in bytes."""

    on: int
    off: int
    kind: EntryKind
    key: Optional[int]
    velocity: Optional[int]
    joined: bool
    tied: bool
    line: int
    from_column: int
    to_column: int


Track = tuple[Entry, ...]
KINDS = {kind.value: kind for kind in EntryKind}
OTHER = EntryKind.OTHER


def entry_kind_of(number: int) -> EntryKind:
    """The kind of a number of the C library."""
    return KINDS.get(number, OTHER)
