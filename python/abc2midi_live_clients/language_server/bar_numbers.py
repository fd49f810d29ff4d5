"""The numbers of bars, at the beginnings of the lines of music."""

from collections.abc import Iterator
from typing import Any, NamedTuple

from abc2midi_live import Entry, EntryKind, Track

from ..common.json_object import Json
from ..common.line_places import character_of
from .document import Document, TuneLines
from .text_changes import range_of
from .workspace import Workspace

Place = tuple[int, int]  # a line and a column, both from 1


class Bar(NamedTuple):
    """A bar of a voice: its number, and the place of each note and rest in it."""

    number: int
    places: list[Place]


def inlay_hints(workspace: Workspace, params: Any) -> list[Json]:
    """The number of the bar at the first note of each line in a range."""
    document, asked = workspace.document(params), range_of(params["range"])
    first, last = document.place(asked.start)[0], document.place(asked.end)[0]
    found = []
    for tune in document.tunes():
        if tune.start <= last and first < tune.end:
            found += [hint(document, place, number) for place, number in starts(document, tune) if first <= place[0] - 1 <= last]
    return found


def starts(document: Document, tune: TuneLines) -> list[tuple[Place, int]]:
    """Returns the first note of each line, and the number of its bar. A pickup has none."""
    found: dict[int, tuple[Place, int]] = {}
    for track in document.play(tune.tune):
        for number, places in bars(track):
            for place in places:
                if place[0] not in found or place < found[place[0]][0]:
                    found[place[0]] = place, number
    return sorted((place, number) for place, number in found.values() if number)


def bars(track: Track) -> Iterator[Bar]:
    """Yields the bars of a voice in the order of the text. A bar line with nothing played since the last one begins no bar."""
    first: dict[Place, Entry] = {}
    for entry in track:
        first.setdefault((entry.line, entry.from_column), entry)
    found: list[list[Entry]] = [[]]
    ends = [0]  # when each bar ends
    for _, entry in sorted(first.items()):
        if entry.kind != EntryKind.BAR:
            found[-1].append(entry)
        elif found[-1]:
            found.append([])
            ends.append(entry.on)
    number = 0 if has_pickup(ends) else 1
    for n, entries in enumerate(found):
        yield Bar(number + n, [(entry.line, entry.from_column) for entry in entries])


def has_pickup(ends: list[int]) -> bool:
    """Returns whether the first bar is shorter than the second one."""
    return len(ends) > 2 and ends[1] < ends[2] - ends[1]


def hint(document: Document, place: Place, number: int) -> Json:
    """Returns the hint at a place."""
    line, column = place
    position = document.text.position(line - 1, character_of(document.lines[line - 1], column))
    return {"position": position._asdict(), "label": str(number), "paddingRight": True, "tooltip": f"bar {number}"}
