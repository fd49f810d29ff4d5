"""The differences between two texts, as few edits."""

import difflib
from bisect import bisect_left
from collections import Counter
from collections.abc import Sequence
from typing import NamedTuple, Optional

from .lines import MOST_LINES

MOST_EDITS = 1_000  # for one change of the text
SLICE = 256  # lines that are compared at once
LONGEST_SEARCH = 2_000  # lines; longer runs without a unique line are replaced as a whole


class Edit(NamedTuple):
    """The lines from `start` to `stop`, counted from 0 and without `stop`, become `lines`."""

    start: int
    stop: int
    lines: list[bytes]


def few_edits(old: list[bytes], new: list[bytes]) -> list[Edit]:
    """Few edits that make `new` of `old`, at most one for each tune, rising, with places of `old`. On the way from the last
    edit to the first the text never has too many lines if `old` and `new` have not."""
    return join_edits(edits(old, new), old)


def join_edits(found: list[Edit], old: list[bytes]) -> list[Edit]:
    """Edits of a text joined to few, and to one if the text could have too many lines on the way."""
    on_the_way = len(old) + sum(len(edit.lines) for edit in found)
    return merge_edits(found, old, MOST_EDITS if on_the_way <= MOST_LINES else 1)


def edits(old: list[bytes], new: list[bytes]) -> list[Edit]:
    """Edits that make `new` of `old`, rising, with places of `old`. At least one unchanged line is between any two."""
    front = common_front(old, new)
    back = common_front(old[front:][::-1], new[front:][::-1])
    before, after = old[front : len(old) - back], new[front : len(new) - back]
    found = []
    a = b = 0
    for c, d in [*anchors(before, after), (len(before), len(after))]:
        for i, j, k, m in changes(before[a:c], after[b:d]):
            found.append(Edit(front + a + i, front + a + j, after[b + k : b + m]))
        a, b = c, d
    return found


def changes(old: list[bytes], new: list[bytes]) -> list[tuple[int, int, int, int]]:
    """Where two lists differ: start and stop in the old one, start and stop in the new one."""
    if max(len(old), len(new)) > LONGEST_SEARCH:
        return [(0, len(old), 0, len(new))]
    codes = difflib.SequenceMatcher(None, old, new).get_opcodes()
    return [(i, j, k, m) for kind, i, j, k, m in codes if kind != "equal"]


def common_front(old: Sequence[object], new: Sequence[object]) -> int:
    """How many items are the same at the front of both. Slices are compared faster than items."""
    most = min(len(old), len(new))
    start = next((n for n in range(0, most, SLICE) if old[n : n + SLICE] != new[n : n + SLICE]), most)
    return next((n for n in range(start, most) if old[n] != new[n]), most)


def anchors(old: list[bytes], new: list[bytes]) -> list[tuple[int, int]]:
    """Pairs of places of lines that each list has just once, rising in both. `difflib` searches only between them: over
    thousands of tunes that change in several places it would take seconds."""
    places = places_of_single(new)
    pairs = [(place, places[line]) for line, place in places_of_single(old).items() if line in places]
    return [pairs[n] for n in longest_rise([place for _, place in pairs])]


def places_of_single(lines: list[bytes]) -> dict[bytes, int]:
    """The place of each line that occurs just once."""
    times = Counter(lines)
    return {line: place for place, line in enumerate(lines) if times[line] == 1}


def longest_rise(numbers: list[int]) -> list[int]:
    """The places of a longest rising selection of different numbers."""
    ends: list[int] = []  # by length: the least number that ends a selection
    last: list[int] = []  # by length: the place of that number
    before: list[Optional[int]] = []
    for place, number in enumerate(numbers):
        length = bisect_left(ends, number)
        before.append(last[length - 1] if length else None)
        ends[length : length + 1] = [number]
        last[length : length + 1] = [place]
    chosen = []
    at = last[-1] if last else None
    while at is not None:
        chosen.append(at)
        at = before[at]
    return chosen[::-1]


def merge_edits(found: list[Edit], old: list[bytes], most: int) -> list[Edit]:
    """The same change in at most `most` edits, and in one for each tune. An edit costs about half of opening its tune, so
    two in one tune cost as much as the whole tune. Far edits stay apart: unchanged lines between merged ones are sent too."""
    gaps = [
        (after.start - before.stop, n)
        for n, (before, after) in enumerate(zip(found, found[1:]), 1)
        if any(line.startswith(b"X:") for line in old[before.stop : after.start])
    ]
    far = sorted(gaps, reverse=True)[: most - 1]
    cuts = [0, *sorted(n for _, n in far), len(found)]
    return [as_one(found[a:b], old) for a, b in zip(cuts, cuts[1:])] if found else []


def as_one(found: list[Edit], old: list[bytes]) -> Edit:
    """One edit that does the same as these."""
    lines: list[bytes] = []
    at = found[0].start
    for edit in found:
        lines += old[at : edit.start] + edit.lines
        at = edit.stop
    return Edit(found[0].start, at, lines)
