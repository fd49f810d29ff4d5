"""What the program finds in a text, as rows that windows keep and move with their lines.

The windows do so by `page/link/finding_rows.js`, which mirrors `moved` and `difference`: tests/clients/page/test_finding_rows.py compares the two."""

from bisect import bisect_left
from collections.abc import Sequence
from itertools import groupby
from typing import Any, NamedTuple

from abc2midi_live import Fault
from abc2midi_live.edits import common_front

from ..common.json_object import Json
from ..common.session_book import Tune, files_of, lines_too_long
from .book_text import Text

NOTHING_FOUND = {"faults": {"at": 0, "out": 0, "put": []}, "tunes": {"at": 0, "out": 0, "put": []}, "written": [], "removed": []}

FaultRow = tuple[int, int, int, str]  # line from 0, column, the column after it, name
TuneRow = tuple[int, int, str, bool]  # line from 0, number, title, whether the number's file is this tune's


class Rows(NamedTuple):
    """What the program finds in a text."""

    faults: list[FaultRow]
    tunes: list[TuneRow]


class TuneRows:
    """The rows of the tunes of a book. They are the same list until a tune is another one."""

    def __init__(self) -> None:
        self.tunes: list[Tune] = []
        self.too_long: set[int] = set()
        self.rows: list[TuneRow] = []

    def of(self, tunes: list[Tune], faults: list[Fault]) -> list[TuneRow]:
        """The rows of tunes of a text with some faults."""
        too_long = lines_too_long(faults)
        if tunes is not self.tunes or too_long != self.too_long:
            owners = files_of(tunes, faults)
            self.rows = [(tune.line - 1, tune.number, tune.title, owners.get(tune.number) is tune) for tune in tunes]
            self.tunes, self.too_long = tunes, too_long
        return self.rows


def moved(rows: list[Any], edit: Json) -> list[Any]:
    """The rows of a text after an edit, without those of the lines that it replaces: the same list if no row moves."""
    start, stop = edit["start"], edit["stop"]
    grown = len(edit["lines"]) - (stop - start)
    first, last = bisect_left(rows, (start,)), bisect_left(rows, (stop,))
    if not grown:
        return rows if first == last else [*rows[:first], *rows[last:]]
    return [*rows[:first], *((row[0] + grown, *row[1:]) for row in rows[last:])]


def difference(old: Sequence[Any], new: Sequence[Any]) -> Json:
    """How a window makes new rows of old ones: at a place some rows go and others come."""
    if old is new or old == new:
        return {"at": len(new), "out": 0, "put": []}
    front = common_front(old, new)
    back = common_front(old[front:][::-1], new[front:][::-1])
    return {"at": front, "out": len(old) - front - back, "put": new[front : len(new) - back]}


def shown_rows(text: Text, faults: list[FaultRow]) -> list[list[Any]]:
    """Faults as windows see them, in order: the line of each, its begin and end there in UTF-16, and its name."""
    found = []
    for number, those in groupby(faults, lambda fault: fault[0]):
        places = text.places(text.lines[number])
        found += [[number, *places.span(column, end), name] for _, column, end, name in those]
    return found
