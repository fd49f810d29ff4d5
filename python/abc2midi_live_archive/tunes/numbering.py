"""The numbers of tunes in a session: those that are written, or their places in the book."""

from __future__ import annotations

from collections.abc import Sequence
from typing import NamedTuple

from abc2midi_live import Fault, Session, Title

from ..cutting import Part, tune_starts
from ..units import Numbering

OF_NUMBER = "BadReference"  # the fault of a line that has the number of a tune


class Text(NamedTuple):
    """A part of a book in a session: the lines that begin tunes, counted from 0; the titles and faults as they are written; and the
    number that each tune has in the session."""

    starts: Sequence[int]
    titles: Sequence[Title]
    faults: Sequence[Fault]
    numbers: Sequence[int]


def insert_part(session: Session, part: Part, numbering: Numbering, tunes: int) -> Text:
    """Inserts a part of a book, before which the book has some tunes. If files are numbered by place, each tune gets a number of its own
    in the session. What the session reports of numbers is then of a text that has the lines of the numbers alone."""
    starts = tune_starts(part.lines)
    if numbering is Numbering.NUMBER:
        session.insert(1, part.lines)
        titles = session.titles
        return Text(starts, titles, session.faults, [title.number for title in titles])
    written = [part.lines[start] for start in starts]
    session.insert(1, written)
    titles, faults = session.titles, [fault for fault in session.faults if fault.name == OF_NUMBER]
    if written:
        session.delete(1, len(written))
    places = range(tunes + 1, tunes + len(starts) + 1)
    lines = list(part.lines)
    for start, place in zip(starts, places):
        lines[start] = b"X:%d" % place
    session.insert(1, lines)
    texts = [Title(number, text) for (number, _), (_, text) in zip(titles, session.titles)]
    faults = [fault._replace(line=starts[fault.line - 1] + 1) for fault in faults]
    return Text(starts, texts, sorted([*faults, *session.faults], key=lambda fault: fault[:2]), places)
