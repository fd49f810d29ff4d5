"""A tune book in a session, as the clients need it."""

import os
from bisect import bisect_left
from collections.abc import Sequence
from typing import TYPE_CHECKING, NamedTuple, Optional, cast

from abc2midi_live import Built, Edit, Fault, ProcessSession, Report, Session, Title, Token
from abc2midi_live.edits import edits, join_edits
from abc2midi_live.lines import MOST_BYTES, MOST_LINES
from abc2midi_live.plays import Track

from .faults import end_of
from .line_places import is_inside_character, text_of

if TYPE_CHECKING:
    from abc2midi_live.library import LibrarySession
    from abc2midi_live.records import PlayColumns, TokenColumns

LEFT_OUT = b"%"  # sent instead of a longer line: a comment has no effect
MOST_ENDS = 100_000  # of faults that are known


class Tune(NamedTuple):
    """A tune of the text: its number, its title, and its `X:` line, counted from 1."""

    number: int
    title: str
    line: int


class Renewal(NamedTuple):
    """The titles that an edit may have changed: those from `start` to `stop` of the text before became those from `start` to `end`."""

    start: int
    stop: int
    end: int


class KnownTunes(NamedTuple):
    """What is known of the tunes: the titles as the session has them, the lines that begin tunes, and the tunes."""

    titles: list[Title]
    starts: list[int]
    tunes: list[Tune]


class SessionBook:
    """A text in a session. Lines that the session would refuse are comments there, and faults here."""

    def __init__(self, session: Session):
        self.lines: list[bytes] = []
        self.starts: list[int] = []  # the lines that begin tunes, counted from 0
        self.left_out: list[int] = []  # the lines that are too long, counted from 0
        self.renewal: Optional[Renewal] = None  # since the tunes were asked for
        self.known = KnownTunes([], [], [])
        self.ends: dict[tuple[bytes, int, str], int] = {}  # the column after each fault, by its line, its column and its name
        self.report = Report((), ())  # of the last replacement
        self.session = session

    def replace(self, start: int, stop: int, lines: list[bytes]) -> list[Edit]:
        """Replaces the lines from `start` to `stop`, counted from 0 and without `stop`, by few edits, and returns them."""
        old, count = self.lines, len(self.lines) + len(lines) - (stop - start)
        if max(len(old), count) <= MOST_LINES:
            found = [Edit(start + a, start + b, put) for a, b, put in edits(old[start:stop], lines)]
        else:
            found = edits(old[:MOST_LINES], (old[:start] + lines + old[stop:])[:MOST_LINES])
        sent = join_edits(found, old)
        self.report = self.session.apply([Edit(a, b, [line_to_send(line) for line in put]) for a, b, put in sent])
        self.lines[start:stop] = lines
        starts, left_out = places_in(lines)
        old_starts, self.starts = self.starts, splice_places(self.starts, start, stop, starts, len(lines))
        self.left_out = splice_places(self.left_out, start, stop, left_out, len(lines))
        self.renewal = self.renewal_by(old_starts, start, stop)
        return sent

    def renewal_by(self, old_starts: list[int], start: int, stop: int) -> Renewal:
        """The titles that may be others after an edit: from the tune before it to the tune after it. If no tune begins before it, the
        file header may be another, and so may all titles."""
        known, first, last = len(self.known.titles), bisect_left(old_starts, start), bisect_left(old_starts, stop)
        if self.renewal or first == 0 or max(len(self.lines), known) > MOST_LINES or known != len(old_starts):
            return Renewal(0, known, len(self.starts))
        return Renewal(first - 1, last, last + len(self.starts) - len(old_starts))

    def faults(self) -> list[Fault]:
        """The faults of the text in order, and of the lines that are left out. Of `BadByte` at each byte of a character only
        the first one counts."""
        found = [Fault(n + 1, MOST_BYTES + 1, "BadLine") for n in self.left_out]
        if len(self.lines) > MOST_LINES:
            found.append(Fault(MOST_LINES + 1, 1, "TooLarge"))
        for fault in self.session.faults:
            if fault.name != "BadByte" or not is_inside_character(self.lines[fault.line - 1], fault.column):
                found.append(fault)
        return sorted(found, key=lambda fault: fault[:2])

    def end_of(self, fault: Fault) -> int:
        """The column after a fault of the text, by the tokens of its line. Raises LibraryNeeded over a process."""
        key = self.lines[fault.line - 1], fault.column, fault.name
        if key not in self.ends:
            if len(self.ends) == MOST_ENDS:
                self.ends.clear()
            tokens = ((token.from_column, token.to_column) for token in self.tokens(fault.line - 1))
            self.ends[key] = end_of(*key, tokens)
        return self.ends[key]

    def tunes(self) -> list[Tune]:
        """The tunes of the text in order: each `X:` line begins one. If no title and no place changed, they are the list of the
        last time."""
        if self.renewal:
            start, stop, end = self.renewal
            (titles, starts, tunes), fresh = self.known, self.session.titles_in(start, end)
            if fresh != titles[start:stop] or self.starts != starts:
                new = [Tune(number, text_of(title), n + 1) for (number, title), n in zip(fresh, self.starts[start:])]
                after = [Tune(number, title, n + 1) for (number, title, _), n in zip(tunes[stop:], self.starts[end:])]
                self.known = KnownTunes(titles[:start] + fresh + titles[stop:], self.starts, tunes[:start] + new + after)
            self.renewal = None
        return self.known.tunes

    def midi(self, number: int) -> Optional[bytes]:
        """The bytes of the MIDI file of a number, without a build."""
        return self.session.output(number)

    def tokens(self, line: int) -> tuple[Token, ...]:
        """The tokens of a line, counted from 0. A line that is left out has none. Raises LibraryNeeded over a process."""
        return self.session.tokens(line + 1) if self.has_tokens(line) else ()

    def token_columns(self, line: int) -> "Optional[TokenColumns]":
        """The tokens of a line by columns, over the library. A line that is left out has none."""
        return cast("LibrarySession", self.session).token_columns(line + 1) if self.has_tokens(line) else None

    def has_tokens(self, line: int) -> bool:
        """Whether the session has a line, counted from 0, as it is."""
        return line < min(len(self.lines), MOST_LINES) and len(self.lines[line]) <= MOST_BYTES

    def play(self, number: int) -> Optional[tuple[Track, ...]]:
        """What is played of a number, None if it has no file. Raises LibraryNeeded over a process, and PlayTooLong."""
        return self.session.play(number)

    def play_columns(self, number: int) -> "Optional[tuple[PlayColumns, list[int]]]":
        """The same by columns, over the library, and how many entries each track has."""
        session = cast("LibrarySession", self.session)
        play = session.play_columns(number)
        return (play, session.track_sizes(number)) if play else None


class LiveBook(SessionBook):
    """A text in a running program, which stores its files in a folder."""

    def __init__(self, program: str, directory: str):
        self.directory = directory
        self.running = ProcessSession(program, directory)
        self.process = self.running.process
        super().__init__(self.running)

    def close(self) -> int:
        """Ends the program after its present command, and returns its exit status."""
        self.running.close()
        return self.process.returncode

    def build(self) -> Built:
        """Brings the folder up to date."""
        return self.running.build()

    def path(self, number: int) -> str:
        """The MIDI file of a number."""
        return os.path.join(self.directory, f"{number}.mid")


def line_to_send(line: bytes) -> bytes:
    """A line as the program gets it."""
    return line if len(line) <= MOST_BYTES else LEFT_OUT


def places_in(lines: list[bytes]) -> tuple[list[int], list[int]]:
    """The lines that begin tunes, and those that are too long, counted from 0."""
    left_out = [n for n, line in enumerate(lines) if len(line) > MOST_BYTES]
    return [n for n, line in enumerate(lines) if line.startswith(b"X:") and len(line) <= MOST_BYTES], left_out


def splice_places(places: list[int], start: int, stop: int, put: list[int], count: int) -> list[int]:
    """Places of a text after the lines from `start` to `stop` became `count` others, which have the places `put`."""
    before, after, more = bisect_left(places, start), bisect_left(places, stop), count - (stop - start)
    return places[:before] + [start + n for n in put] + ([n + more for n in places[after:]] if more else places[after:])


def lines_too_long(faults: Sequence[Fault]) -> set[int]:
    """The lines of the tunes that are too long, counted from 1."""
    return {fault.line for fault in faults if fault.name == "TuneTooLong"}


def files_of(tunes: Sequence[Tune], faults: Sequence[Fault]) -> dict[int, Tune]:
    """The tune that has the file of each number: the first one of that number that is not too long."""
    too_long = lines_too_long(faults)
    found: dict[int, Tune] = {}
    for tune in tunes:
        if tune.line not in too_long:
            found.setdefault(tune.number, tune)
    return found
