"""Reading tunes by a session of the library, one at a time: their tokens, faults and what they play."""

from __future__ import annotations

import threading
from collections.abc import Callable, Sequence
from functools import partial
from typing import TYPE_CHECKING, NamedTuple, Optional

from abc2midi_live import Edit, Fault, LibraryMissing, PlayTooLong
from abc2midi_live.lines import MOST_BYTES
from abc2midi_live.opening import library_session

from .line import BLANK, DIRECTIVE, FIELDS, KEY_FIELD, MUSIC, Line, is_blank, line_of

if TYPE_CHECKING:
    from abc2midi_live.library import LibrarySession
    from abc2midi_live.records import PlayColumns

NUMBER = 1
FIRST_LINE = b"X:%d" % NUMBER
FREE_HEADER = [b"X:0", b"K:C"]  # makes a tune of lines that are in none
NO_LINE = Line(b"", BLANK, [], [], [], [], [])
MOST_KEPT = 200_000  # bytes of the lines whose tokens are kept
_HERE = threading.local()


class Reading(NamedTuple):
    """Some lines as the library reads them. Lines count from 0, and columns from 1."""

    header: list[tuple[int, Line]]  # the meters of the file header, by lines of the session
    lines: list[Line]  # of the tune
    body: int  # its first line after the header
    free: list[Line]  # after the tune, as they would be in a tune
    first: int  # the line of the session that is line 0
    faults: list[Fault]  # of the session
    play: Optional[PlayColumns]  # the parts in the order of the text; None if the tune is too long
    replay: Callable[[int], Optional[PlayColumns]]  # the same some semitones higher, until the next tune is read


class Reader:
    """Reads tunes by a session, whose text is one tune at a time."""

    def __init__(self, session: LibrarySession):
        self.session = session
        self.known: dict[bytes, Line] = {}  # lines in tunes: their tokens depend on their bytes alone
        self.known_bytes = 0

    def read(self, header: Sequence[bytes], lines: Sequence[bytes]) -> Reading:
        """Reads the lines from an `X:` line to the next one, after a file header. The parts of the tune are played in the order
        of the text, so that each has its time."""
        end = next((n for n, line in enumerate(lines) if is_blank(line)), len(lines))
        free, first = self.free(lines[end:]), len(header) + 2
        self._put([*header, b"", FIRST_LINE, *lines[1:end]])
        tune = self._lines_in_tune(first)
        key = next((n for n, line in enumerate(tune) if line.kind in (MUSIC, KEY_FIELD)), end)
        for n in range(key):
            if tune[n].field().startswith(b"P:"):
                self.session.replace(first + n, first + n, [b"%"])
        has_key = tune[key : key + 1] != [] and tune[key].kind == KEY_FIELD
        meters = [(n, self._line(n, text)) for n, text in enumerate(header, 1) if text.startswith(b"M:")]
        replay = partial(self._transposed, first + key - 1, tune[key].field() if has_key else b"")
        return Reading(meters, tune, key + has_key, free, first, self.session.faults, self._play(), replay)

    def _play(self) -> Optional[PlayColumns]:
        """Returns what the tune plays, None if it is too long."""
        try:
            return self.session.play_columns(NUMBER)
        except PlayTooLong:
            return None

    def _transposed(self, at: int, key: bytes, semitones: int) -> Optional[PlayColumns]:
        """Returns what the tune plays some semitones higher, by a key at the end of its header, after `at` lines."""
        self.session.apply([Edit(at, at + bool(key), [b"%b transpose=%d" % (key or b"K:", semitones)])])
        play = self._play()
        self.session.apply([Edit(at, at + 1, [key] if key else [])])
        return play

    def free(self, lines: Sequence[bytes]) -> list[Line]:
        """Returns lines that are in no tune as they would be in one; the blank ones are empty."""
        if all(map(is_blank, lines)):
            return []
        self._put([*FREE_HEADER, *(b"%" if is_blank(line) else line for line in lines)])
        return [NO_LINE if is_blank(text) else line for text, line in zip(lines, self._lines_in_tune(len(FREE_HEADER) + 1))]

    def line_in_tune(self, text: bytes) -> Line:
        """Returns a line as it would be in a tune, without tokens if it is too long for one."""
        if text in self.known or len(text) > MOST_BYTES:
            return self.known.get(text, NO_LINE)
        return next(iter(self.free([text])), NO_LINE)

    def file_header(self, lines: Sequence[bytes]) -> int:
        """Returns how many of the lines before the first tune are the file header."""
        self._put(lines)
        kinds = [self._line(n, text).kind for n, text in enumerate(lines, 1)]
        return max((n for n, kind in enumerate(kinds, 1) if kind in FIELDS or kind == DIRECTIVE), default=0)

    def _put(self, lines: Sequence[bytes]) -> None:
        """Makes lines the text."""
        self.session.apply([Edit(0, self.session.line_count, list(lines))])

    def _lines_in_tune(self, first: int) -> list[Line]:
        """Returns the lines of the text from the line `first` of its tune on."""
        lines = []
        for number, text in enumerate(self.session.lines[first - 1 :], first):
            if text not in self.known:
                self.known_bytes += len(text)
                if self.known_bytes > MOST_KEPT:
                    self.known_bytes = len(text)
                    self.known.clear()
                self.known[text] = self._line(number, text)
            lines.append(self.known[text])
        return lines

    def _line(self, number: int, text: bytes) -> Line:
        """Returns a line, counted from 1."""
        return line_of(text, self.session.token_columns(number))


def reader_here(library: Optional[str]) -> Optional[Reader]:
    """Returns the reader of the present thread over a library, or over the one that is found, if there is one."""
    readers: dict[Optional[str], Reader] = _HERE.__dict__.setdefault("readers", {})
    if library not in readers:
        try:
            readers[library] = Reader(library_session(library))
        except LibraryMissing:
            return None
    return readers[library]
