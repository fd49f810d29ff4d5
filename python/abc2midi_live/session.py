"""What a session is, whichever way it is run."""

from __future__ import annotations

from abc import ABC, abstractmethod
from collections.abc import Callable, Sequence
from operator import index
from types import TracebackType
from typing import NamedTuple, Optional, TypeVar

from .edits import Edit, few_edits
from .errors import BadLine, BadRange, ClosedError, EditError, TooLarge, refusal
from .lines import MOST_BYTES, MOST_LINES, Lines, Text, lines_of, lines_of_book
from .plays import Track
from .tokens import Token

Self = TypeVar("Self", bound="Session")


class Report(NamedTuple):
    """What an edit changed: the numbers of tunes, rising, whose MIDI file is new or has other bytes, and of those that have no
    file any more."""

    written: tuple[int, ...]
    removed: tuple[int, ...]


class Title(NamedTuple):
    """A tune of the text: its number and its title, as it is written, without blanks at its ends."""

    number: int
    text: bytes


class Fault(NamedTuple):
    """A fault of the text: its line and its column, both counted from 1, columns in bytes, and its name, as `BadMeter`."""

    line: int
    column: int
    name: str


class Work(NamedTuple):
    """What all edits and questions for tokens cost so far: lines scanned, pieces of music folded, and files built."""

    scanned: int
    folded: int
    built: int


class Session(ABC):
    """The text of a tune book under edits. At any time it has the MIDI files, titles and faults of the whole present text.

    Lines are counted from 1. A line is bytes without a line feed, since the text of an ABC file may be any bytes; a str is
    written in UTF-8. Edits take a text, which is cut at its line feeds, or an iterable of lines. An edit is refused by the
    first of these that applies, and then the session is as it was: `BadRange`, `BadLine`, `TooLarge`, `OutOfMemory`.

    A session is a context manager that closes itself. Every call but `close` raises `ClosedError` after that."""

    def __init__(self) -> None:
        self._lines: list[bytes] = []
        self._is_closed = False

    # ---- edits

    def insert(self, at: int, lines: Lines) -> Report:
        """Inserts lines before line `at`, which is from 1 to `line_count + 1`."""
        self._check_ready()
        at, put = index(at), lines_of(lines)
        return self._follow(Edit(at - 1, at - 1, put), lambda: self._insert(at, put))

    def replace(self, from_line: int, to_line: int, lines: Lines) -> Report:
        """Replaces the lines from `from_line` to `to_line`, both included, by any number of lines."""
        self._check_ready()
        from_line, to_line, put = index(from_line), index(to_line), lines_of(lines)
        return self._follow(Edit(from_line - 1, to_line, put), lambda: self._replace(from_line, to_line, put))

    def delete(self, from_line: int, to_line: int) -> Report:
        """Deletes the lines from `from_line` to `to_line`, both included."""
        self._check_ready()
        from_line, to_line = index(from_line), index(to_line)
        return self._follow(Edit(from_line - 1, to_line, []), lambda: self._delete(from_line, to_line))

    def set_text(self, text: Text) -> Report:
        """Makes the text that of a tune book, by few edits. A byte order mark at its start is dropped.

        All edits are one report. If one edit changes a file and another one changes it back, its number is in `written`.
        If an allocation fails between two edits, those before it stay: `lines` has the text so far, and the same call made
        again goes on from there."""
        self._check_ready()
        return self.apply(few_edits(self._lines, lines_of_book(text)))

    def apply(self, edits: Sequence[Edit]) -> Report:
        """Makes edits, which rise and do not overlap. Their places are those of the present text. Returns one report, as
        `set_text` does. If one would be refused, nothing is changed, but for allocations that fail between two edits."""
        self._check_ready()
        checked = [Edit(index(start), index(stop), lines_of(lines)) for start, stop, lines in edits]
        self._check_edits(checked)
        if len(checked) == 1:
            return self._apply_one(checked[0])
        had = set(self.numbers)
        has_file: dict[int, bool] = {}
        for edit in reversed(checked):
            report = self._apply_one(edit)
            has_file.update(dict.fromkeys(report.written, True))
            has_file.update(dict.fromkeys(report.removed, False))
        written = sorted(number for number, has in has_file.items() if has)
        return Report(tuple(written), tuple(sorted(had.intersection(has_file).difference(written))))

    def _follow(self, edit: Edit, make: Callable[[], Report]) -> Report:
        """Makes an edit, and the same one of the lines here. One that Ctrl-C interrupts may be made or not."""
        try:
            report = make()
            self._lines[edit.start : edit.stop] = edit.lines
        except EditError:
            raise
        except BaseException:
            self._recover()
            raise
        return report

    def _apply_one(self, edit: Edit) -> Report:
        """Makes one edit that is checked."""
        start, stop, lines = edit
        if start == stop:
            return self._follow(edit, lambda: self._insert(start + 1, lines))
        if lines:
            return self._follow(edit, lambda: self._replace(start + 1, stop, lines))
        return self._follow(edit, lambda: self._delete(start + 1, stop))

    def _check_edits(self, edits: Sequence[Edit]) -> None:
        """Raises what refuses edits together."""
        ends = [0, *(end for edit in edits for end in edit[:2]), len(self._lines)]
        if any(before > after for before, after in zip(ends, ends[1:])):
            raise refusal(BadRange)
        if any(len(line) > MOST_BYTES for edit in edits for line in edit.lines):
            raise refusal(BadLine)
        sizes = [len(self._lines)]
        for edit in reversed(edits):
            sizes.append(sizes[-1] + len(edit.lines) - (edit.stop - edit.start))
        if max(sizes) > MOST_LINES:
            raise refusal(TooLarge)

    # ---- what the text has

    def line(self, number: int) -> bytes:
        """A line of the text, without a line feed. Raises IndexError if there is none of that number."""
        self._check_line(number)
        return self._lines[number - 1]

    @abstractmethod
    def tokens(self, number: int) -> tuple[Token, ...]:
        """The tokens of a line, in order; after a chord come its parts. They cover the line but for a carriage return at its end.
        Raises IndexError if there is no line of that number, and `LibraryNeeded` over a process."""

    def _check_line(self, number: int) -> None:
        """Raises IndexError if the text has no line of this number."""
        self._check_open()
        if not 1 <= index(number) <= len(self._lines):
            raise IndexError(f"there is no line {number} in a text of {len(self._lines)} lines")

    @property
    def lines(self) -> list[bytes]:
        """All lines of the text; the list is the caller's."""
        self._check_open()
        return self._lines.copy()

    @property
    def line_count(self) -> int:
        """How many lines the text has."""
        self._check_open()
        return len(self._lines)

    @abstractmethod
    def output(self, number: int) -> Optional[bytes]:
        """The bytes of the MIDI file of a number, or None if no tune of that number has one."""

    @abstractmethod
    def play(self, number: int) -> Optional[tuple[Track, ...]]:
        """What is played of a number, when, and where it is in the text: the entries of each track of its MIDI file, in order of
        play. The first track is the conductor's and has none. None if no tune of that number has a file. Raises `PlayTooLong` if
        more than 1,000,000 notes, chords, rests, fields, programs and bar lines are played, and `LibraryNeeded` over a process."""

    @property
    @abstractmethod
    def numbers(self) -> list[int]:
        """The numbers that have a MIDI file, rising."""

    @property
    @abstractmethod
    def titles(self) -> list[Title]:
        """The number and the title of each tune, in the order of the text. Of tunes of one number the first one that is not
        too long has the file."""

    def titles_in(self, start: int, stop: int) -> list[Title]:
        """The titles of the tunes from `start` to `stop`, counted from 0 and without `stop`, as far as there are such tunes."""
        return self.titles[start:stop]

    @property
    @abstractmethod
    def faults(self) -> list[Fault]:
        """The faults of the text, in the order of their places."""

    @property
    @abstractmethod
    def work(self) -> Optional[Work]:
        """What all edits and questions for tokens cost so far, or None over a process, which does not count."""

    # ---- the end

    def close(self) -> None:
        """Ends the session. Twice is harmless."""
        if not self._is_closed:
            self._is_closed = True
            self._lines = []
            self._close()

    def __enter__(self: Self) -> Self:
        self._check_open()
        return self

    def __exit__(
        self, kind: Optional[type[BaseException]], error: Optional[BaseException], trace: Optional[TracebackType]
    ) -> None:
        self.close()

    def _check_open(self) -> None:
        """Raises ClosedError after `close`."""
        if self._is_closed:
            raise ClosedError("the session is closed")

    def _check_ready(self) -> None:
        """Raises the exception of a session that takes no edit and no question any more."""
        self._check_open()

    @abstractmethod
    def _insert(self, at: int, lines: list[bytes]) -> Report: ...

    @abstractmethod
    def _replace(self, from_line: int, to_line: int, lines: list[bytes]) -> Report: ...

    @abstractmethod
    def _delete(self, from_line: int, to_line: int) -> Report: ...

    @abstractmethod
    def _recover(self) -> None:
        """Makes the lines here those of the session again, or ends the session."""

    @abstractmethod
    def _close(self) -> None: ...
