"""A session over the C library, by `ctypes`."""

from __future__ import annotations

import ctypes
import os
import threading
import weakref
from ctypes import byref, c_size_t, c_uint32
from itertools import islice
from operator import index
from typing import Any, Optional

from .bindings import BAD_LINE, BAD_RANGE, NOT_FOUND, OK, OUT_OF_MEMORY, SHORT_BUFFER, TOO_LARGE, TOO_LONG
from .bindings import CEntry, CFault, CSession, CToken, CWork, load
from .edits import Edit
from .errors import BadLine, BadRange, OutOfMemory, PlayTooLong, TooLarge, refusal
from .finding import PathName, find_library
from .plays import Track
from .records import PlayColumns, Room, TokenColumns, entries_in, token_columns, tokens_in
from .session import Fault, Report, Session, Title, Work
from .tokens import Token

REFUSALS = {BAD_RANGE: BadRange, BAD_LINE: BadLine, TOO_LARGE: TooLarge, OUT_OF_MEMORY: OutOfMemory}
MOST_NUMBER = 2**32 - 1
ROOM = 4096  # bytes at first, for what the library copies
ROOM_FOR_NUMBERS = 64  # at first
ROOM_FOR_TOKENS = 256  # at first: more than most lines have
ROOM_FOR_TRACKS = 16  # as many as a file has
ROOM_FOR_ENTRIES = 4096  # more than most tunes play; a longer play gets room of its own
_HERE = threading.local()


class LibrarySession(Session):
    """A session in this process. It stays on the thread that opened it: a call on another thread raises RuntimeError. One that
    is dropped without `close` is closed, but keeps its memory if another thread drops it."""

    def __init__(self, library: Optional[PathName] = None) -> None:
        """Begins a session over a library, or that of `find_library`, with an empty text. Raises LibraryMissing, and
        OutOfMemory."""
        super().__init__()
        self._calls = load(os.fspath(library) if library is not None else find_library())
        self._session, self._counters = CSession(), CWork()
        self._here = byref(self._session)
        self._thread = this_thread()
        self._names: dict[int, str] = {}
        self._bytes: Any = ctypes.create_string_buffer(ROOM)  # its slices are bytes
        self._numbers = (c_uint32 * ROOM_FOR_NUMBERS)()
        self._tokens = Room(CToken, ROOM_FOR_TOKENS)
        self._tracks = (c_size_t * ROOM_FOR_TRACKS)()
        self._entries = Room(CEntry, ROOM_FOR_ENTRIES)
        self._count = c_size_t()
        self._count_here = byref(self._count)
        check(self._calls.abc_live_open(self._here))
        self._finish = weakref.finalize(self, close, self._calls, self._session, self._thread)

    # ---- edits

    def _insert(self, at: int, lines: list[bytes]) -> Report:
        if not 0 <= at <= MOST_NUMBER:
            self._check_edits([Edit(at - 1, at - 1, lines)])
        text = text_of(lines)
        return self._report(self._calls.abc_live_insert(self._here, at, text, len(text), byref(self._counters)))

    def _replace(self, from_line: int, to_line: int, lines: list[bytes]) -> Report:
        if not (0 <= from_line <= MOST_NUMBER and 0 <= to_line <= MOST_NUMBER):
            self._check_edits([Edit(from_line - 1, to_line, lines)])
        text = text_of(lines)
        where = self._here, from_line, to_line
        return self._report(self._calls.abc_live_replace(*where, text, len(text), byref(self._counters)))

    def _delete(self, from_line: int, to_line: int) -> Report:
        if not (0 <= from_line <= MOST_NUMBER and 0 <= to_line <= MOST_NUMBER):
            self._check_edits([Edit(from_line - 1, to_line, [])])
        return self._report(self._calls.abc_live_delete(self._here, from_line, to_line, byref(self._counters)))

    def _report(self, code: int) -> Report:
        """The report of an edit that returned a code."""
        check(code)
        written = self._copied_numbers(self._calls.abc_live_written)
        return Report(tuple(written), tuple(self._copied_numbers(self._calls.abc_live_removed)))

    # ---- what the text has

    def output(self, number: int) -> Optional[bytes]:
        self._check_open()
        if not 0 <= index(number) <= MOST_NUMBER:
            return None
        return self._copied_bytes(self._calls.abc_live_output, self._here, number)

    @property
    def numbers(self) -> list[int]:
        self._check_open()
        return self._copied_numbers(self._calls.abc_live_numbers)

    @property
    def titles(self) -> list[Title]:
        return self.titles_in(0, MOST_NUMBER)

    def titles_in(self, start: int, stop: int) -> list[Title]:
        self._check_open()
        number, found, call = c_uint32(), [], self._calls.abc_live_title
        number_here = byref(number)
        check(self._calls.abc_live_title_count(self._here, self._count_here))
        for row in range(self._count.value)[start:stop]:
            text = self._copied_bytes(call, self._here, row, number_here)
            found.append(Title(number.value, text or b""))
        return found

    @property
    def faults(self) -> list[Fault]:
        self._check_open()
        call = self._calls.abc_live_faults
        code = call(self._here, None, 0, self._count_here)
        faults = (CFault * self._count.value)()
        if code == SHORT_BUFFER:
            code = call(self._here, faults, len(faults), self._count_here)
        check(code)
        return [Fault(fault.line, fault.column, self._name(fault.code)) for fault in faults]

    def tokens(self, number: int) -> tuple[Token, ...]:
        return tuple(tokens_in(self._copied_tokens(number)))

    def token_columns(self, number: int) -> TokenColumns:
        """The tokens of a line by columns. Raises IndexError, as `tokens` does."""
        return token_columns(self._copied_tokens(number))

    def _copied_tokens(self, number: int) -> memoryview:
        """The structs of the tokens of a line, until the next call."""
        self._check_line(number)
        code = self._copy_tokens(index(number))
        if code == SHORT_BUFFER:
            self._tokens = Room(CToken, self._count.value)
            code = self._copy_tokens(index(number))
        check(code)
        return self._tokens.first(self._count.value)

    def _copy_tokens(self, number: int) -> int:
        """Copies the tokens of a line, and returns the code of the call."""
        room = self._tokens
        code: int = self._calls.abc_live_tokens(self._here, number, room.here, room.count, self._count_here, byref(self._counters))
        return code

    def play(self, number: int) -> Optional[tuple[Track, ...]]:
        self._check_open()
        if not 0 <= index(number) <= MOST_NUMBER:
            return None
        code = self._copy_sizes(number)
        if code == NOT_FOUND:
            return None
        check(code)
        sizes = self._tracks[: self._count.value]
        copied = self._copied_play(number, sum(sizes))
        assert copied is not None  # the number has a file
        entries = entries_in(copied)
        return tuple(tuple(islice(entries, size)) for size in sizes)

    def play_columns(self, number: int) -> Optional[PlayColumns]:
        """What is played of a number by columns. It is None, or raises, as `play` does."""
        copied = self._copied_play(number)
        return None if copied is None else PlayColumns(copied)

    def track_sizes(self, number: int) -> list[int]:
        """How many entries of a play each track has, for a number that has a file. The first track is the conductor's."""
        self._check_open()
        check(self._copy_sizes(number))
        return self._tracks[: self._count.value]

    def _copy_sizes(self, number: int) -> int:
        """Copies the sizes of the tracks of a number, and returns the code of the call."""
        code: int = self._calls.abc_live_tracks(self._here, number, self._tracks, len(self._tracks), self._count_here)
        return code

    def _copied_play(self, number: int, size: int = 0) -> Optional[memoryview]:
        """The structs of all entries of a number, until the next call. None if no tune owns the number. There are `size`, if that is
        known: each call works out the play anew."""
        self._check_open()
        if not 0 <= index(number) <= MOST_NUMBER:
            return None
        room = self._entries if size <= self._entries.count else Room(CEntry, size)
        code = self._copy_play(number, room)
        if code == SHORT_BUFFER:
            room = Room(CEntry, self._count.value)
            code = self._copy_play(number, room)
        if code == NOT_FOUND:
            return None
        check(code)
        return room.first(self._count.value)

    def _copy_play(self, number: int, room: Room) -> int:
        """Copies the entries of a number, and returns the code of the call."""
        code: int = self._calls.abc_live_play(self._here, number, room.here, room.count, self._count_here)
        return code

    @property
    def work(self) -> Optional[Work]:
        self._check_open()
        return Work(self._counters.scanned, self._counters.folded, self._counters.built)

    # ---- calls

    def _copied_numbers(self, call: Any) -> list[int]:
        """The numbers that a call copies."""
        code = call(self._here, self._numbers, len(self._numbers), self._count_here)
        if code == SHORT_BUFFER:
            self._numbers = (c_uint32 * self._count.value)()
            code = call(self._here, self._numbers, len(self._numbers), self._count_here)
        check(code)
        return self._numbers[: self._count.value]

    def _copied_bytes(self, call: Any, *words: Any) -> Optional[bytes]:
        """The bytes that a call copies, or None if it finds none."""
        code = call(*words, self._bytes, len(self._bytes), self._count_here)
        if code == SHORT_BUFFER:
            self._bytes = ctypes.create_string_buffer(self._count.value)
            code = call(*words, self._bytes, len(self._bytes), self._count_here)
        if code == NOT_FOUND:
            return None
        check(code)
        copied: bytes = self._bytes[: self._count.value]
        return copied

    def _name(self, code: int) -> str:
        """The name of a fault."""
        if code not in self._names:
            name = self._copied_bytes(self._calls.abc_live_fault_name, code)
            self._names[code] = name.decode() if name is not None else f"Fault{code}"
        return self._names[code]

    def _check_open(self) -> None:
        super()._check_open()
        if this_thread() is not self._thread:
            raise RuntimeError("a session of the library stays on the thread that opened it")

    def close(self) -> None:
        """Ends the session, on the thread that opened it. Twice is harmless, on any thread."""
        if not self._is_closed:
            self._check_open()
        super().close()

    def _recover(self) -> None:
        count = c_uint32()
        check(self._calls.abc_live_line_count(self._here, byref(count)))
        rows = range(1, count.value + 1)
        self._lines = [self._copied_bytes(self._calls.abc_live_line, self._here, row) or b"" for row in rows]

    def _close(self) -> None:
        self._finish()


def check(code: int) -> None:
    """Raises what a code of the library means."""
    if code in REFUSALS:
        raise refusal(REFUSALS[code])
    if code == TOO_LONG:
        raise PlayTooLong("more than 1,000,000 notes, chords, rests, fields, programs and bar lines are played")
    if code != OK:
        raise RuntimeError(f"the library answered {code}: this is a mistake in the package abc2midi_live")


def text_of(lines: list[bytes]) -> bytes:
    """The text of lines, each with its line feed."""
    return b"\n".join([*lines, b""]) if lines else b""


def this_thread() -> object:
    """An object of the present thread alone. Its number would not do: the system gives that of an ended thread to a new one."""
    if not hasattr(_HERE, "thread"):
        _HERE.thread = object()
    thread: object = _HERE.thread
    return thread


def close(calls: ctypes.CDLL, session: CSession, thread: object) -> None:
    """Ends a session on the thread that began it."""
    if this_thread() is thread:
        calls.abc_live_close(byref(session))
