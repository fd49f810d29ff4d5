"""Compiles tunes in ABC notation to MIDI files while they are edited.

    import abc2midi_live

    with abc2midi_live.open("reels.abc") as session:
        report = session.replace(5, 5, "GABc dedB|")
        for number in report.written:
            print(number, session.output(number))

`open` begins a `Session`, over the C library if that is found, and else in a process of the program."""

from typing import TYPE_CHECKING

from .edits import Edit, few_edits
from .errors import (
    BadLine,
    BadRange,
    BookTooLarge,
    ClosedError,
    EditError,
    Error,
    LibraryMissing,
    LibraryNeeded,
    OutOfMemory,
    PlayTooLong,
    ProgramEnded,
    ProgramMissing,
    TooLarge,
)
from .finding import find_library, find_program, version
from .opening import open
from .plays import Entry, EntryKind, Track
from .process import Built, ProcessSession
from .session import Fault, Report, Session, Title, Work
from .tokens import Token, TokenKind

__all__ = [
    "BadLine",
    "BadRange",
    "BookTooLarge",
    "Built",
    "ClosedError",
    "Edit",
    "EditError",
    "Entry",
    "EntryKind",
    "Error",
    "Fault",
    "LibraryMissing",
    "LibraryNeeded",
    "LibrarySession",
    "OutOfMemory",
    "PlayTooLong",
    "ProcessSession",
    "ProgramEnded",
    "ProgramMissing",
    "Report",
    "Session",
    "Title",
    "Token",
    "TokenKind",
    "TooLarge",
    "Track",
    "Work",
    "few_edits",
    "find_library",
    "find_program",
    "open",
    "version",
]

if TYPE_CHECKING:
    from .library import LibrarySession

    __version__: str
else:

    def __getattr__(name: str) -> object:
        """What is looked up only when it is asked for: some installations of Python have no `ctypes` for the library."""
        if name == "LibrarySession":
            from .library import LibrarySession

            return LibrarySession
        if name == "__version__":
            return version()
        raise AttributeError(f"module {__name__!r} has no attribute {name!r}")
