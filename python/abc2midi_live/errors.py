"""The exceptions of this package."""


class Error(Exception):
    """Each exception of this package is one."""


class EditError(Error):
    """An edit was refused. The session is as it was."""


class BadRange(EditError, IndexError):
    """The edit names lines that the text does not have."""


class BadLine(EditError, ValueError):
    """A line has more than 65,535 bytes."""


class TooLarge(EditError, ValueError):
    """The text would have more than 1,048,576 lines."""


class OutOfMemory(EditError, MemoryError):
    """An allocation failed inside the library."""


class BookTooLarge(Error, OSError):
    """A file has more than 256 MB, so it is not read as a tune book."""


class ClosedError(Error, ValueError):
    """The session is closed."""


class ProgramMissing(Error):
    """There is no program to start."""


class ProgramEnded(Error):
    """The program ended, or gave an answer that it never gives. Its session is lost: open another one."""


class LibraryMissing(Error):
    """There is no library to load."""


class PlayTooLong(Error, ValueError):
    """The voices of a tune play more than 1,000,000 notes, chords, rests, fields, programs and bar lines together."""


class LibraryNeeded(Error, NotImplementedError):
    """Only a session over the C library has the answer."""


SENTENCES: dict[type[EditError], str] = {
    BadRange: "the edit names lines that the text does not have",
    BadLine: "a line has more than 65,535 bytes",
    TooLarge: "the text would have more than 1,048,576 lines",
    OutOfMemory: "an allocation failed",
}


def refusal(kind: type[EditError]) -> EditError:
    """The exception of a refused edit, with its sentence."""
    return kind(SENTENCES[kind])
