"""How a session begins."""

from __future__ import annotations

import os
from pathlib import Path
from typing import TYPE_CHECKING, Optional

from .errors import BookTooLarge, LibraryMissing, ProgramMissing
from .finding import PathName
from .lines import MARK
from .process import ProcessSession
from .reading import bytes_of_book
from .session import Session

if TYPE_CHECKING:
    from .library import LibrarySession


def open(path: Optional[PathName] = None, *, library: Optional[PathName] = None, program: Optional[PathName] = None) -> Session:
    """Opens a session over the text of a tune book, or over an empty text.

    The session runs over the C library if that is found, and else in a process of the program. `library` or `program` names
    one, which is used and no other. The file is read once and never written. Raises OSError if it cannot be read, which is
    `BookTooLarge` if it has more than 256 MB, `BadLine` or `TooLarge` if it is no text that a session takes, and
    `LibraryMissing` or `ProgramMissing`."""
    book = bytes_at(path) if path is not None else b""
    session = new_session(library, program)
    try:
        session.insert(1, book.removeprefix(MARK))
    except BaseException:
        session.close()
        raise
    return session


def bytes_at(path: PathName) -> bytes:
    """The bytes of the book at a path."""
    with Path(path).open("rb") as file:
        try:
            return bytes_of_book(file)
        except BookTooLarge as error:
            error.filename = os.fspath(path)
            raise


def new_session(library: Optional[PathName], program: Optional[PathName]) -> Session:
    """A session with an empty text over what is named, or over what is found."""
    if library is not None and program is not None:
        raise ValueError("name a library or a program, not both")
    if program is not None:
        return ProcessSession(program)
    if library is not None:
        return library_session(library)
    try:
        return library_session(None)
    except LibraryMissing as missing:
        try:
            return ProcessSession()
        except ProgramMissing as also:
            raise ProgramMissing(f"{missing}; {also}") from also


def library_session(library: Optional[PathName]) -> LibrarySession:
    """A session over the C library. Some installations of Python have no `ctypes`."""
    try:
        from .library import LibrarySession
    except ImportError as error:
        raise LibraryMissing(f"this Python cannot load a library: {error}") from error
    return LibrarySession(library)
