"""Finds the books of the sources: files, folders, archives, and names on standard input."""

from __future__ import annotations

import enum
import os
from collections.abc import Iterable, Iterator
from typing import NamedTuple, Optional, Union

from .reading import is_archive, is_book, member_names

INPUT = "-"  # names a list of sources on standard input
ENDINGS = "in folders and archives the names of books end in .abc"
FOLLOW = "--follow-links follows it"


class Source(NamedTuple):
    """A book: its file, or its archive and its name there. `wanted` is the name that the archive of MIDI files gives it if it is
    free. `below` is its path below the source that it is found in; of a file that is a source it is the path as it is named."""

    path: str
    member: Optional[str]
    wanted: str
    follows: bool = True  # a symbolic link in its place is read
    below: str = ""

    @property
    def identity(self) -> str:
        """By which a later run knows the book again."""
        path = os.path.abspath(self.path)
        return path if self.member is None else f"{path}:{self.member}"


class Trouble(enum.Enum):
    """What is wrong with a source."""

    UNREADABLE = "cannot be read"
    EMPTY = "has no book"
    SKIPPED = "skipped"  # this is no failure


class BadSource(NamedTuple):
    """A source, or a part of one, that has no books that can be read, and why."""

    name: str
    why: str
    trouble: Trouble = Trouble.UNREADABLE


Found = Iterator[Union[Source, BadSource]]


def find_books(words: Iterable[str], names: Iterable[bytes], follows: bool = False) -> Found:
    """Yields the books of the sources in their order. `names` are the lines of standard input. Symbolic links in folders are refused,
    if it does not follow them."""
    for word in words:
        if word != INPUT:
            yield from books_of(word, follows)
            continue
        for line in names:
            name = os.fsdecode(line.rstrip(b"\r\n"))
            if name:
                yield from books_of(name, follows)


def books_of(path: str, follows: bool) -> Found:
    """Yields the books of one source."""
    if "\0" in path:
        yield BadSource(path, "no name has a NUL byte; on standard input names are one a line")
    elif os.path.isdir(path):
        yield from or_empty(path, books_below(path, follows))
    elif is_archive(path):
        yield from or_empty(path, books_in(path))
    else:
        yield Source(path, None, name_of(os.path.basename(path)), below=path)


def or_empty(path: str, found: Found) -> Found:
    """Yields what is found in a source, or that there is no book."""
    is_empty = True
    for source in found:
        is_empty = is_empty and isinstance(source, BadSource) and source.trouble is Trouble.SKIPPED
        yield source
    if is_empty:
        yield BadSource(path, ENDINGS, Trouble.EMPTY)


def books_in(path: str) -> Found:
    """Yields the books in an archive."""
    try:
        names = dict.fromkeys(member_names(path))
    except OSError as error:
        yield BadSource(path, reason(error))
        return
    for name in names:
        if is_book(name):
            yield Source(path, name, name_of(name), below=name)
        elif is_archive(name):
            yield BadSource(f"{path}:{name}", "an archive in an archive; unpack it, and name it as a source", Trouble.SKIPPED)


def books_below(folder: str, follows: bool) -> Found:
    """Yields the books below a folder, in the order of their names."""
    failed: list[OSError] = []
    seen: set[str] = set()
    for place, folders, files in os.walk(folder, onerror=failed.append, followlinks=follows):
        seen.add(os.path.realpath(place))
        folders[:] = sorted(name for name in folders if not follows or os.path.realpath(os.path.join(place, name)) not in seen)
        for name in sorted(files):
            yield from book_at(os.path.join(place, name), folder, follows)
        if not follows:
            linked = filter(os.path.islink, (os.path.join(place, name) for name in folders))
            yield from (BadSource(path, f"a symbolic link to a folder; {FOLLOW}", Trouble.SKIPPED) for path in linked)
    yield from (BadSource(os.fspath(error.filename or folder), reason(error)) for error in failed)


def book_at(path: str, folder: str, follows: bool) -> Found:
    """Yields the book at a path below a folder, if it is one."""
    if is_archive(path):
        yield BadSource(path, "an archive in a folder; name it as a source", Trouble.SKIPPED)
    elif is_book(path) and not follows and os.path.islink(path):
        yield BadSource(path, f"it is a symbolic link; {FOLLOW}")
    elif is_book(path):
        below = os.path.relpath(path, folder)
        yield Source(path, None, name_of(below), follows, below)


def name_of(path: str) -> str:
    """Returns the name that a book would like to have: its path below its source, without `.abc`, in one part."""
    parts = [part for part in path.split("/") if part not in ("", ".", "..")]
    name = "_".join(parts)
    return name[: -len(".abc")] if is_book(name) else name


def reason(error: OSError) -> str:
    """Returns the sentence of an error."""
    return error.strerror or str(error) or type(error).__name__
