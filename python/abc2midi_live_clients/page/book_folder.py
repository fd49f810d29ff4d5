"""A folder of tune books: which books are in it, and where words are in them."""

import errno
import os
import stat
from collections.abc import Iterator
from pathlib import Path
from typing import NamedTuple

from ..common.line_places import text_of
from ..common.regular_file import open_regular

ENDING = ".abc"
MOST_BOOKS = 2_000  # that are listed
MOST_BYTES = 32 << 20  # of a book that is searched
MOST_FOUND, MOST_SHOWN = 300, 160  # lines, characters of a line


class Book(NamedTuple):
    """A book of a folder: its name, its size in bytes, and the moment at which it was written last."""

    name: str
    size: int
    written: float


class Found(NamedTuple):
    """A line with the words: its book, its number counted from 1, its text, and the title of its tune."""

    book: str
    line: int
    text: str
    title: str


def books_in(folder: Path) -> list[Book]:
    """The books of a folder, by name: regular files of their own, so no links, which may lead out of it. Raises OSError if the folder is
    not there. A file that vanishes meanwhile is none."""
    found = []
    with os.scandir(folder) as entries:
        for entry in entries:
            try:
                known = entry.stat(follow_symlinks=False)
            except OSError:
                continue
            if entry.name.endswith(ENDING) and not entry.name.startswith(".") and stat.S_ISREG(known.st_mode):
                found.append(Book(entry.name, known.st_size, known.st_mtime))
    return sorted(found, key=lambda book: (book.name.casefold(), book.name))[:MOST_BOOKS]


def content_of(path: Path) -> bytes:
    """The bytes of a book, without following a link. Raises OSError, also for a book that is too large."""
    with open_regular(str(path), follows=False) as file:
        data = file.read(MOST_BYTES + 1)
    if len(data) > MOST_BYTES:
        raise OSError(errno.EFBIG, "this book is too large to be searched", str(path))
    return data


def search(folder: Path, words: str) -> tuple[list[Found], list[str]]:
    """The lines that have all of some words, whatever their capitals, in the order of the books; and the names of books that were not
    searched. Raises OSError if the folder is not there."""
    wanted = words.casefold().split()
    found: list[Found] = []
    unread = []
    for book in books_in(folder) if wanted else []:
        try:
            data = content_of(folder / book.name)
        except OSError:
            unread.append(book.name)
            continue
        for each in lines_with(book.name, data, wanted):
            if len(found) == MOST_FOUND:
                return found, unread
            found.append(each)
    return found, unread


def lines_with(book: str, data: bytes, wanted: list[str]) -> Iterator[Found]:
    """The lines of a book that have all words."""
    title = ""
    for number, line in enumerate(text_of(data).split("\n"), 1):
        if line.startswith("X:"):
            title = ""
        elif line.startswith("T:") and not title:
            title = line[2:].strip()
        folded = line.casefold()
        if all(word in folded for word in wanted):
            yield Found(book, number, line.strip()[:MOST_SHOWN], title)
