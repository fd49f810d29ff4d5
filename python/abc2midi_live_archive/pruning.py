"""Finds and removes the books of an archive that are gone: their files, and what the catalogue has of them."""

from __future__ import annotations

import os
import re
from collections.abc import Iterator, Sequence
from contextlib import suppress
from typing import NamedTuple

from .archive import Folder
from .catalogue import Catalogue
from .names import stored
from .reading import is_archive
from .sources import Source
from .storing import remove_new_folder, store_files

ESCAPED = re.compile(rb"\\x([0-9a-f]{2})")  # a byte that is no character, as the catalogue has it


class Gone(NamedTuple):
    """A book that is gone: its row of the catalogue, its name, and how many files it has."""

    id: int
    name: str
    files: int


def gone_books(catalogue: Catalogue, sources: Sequence[Source]) -> list[Gone]:
    """Returns the books of the catalogue that are in no source of a run and not at their places any more. `sources` has all books of
    the sources, also those that the run leaves out."""
    found = {stored(source.identity) for source in sources}
    archives = {stored(os.path.abspath(source.path)) for source in sources if source.member is not None}
    rows = catalogue.ask("SELECT id, name, files, source FROM books ORDER BY name")
    return [Gone(book, name, files) for book, name, files, source in rows if source not in found and is_gone(source, archives)]


def is_gone(source: str, archives: set[str]) -> bool:
    """Returns whether a book is not at its place any more: neither the file, nor the archive, if that is none of the sources."""
    if exists(source):
        return False
    archive = next(archives_of(source), None)
    return archive is None or archive in archives or not exists(archive)


def archives_of(source: str) -> Iterator[str]:
    """Yields the paths of the archives in which a book with a name in an archive may be."""
    for found in re.finditer(":", source):
        if is_archive(source[: found.start()]):
            yield source[: found.start()]


def exists(path: str) -> bool:
    """Returns whether something is at a path, as the catalogue has it."""
    as_bytes = ESCAPED.sub(lambda found: bytes([int(found[1], 16)]), path.encode())
    return os.path.lexists(path) or os.path.lexists(as_bytes)


def prune(folder: Folder, catalogue: Catalogue, book: Gone) -> None:
    """Removes a book that is gone. Files of others stay, with its folder. Raises OSError and BadCatalogue."""
    path = folder.inside(book.name)
    remove_new_folder(path)
    store_files(path, {})
    with suppress(OSError):  # there is none, or it has files of others
        os.rmdir(path)
    catalogue.remove(book.id)
