"""Plans a run: gives each book its name, and makes units of work of the books, one after another."""

from __future__ import annotations

import os
from collections.abc import Callable, Iterator, Sequence
from itertools import groupby
from typing import NamedTuple, Optional

from .archive import Folder
from .catalogue import Catalogue
from .limits import Limits
from .names import Names
from .reading import read_file, read_members
from .sources import Source, reason
from .storing import has_files
from .units import WRITTEN, Backend, Numbering, Unit

GONE = "it is not in the archive any more"
NoteProblem = Callable[[str, str], None]  # of a book, by its name


class Manner(NamedTuple):
    """How books are compiled: `options` says it in a word that changes if a book has to be compiled again."""

    backend: Backend
    with_hints: bool
    collects: bool
    options: str
    limits: Limits
    syncs: bool
    with_losses: bool = False
    numbering: Numbering = Numbering.NUMBER
    reading: str = WRITTEN


class Planned(NamedTuple):
    """A book of this run."""

    source: Source
    name: str


def plan_books(sources: Sequence[Source], folder: Folder, catalogue: Catalogue) -> list[Planned]:
    """Gives each source its name: that of earlier runs, or a new one. No name is taken that the folder has already."""
    names = Names({*folder.names(), *catalogue.names()})
    planned = {}
    for source in sources:
        if source.identity in planned:
            continue
        known = catalogue.find(source)
        name = known.name if known else names.give(source.wanted)
        if not known:
            catalogue.add(source, name)
        planned[source.identity] = Planned(source, name)
    catalogue.commit()
    return list(planned.values())


class Planner:
    """Makes units. What cannot be read here is noted by `note_problem`."""

    def __init__(self, folder: Folder, catalogue: Catalogue, manner: Manner, note_problem: NoteProblem):
        self.folder, self.catalogue = folder, catalogue
        self.manner, self.note_problem = manner, note_problem

    def units(self, planned: Sequence[Planned]) -> Iterator[Unit]:
        """Yields the unit of each book. The books of an archive are read here, in its order; the others by the workers."""
        for path, books in groupby(planned, lambda book: book.source.path):
            yield from self.units_of_source(path, list(books))

    def units_of_source(self, path: str, books: list[Planned]) -> Iterator[Unit]:
        """Yields the units of an archive or of a file."""
        if books[0].source.member is None:
            yield from self.units_of_file(books[0])
        else:
            yield from self.units_of_archive(path, {book.source.member or "": book for book in books})

    def units_of_file(self, book: Planned) -> Iterator[Unit]:
        """Yields the unit of a file, if it can be read or need not be read here."""
        try:
            data = read_file(book.source.path, book.source.follows) if self.manner.collects else None
        except OSError as error:
            self.note_problem(book.name, reason(error))
            return
        yield self.unit(book, data)

    def units_of_archive(self, path: str, books: dict[str, Planned]) -> Iterator[Unit]:
        """Yields the units of the books of an archive."""
        why = GONE
        try:
            for name, data in read_members(path):
                book = books.pop(name, None)
                if book and isinstance(data, bytes):
                    yield self.unit(book, data)
                elif book and isinstance(data, OSError):
                    self.note_problem(book.name, reason(data))
        except OSError as error:
            why = reason(error)
        for book in books.values():
            self.note_problem(book.name, why)

    def unit(self, book: Planned, data: Optional[bytes]) -> Unit:
        """Returns a unit."""
        known = self.catalogue.find(book.source)
        assert known, "each book is in the catalogue"
        folder = self.folder.inside(book.name)
        digest, sizes = None, dict[int, int]()
        if known.digest and known.options == self.manner.options:
            sizes = self.catalogue.sizes_of(known.id)
            digest = known.digest if not self.manner.collects or has_files(folder, sizes) else None
        return Unit(
            book=book.name,
            path=os.path.abspath(book.source.path),
            data=data,
            folder=None if self.manner.collects else folder,
            backend=self.manner.backend,
            with_hints=self.manner.with_hints,
            known_digest=digest,
            known_sizes=sizes,
            limits=self.manner.limits,
            follows=book.source.follows,
            syncs=self.manner.syncs,
            with_losses=self.manner.with_losses,
            numbering=self.manner.numbering,
            reading=self.manner.reading,
        )
