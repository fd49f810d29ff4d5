"""The catalogue of an archive: a database of its books, their tunes, and their faults and hints.

Only the run that locked the archive writes it. A book and what belongs to it is there as a whole or as it was before."""

from __future__ import annotations

import os
import sqlite3
import time
from collections.abc import Callable, Iterable, Iterator, Sequence
from contextlib import closing, contextmanager
from pathlib import Path
from typing import Any, NamedTuple, Optional

from abc2midi_live_clients.common.faults import meanings

from .names import stored
from .sources import Source
from .tables import OtherVersion, make_tables
from .units import Result, number_of_file

NAME = "catalogue.sqlite"
SECONDS_BETWEEN_COMMITS = 0.5
MOST_PAUSES = 4  # a commit may take a fifth of the time
SECONDS_TO_WAIT = 60.0  # for somebody who reads the catalogue
BOOK = """UPDATE books SET digest = ?, options = ?, size = ?, lines = ?, parts = ?, tunes = ?, files = ?, faults = ?, hints = ?,
    seconds = ?, hidden = ?, problem = NULL WHERE id = ?"""
RUN = "INSERT INTO runs SELECT ?, count(*), total(tunes), total(files), total(faults) FROM books"
OF_BOOKS = ("tunes", "losses", "remarks")  # the tables with rows of a book


class BadCatalogue(Exception):
    """The file is no catalogue, is that of a newer version, or cannot be written."""


class Known(NamedTuple):
    """What the catalogue knows of a book: the digest is None if no run compiled it."""

    id: int
    name: str
    digest: Optional[str]
    options: Optional[str]
    faults: int


class Catalogue:
    """An open catalogue."""

    def __init__(self, path: str, sync_files: Callable[[], None] = lambda: None, is_copy: bool = False):
        """Opens a catalogue, or makes one. `sync_files` has the files reach the disk of which it says that they are there. A copy is in
        memory, and leaves the file as it is. Raises BadCatalogue."""
        self.path, self.sync_files = path, sync_files
        self.is_ahead = False  # of the files on the disk
        self.pause = SECONDS_BETWEEN_COMMITS
        if os.path.islink(path):
            raise BadCatalogue(f"{path} is a symbolic link")
        try:
            self.database = copied(path) if is_copy else sqlite3.connect(path, SECONDS_TO_WAIT, isolation_level=None)
            self.database.execute("PRAGMA synchronous = FULL")
            make_tables(self.database)
            self.database.execute("BEGIN")
            rows = [(meaning.name, meaning.wrong, meaning.instead) for meaning in meanings()]
            self.database.executemany("INSERT OR REPLACE INTO meanings VALUES (?, ?, ?)", rows)
        except OtherVersion as error:
            raise BadCatalogue(f"{path} {error}") from error
        except sqlite3.Error as error:
            raise BadCatalogue(f"{path}: {error}") from error
        self.committed = time.monotonic()

    # ---- books

    def names(self) -> set[str]:
        """Returns the names of all books."""
        return {name for (name,) in self.ask("SELECT name FROM books")}

    def find(self, source: Source) -> Optional[Known]:
        """Returns what is known of a book, or None."""
        rows = self.ask("SELECT id, name, digest, options, faults FROM books WHERE source = ?", stored(source.identity))
        return next((Known(*row) for row in rows), None)

    def add(self, source: Source, name: str) -> None:
        """Adds a book that no run compiled."""
        self.ask("INSERT INTO books (name, source) VALUES (?, ?)", name, stored(source.identity))

    def files_of(self, book: int) -> dict[int, str]:
        """Returns the numbers that have a file in a book, with the digests of the files."""
        return self.by_file("sha256", book)

    def sizes_of(self, book: int) -> dict[int, int]:
        """Returns the numbers that have a file in a book, with the sizes of the files."""
        return self.by_file("size", book)

    def by_file(self, column: str, book: int) -> dict[int, Any]:
        """Returns a column of the tunes of a book that have a file, by the numbers of the files."""
        rows = self.ask(f"SELECT file, {column} FROM tunes WHERE book = ? AND file IS NOT NULL", book)
        return {number_of_file(file): value for file, value in rows}

    def see(self, sources: Iterable[Source], moment: str) -> None:
        """Notes that a run found these books."""
        self.add_many("UPDATE books SET seen = ? WHERE source = ?", ((moment, stored(source.identity)) for source in sources))

    def remove(self, book: int) -> None:
        """Removes a book. If that is interrupted, all of it is as it was before."""
        with self.one_change():
            for table in OF_BOOKS:
                self.ask(f"DELETE FROM {table} WHERE book = ?", book)
            self.ask("DELETE FROM books WHERE id = ?", book)

    # ---- what a run found

    def keep(self, book: int, result: Result, options: str) -> None:
        """Replaces what is known of a book by a result. If that is interrupted, all of it is as it was before."""
        self.is_ahead = True
        with self.one_change():
            self.replace(book, result, options)
        self.commit_sometimes()

    @contextmanager
    def one_change(self) -> Iterator[None]:
        """Does all that is asked inside, or, if that is interrupted, nothing of it."""
        self.ask("SAVEPOINT change")
        try:
            yield
        except BaseException:
            if self.database.in_transaction:
                self.ask("ROLLBACK TO change")
            raise
        self.ask("RELEASE change")

    def replace(self, book: int, result: Result, options: str) -> None:
        """Replaces what is known of a book by a result."""
        for table in OF_BOOKS:
            self.ask(f"DELETE FROM {table} WHERE book = ?", book)
        for table, rows in zip(OF_BOOKS, (result.tunes, result.losses, result.remarks)):
            self.add_rows(table, book, rows)
        counts = len(result.tunes), result.file_count, result.fault_count, result.hint_count
        sizes = result.size, result.lines, result.parts
        self.ask(BOOK, result.digest, options, *sizes, *counts, result.seconds, result.hidden, book)

    def keep_problem(self, book: int, problem: str) -> None:
        """Notes why a book is not compiled. What earlier runs found stays, and the next run tries it again."""
        self.ask("UPDATE books SET digest = NULL, problem = ? WHERE id = ?", problem, book)
        self.commit_sometimes()

    def add_rows(self, table: str, book: int, rows: Sequence[Sequence[Any]]) -> None:
        """Adds rows of a book to a table."""
        if rows:
            marks = ", ".join("?" * (1 + len(rows[0])))
            self.add_many(f"INSERT INTO {table} VALUES ({marks})", ((book, *row) for row in rows))

    def note_run(self, moment: str) -> None:
        """Notes what the catalogue has at the end of a run."""
        self.ask(RUN, moment)

    # ---- transactions and questions

    def commit_sometimes(self) -> None:
        """Commits what is kept, if the last commit is some time ago."""
        if time.monotonic() - self.committed >= self.pause:
            self.commit()

    def commit(self) -> None:
        """Commits what is kept. The slower the disk is, the longer the next commit waits."""
        started = time.monotonic()
        self.end_transaction()
        self.ask("BEGIN")
        self.committed = time.monotonic()
        self.pause = max(SECONDS_BETWEEN_COMMITS, MOST_PAUSES * (self.committed - started))

    def close(self) -> None:
        """Commits what is kept, and closes the catalogue. Raises BadCatalogue."""
        try:
            self.end_transaction()
        finally:
            self.database.close()

    def end_transaction(self) -> None:
        """Commits what is kept. A full disk ends the transaction, and so does an interrupt after the COMMIT of `commit`. The files are on
        their disk before the catalogue says so. Raises BadCatalogue and OSError."""
        if self.database.in_transaction:
            if self.is_ahead:
                self.sync_files()
                self.is_ahead = False
            self.ask("COMMIT")

    def add_many(self, question: str, rows: Iterable[Sequence[Any]]) -> None:
        """Asks the database once for each row. Raises BadCatalogue."""
        try:
            self.database.executemany(question, rows)
        except sqlite3.Error as error:
            raise BadCatalogue(f"{self.path}: {error}") from error

    def ask(self, question: str, *values: Any) -> Iterator[Any]:
        """Asks the database. Raises BadCatalogue."""
        try:
            return iter(self.database.execute(question, values))
        except sqlite3.Error as error:
            raise BadCatalogue(f"{self.path}: {error}") from error


def copied(path: str) -> sqlite3.Connection:
    """Returns a copy of a database in memory. It is empty if there is no file. Raises sqlite3.Error."""
    copy = sqlite3.connect(":memory:", isolation_level=None)
    if os.path.exists(path):
        with closing(sqlite3.connect(f"{Path(path).absolute().as_uri()}?mode=ro", SECONDS_TO_WAIT, uri=True)) as database:
            database.backup(copy)
    return copy
