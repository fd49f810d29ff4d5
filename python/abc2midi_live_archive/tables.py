"""The tables of the catalogue, and how those of an earlier version become the present ones."""

from __future__ import annotations

import sqlite3

VERSION = 2  # of the tables
TABLES = """
CREATE TABLE IF NOT EXISTS books (
    id INTEGER PRIMARY KEY,
    name TEXT NOT NULL UNIQUE,
    source TEXT NOT NULL UNIQUE,
    digest TEXT,
    options TEXT,
    size INTEGER NOT NULL DEFAULT 0,
    lines INTEGER NOT NULL DEFAULT 0,
    parts INTEGER NOT NULL DEFAULT 1,
    tunes INTEGER NOT NULL DEFAULT 0,
    files INTEGER NOT NULL DEFAULT 0,
    faults INTEGER NOT NULL DEFAULT 0,
    hints INTEGER NOT NULL DEFAULT 0,
    seconds REAL NOT NULL DEFAULT 0,
    problem TEXT,
    hidden INTEGER NOT NULL DEFAULT 0,
    seen TEXT
);
CREATE TABLE IF NOT EXISTS tunes (
    book INTEGER NOT NULL REFERENCES books,
    number INTEGER NOT NULL,
    title TEXT NOT NULL,
    line INTEGER NOT NULL,
    place INTEGER NOT NULL,
    reading TEXT NOT NULL,
    titles TEXT,
    last_line INTEGER,
    composer TEXT,
    origin TEXT,
    rhythm TEXT,
    source TEXT,
    transcriber TEXT,
    book_title TEXT,
    annotations TEXT,
    key_text TEXT,
    tonic TEXT,
    mode TEXT,
    tempo_text TEXT,
    unit TEXT,
    has_lyrics INTEGER,
    has_chord_names INTEGER,
    has_grace_notes INTEGER,
    has_overlays INTEGER,
    file TEXT,
    size INTEGER,
    sha256 TEXT,
    key TEXT,
    meter TEXT,
    tempo REAL,
    ticks INTEGER,
    seconds REAL,
    voices INTEGER,
    notes INTEGER,
    notes_digest TEXT,
    state TEXT
);
CREATE TABLE IF NOT EXISTS losses (
    book INTEGER NOT NULL REFERENCES books,
    place INTEGER NOT NULL,
    kind TEXT NOT NULL,
    effect TEXT NOT NULL,
    count INTEGER NOT NULL,
    lines TEXT NOT NULL
);
CREATE TABLE IF NOT EXISTS remarks (
    book INTEGER NOT NULL REFERENCES books,
    kind TEXT NOT NULL,
    line INTEGER NOT NULL,
    column INTEGER NOT NULL,
    name TEXT NOT NULL,
    sentence TEXT,
    excerpt TEXT NOT NULL,
    mark INTEGER NOT NULL
);
CREATE TABLE IF NOT EXISTS runs (
    ended TEXT NOT NULL,
    books INTEGER NOT NULL,
    tunes INTEGER NOT NULL,
    files INTEGER NOT NULL,
    faults INTEGER NOT NULL
);
CREATE TABLE IF NOT EXISTS meanings (name TEXT PRIMARY KEY, wrong TEXT NOT NULL, instead TEXT NOT NULL);
CREATE INDEX IF NOT EXISTS tunes_of_book ON tunes (book);
CREATE INDEX IF NOT EXISTS losses_of_book ON losses (book);
CREATE INDEX IF NOT EXISTS remarks_of_book ON remarks (book);
"""
# The names of books and their files stay, and all books are compiled again.
FROM_VERSION_1 = """
ALTER TABLE books ADD COLUMN hidden INTEGER NOT NULL DEFAULT 0;
ALTER TABLE books ADD COLUMN seen TEXT;
UPDATE books SET digest = NULL;
DROP INDEX tunes_of_book;
ALTER TABLE tunes RENAME TO tunes_1;
"""
TUNES_OF_VERSION_1 = """
INSERT INTO tunes (book, number, title, line, place, reading, file, size, sha256, key, meter, ticks, notes)
    SELECT book, number, title, line, row_number() OVER (PARTITION BY book ORDER BY line), 'written',
    CASE WHEN sha256 IS NOT NULL THEN books.name || '/' || number || '.mid' END, tunes_1.size, sha256, key, meter, ticks, notes
    FROM tunes_1 JOIN books ON books.id = book;
DROP TABLE tunes_1;
"""


class OtherVersion(Exception):
    """The tables are those of a version that this program does not know."""


def make_tables(database: sqlite3.Connection) -> None:
    """Makes the tables that a database does not have, or brings up those of an earlier version. All of it is done, or nothing. Raises
    OtherVersion and sqlite3.Error."""
    version = database.execute("PRAGMA user_version").fetchone()[0]
    if version not in (0, 1, VERSION):
        raise OtherVersion(f"has tables of version {version}, and this program writes version {VERSION}")
    before, after = (FROM_VERSION_1, TUNES_OF_VERSION_1) if version == 1 else ("", "")
    database.executescript(f"BEGIN IMMEDIATE; {before} {TABLES} {after} PRAGMA user_version = {VERSION}; COMMIT;")
