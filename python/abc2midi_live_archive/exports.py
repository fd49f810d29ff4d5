"""Writes the tables of a catalogue as CSV or JSON lines, for programs that read no database."""

from __future__ import annotations

import csv
import io
import json
import os
from collections.abc import Callable, Iterator, Sequence
from contextlib import contextmanager
from typing import IO, Any

from abc2midi_live_clients.common.replaced_file import replacing

from .catalogue import Catalogue
from .units import TuneRow

Rows = Iterator[Sequence[Any]]

OF_TUNES = [f"tunes.{name}" for name in TuneRow._fields]
TABLES = {
    "books": (
        "name source digest size lines parts tunes files faults hints seconds problem hidden seen",
        "SELECT name, source, digest, size, lines, parts, tunes, files, faults, hints, seconds, problem, hidden, seen FROM books ORDER BY name",
    ),
    "tunes": (
        f"book {' '.join(TuneRow._fields)}",
        f"SELECT books.name, {', '.join(OF_TUNES)} FROM tunes JOIN books ON books.id = book ORDER BY books.name, tunes.line",
    ),
    "remarks": (
        "book kind line column name sentence excerpt mark",
        "SELECT books.name, kind, line, column, remarks.name, sentence, excerpt, mark FROM remarks "
        "JOIN books ON books.id = book ORDER BY books.name, line, column",
    ),
}
LOSSES = (
    "book place number line title reading state kind effect count lines",
    "SELECT books.name, tunes.place, number, line, title, reading, state, kind, effect, count, losses.lines FROM tunes "
    "JOIN books ON books.id = tunes.book LEFT JOIN losses ON losses.book = tunes.book AND losses.place = tunes.place "
    "WHERE state IS NOT NULL ORDER BY books.name, tunes.place, kind",
)
JSON_LINES = "jsonl"


def write_csv(file: IO[str], columns: Sequence[str], rows: Rows) -> None:
    """Writes a table with a row of its columns first."""
    writer = csv.writer(file)
    writer.writerow(columns)
    writer.writerows(rows)


def write_lines(file: IO[str], columns: Sequence[str], rows: Rows) -> None:
    """Writes a table as an object a line."""
    for row in rows:
        file.write(json.dumps(dict(zip(columns, row)), ensure_ascii=False) + "\n")


FORMATS: dict[str, Callable[[IO[str], Sequence[str], Rows], None]] = {"csv": write_csv, JSON_LINES: write_lines}


def export(catalogue: Catalogue, folder: str, form: str) -> None:
    """Writes each table into a file of the folder. Raises OSError and BadCatalogue."""
    for table, (columns, question) in TABLES.items():
        with replacing_text(os.path.join(folder, f"{table}.{form}")) as file:
            FORMATS[form](file, columns.split(), catalogue.ask(question))


def export_losses(catalogue: Catalogue, path: str) -> None:
    """Writes what each tune does not have in its file: JSON lines if the path ends so, else CSV. Raises OSError and BadCatalogue."""
    columns, question = LOSSES
    with replacing_text(path) as file:
        FORMATS[JSON_LINES if path.lower().endswith(f".{JSON_LINES}") else "csv"](file, columns.split(), catalogue.ask(question))


@contextmanager
def replacing_text(path: str) -> Iterator[IO[str]]:
    """A new text file, which replaces the one at the path if it was written as a whole. Raises OSError."""
    with replacing(path) as file:
        text = io.TextIOWrapper(file, encoding="utf-8", newline="")
        yield text
        text.detach()  # with all that was written
