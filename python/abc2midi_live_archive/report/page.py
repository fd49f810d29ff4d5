"""A report for people on a whole archive: one page with charts, that needs no other file."""

from __future__ import annotations

import datetime
from collections.abc import Iterator
from pathlib import Path

from ..catalogue import Catalogue
from ..exports import replacing_text
from .charts import Row, chart
from .collection import MOST_ROWS, of_collection
from .findings import of_losses, of_problems, of_remarks
from .texts import section, shown

STYLE = Path(__file__).resolve().parent / "report.css"
SUMS = """SELECT count(*), coalesce(sum(tunes), 0), coalesce(sum(files), 0), coalesce(sum(faults), 0), coalesce(sum(hints), 0),
    coalesce(sum(hidden), 0), coalesce(sum(problem IS NOT NULL), 0) FROM books"""
OF_SUMS = ("books", "tunes", "MIDI files", "faults", "hints", "tunes without a number of their own", "books with a problem")
LAST_RUN = "SELECT ended, books, tunes, files, faults FROM runs ORDER BY ended DESC, rowid DESC LIMIT 1"
SLOWEST = "SELECT name, seconds, tunes FROM books WHERE digest IS NOT NULL ORDER BY seconds DESC, name LIMIT ?"


def write_report(catalogue: Catalogue, folder: str, path: str) -> None:
    """Writes the report on a catalogue. Raises OSError and BadCatalogue."""
    with replacing_text(path) as file:
        file.writelines(page(catalogue, folder))


def page(catalogue: Catalogue, folder: str) -> Iterator[str]:
    """Yields the page."""
    title = f"Archive {Path(folder).name}"
    yield f'<!DOCTYPE html>\n<html lang="en"><head><meta charset="utf-8"><title>{shown(title)}</title>'
    yield '<meta name="viewport" content="width=device-width">'
    yield f'<style>\n{STYLE.read_text("utf-8")}</style></head>\n<body><h1>{shown(title)}</h1>\n'
    yield f'<p class="soft">{shown(folder)}, {datetime.datetime.now():%Y-%m-%d %H:%M}</p>\n'
    yield from sums(catalogue)
    yield from of_losses(catalogue)
    yield from of_collection(catalogue)
    yield from of_remarks(catalogue)
    slowest = [Row(name, seconds, f"{seconds:.2f} s") for name, seconds, _ in catalogue.ask(SLOWEST, MOST_ROWS)]
    yield section("Slowest books", chart("Slowest books", slowest), "From reading a book to its last file, on one processor.")
    yield from of_problems(catalogue)
    yield "</body></html>\n"


def sums(catalogue: Catalogue) -> Iterator[str]:
    """Yields the counts of the whole archive, and how they grew since the last run."""
    (counts,) = catalogue.ask(SUMS)
    cells = "".join(f"<div><dt>{name}</dt><dd>{count:,}</dd></div>" for name, count in zip(OF_SUMS, counts))
    yield f"<dl>{cells}</dl>\n"
    for ended, *before in catalogue.ask(LAST_RUN):
        grown = ", ".join(f"{now - then:+,} {name}" for name, now, then in zip(OF_SUMS, counts, map(int, before)))
        yield f'<p class="soft">Since the run of {shown(ended[:16].replace("T", " "))} UTC: {grown}.</p>\n'
