"""The report on the tunes of a collection: rhythms, keys, meters, composers, lengths, and music that it has more than once."""

from __future__ import annotations

from collections.abc import Iterator

from abc2midi_live_clients.common.terminal_text import count_of

from ..catalogue import Catalogue
from .charts import Row, chart
from .texts import section, shown

MOST_ROWS = 20  # of a chart
MOST_SAME = 50  # pieces of music that are shown, of those that the collection has more than once
MOST_TUNES = 6  # of one piece of music
COUNTED = "SELECT {}, count(*) FROM tunes WHERE file IS NOT NULL AND {} GROUP BY 1 ORDER BY 2 DESC, 1"
CHARTS = (  # the title, what is counted, of which tunes, and a note
    ("Rhythms", "lower(rhythm)", "rhythm <> ''", "Of R: as it is written; capitals do not count."),
    ("Keys", "CASE WHEN mode IS NULL THEN coalesce(nullif(key_text, ''), 'none') ELSE tonic || ' ' || mode END", "1", "Tonic and mode of K:, or K: as it is written."),
    ("Meters", "coalesce(meter, 'free')", "1", "At the start of each MIDI file."),
    ("Composers", "composer", "composer <> ''", "Of C: as it is written."),
)
LENGTHS = (15, 30, 60, 120, 300, 600)  # seconds that bound the rows of their chart
OF_LENGTH = "SELECT count(*) FROM tunes WHERE seconds >= ? AND seconds < ?"
SAME = """SELECT notes_digest, count(*) FROM tunes WHERE notes > 0 GROUP BY 1 HAVING count(*) > 1 ORDER BY 2 DESC, 1"""
TUNES_OF = """SELECT books.name, title, tunes.line FROM tunes JOIN books ON books.id = book WHERE notes_digest = ?
    ORDER BY books.name, tunes.line LIMIT ?"""


def of_collection(catalogue: Catalogue) -> Iterator[str]:
    """Yields the parts of the page that are on its tunes."""
    for title, counted, of_which, note in CHARTS:
        rows = counted_rows(catalogue, COUNTED.format(counted, of_which))
        if rows:
            yield section(title, chart(f"Tunes by {title.lower()}", rows), note)
    yield section("Lengths", chart("Tunes by length", lengths(catalogue)), "How long each MIDI file plays, with repeats.")
    yield from same_music(catalogue)


def counted_rows(catalogue: Catalogue, question: str) -> list[Row]:
    """Returns the rows of a chart: the most frequent values, and one for the others."""
    found = list(catalogue.ask(question))
    rows = [Row("; ".join(label.split("\n")), count, f"{count:,}") for label, count in found[:MOST_ROWS]]
    others = sum(count for _, count in found[MOST_ROWS:])
    return [*rows, Row(f"{len(found) - MOST_ROWS} others", others, f"{others:,}")] if others else rows


def lengths(catalogue: Catalogue) -> list[Row]:
    """Returns how many tunes are how long."""
    rows = []
    for start, end in zip((0, *LENGTHS), (*LENGTHS, 1 << 40)):
        (count,) = next(catalogue.ask(OF_LENGTH, start, end))
        label = f"from {time_text(start)}" if end > LENGTHS[-1] else f"{time_text(start)} to {time_text(end)}"
        rows.append(Row(label, count, f"{count:,}"))
    return rows


def time_text(seconds: int) -> str:
    """Returns a time in seconds or minutes."""
    return f"{seconds} s" if seconds < 60 else f"{seconds // 60} min"


def same_music(catalogue: Catalogue) -> Iterator[str]:
    """Yields the music that several tunes have, whatever their titles are."""
    found = list(catalogue.ask(SAME))
    if not found:
        return
    items = []
    for digest, count in found[:MOST_SAME]:
        tunes = [f"{shown(title) or 'without a title'} <span class='soft'>{shown(book)}:{line}</span>" for book, title, line in catalogue.ask(TUNES_OF, digest, MOST_TUNES)]
        more = f"; and {count - MOST_TUNES} more" if count > MOST_TUNES else ""
        items.append(f"<li>{'; '.join(tunes)}{more}</li>\n")
    note = f"{count_of(len(found), 'piece')} of music that several tunes have, {sum(count for _, count in found):,} in all: the notes are the same, and the titles may differ."
    yield section("Duplicates", f"<ul>{''.join(items)}</ul>", note + (f" The first {MOST_SAME}:" if len(found) > MOST_SAME else ""))
