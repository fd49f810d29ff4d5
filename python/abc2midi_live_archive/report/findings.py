"""The report on what is wrong or lost: losses, faults and hints with their lines, and books with a problem."""

from __future__ import annotations

from collections.abc import Iterator
from typing import Any
from urllib.parse import quote

from abc2midi_live_clients.common.terminal_text import count_of

from ..catalogue import Catalogue
from ..units import Effect
from .charts import Row, chart
from .texts import section, shown, spelled

MOST_PLACES = 20  # of a fault or hint by its name
MOST_PROBLEMS = 500
STATES = {Effect.COMPLETE: "as it is written", Effect.SILENT: "something silent", Effect.OTHER: "other than written"}
STATE = "SELECT count(*) FROM tunes WHERE state = ?"
LOSSES = "SELECT kind, effect, count(*), sum(count) FROM losses GROUP BY 1, 2 ORDER BY 3 DESC, 1"
REMARKS = """SELECT kind, remarks.name, count(*), count(DISTINCT book), wrong, instead FROM remarks
    LEFT JOIN meanings ON meanings.name = remarks.name GROUP BY 1, 2 ORDER BY 1, 3 DESC, 2"""
PLACES = """SELECT books.name, source, line, column, sentence, excerpt, mark FROM remarks JOIN books ON books.id = book
    WHERE kind = ? AND remarks.name = ? ORDER BY books.name, line, column LIMIT ?"""
PROBLEMS = "SELECT name, source, problem FROM books WHERE problem IS NOT NULL ORDER BY name LIMIT ?"


def of_losses(catalogue: Catalogue) -> Iterator[str]:
    """Yields how the tunes sound beside what is written, if that was looked for."""
    counts = {name: next(catalogue.ask(STATE, effect.value))[0] for effect, name in STATES.items()}
    if not any(counts.values()):
        return
    rows = [Row(name, count, f"{count:,}") for name, count in counts.items()]
    yield section("What sounds", chart("Tunes by what sounds", rows), "Each tune counts once.")
    lost = [Row(kind, tunes, f"{tunes:,} tune{'' if tunes == 1 else 's'}, {times:,} in all") for kind, _, tunes, times in catalogue.ask(LOSSES)]
    if lost:
        yield section("What is lost", chart("Tunes by what they lose", lost), "Kinds of losses, and names of faults. --losses writes them tune by tune.")


def of_remarks(catalogue: Catalogue) -> Iterator[str]:
    """Yields the faults and the hints by name, each with its first places."""
    found = list(catalogue.ask(REMARKS))
    for kind, title in (("fault", "Faults"), ("hint", "Hints")):
        of_kind = [row for row in found if row[0] == kind]
        if not of_kind:
            continue
        rows = [Row(name, count, f"{count:,} in {count_of(books, 'book')}", f"#{kind}-{name}") for _, name, count, books, *_ in of_kind]
        yield section(title, chart(f"{title} by name", rows), "Each name leads to its first places.")
        for _, name, count, _, wrong, instead in of_kind:
            yield places(catalogue, kind, name, count, " ".join(filter(None, (wrong, instead))))


def places(catalogue: Catalogue, kind: str, name: str, count: int, meaning: str) -> str:
    """Returns the first places of a fault or a hint, each with its line."""
    rows = "".join(place_row(*row) for row in catalogue.ask(PLACES, kind, name, MOST_PLACES))
    more = f"<p class='soft'>The first {MOST_PLACES} of {count:,}.</p>\n" if count > MOST_PLACES else ""
    return f'<h3 id="{kind}-{name}">{shown(name)}</h3>\n<p>{spelled(meaning)}</p>\n{rows}{more}'


def place_row(book: str, source: str, line: int, column: int, sentence: Any, excerpt: str, mark: int) -> str:
    """Returns a place with its line, in which the place is marked."""
    link = f"file://{quote(source)}#L{line}"
    marked = f"{shown(excerpt[:mark])}<mark>{shown(excerpt[mark : mark + 1])}</mark>{shown(excerpt[mark + 1 :])}"
    note = f" <span>{spelled(sentence)}</span>" if sentence else ""
    return f'<p class="place"><a href="{link}">{shown(book)}:{line}:{column}</a> <code>{marked}</code>{note}</p>\n'


def of_problems(catalogue: Catalogue) -> Iterator[str]:
    """Yields the books that are not compiled."""
    rows = [
        f'<p class="place">{shown(name)} <code>{shown(source)}</code> <span>{shown(problem)}</span></p>\n'
        for name, source, problem in catalogue.ask(PROBLEMS, MOST_PROBLEMS)
    ]
    if rows:
        yield section("Books with a problem", "".join(rows), "The next run tries them again.")
