"""What a window sees of a book: the tokens of its lines and the play of its tune, as rows of numbers for `page/link/tokens_and_plays.js`."""

from bisect import bisect_right
from itertools import accumulate
from typing import NamedTuple, Optional

from abc2midi_live import PlayTooLong
from abc2midi_live.records import TokenColumns

from ..common.json_object import Json
from ..common.session_book import SessionBook
from .book_text import Text

MOST_LINES = 1_000  # of a window
MOST_TOKENS = 50_000  # of its lines, after which no line has tokens
MOST_ENTRIES = 50_000  # of a tune
NO_TOKENS = TokenColumns([], [], [], [])
FIELDS = 9  # of an entry


class Sight(NamedTuple):
    """What a window shows: the lines from `start` to `stop`, counted from 0 and without `stop`, and the tune of a number."""

    start: int
    stop: int
    tune: Optional[int]


class Columns:
    """The columns of lines as windows see them: UTF-16 units, counted from 0, by columns in bytes, counted from 1."""

    def __init__(self, text: Text):
        self.text = text
        self.known: dict[int, Optional[list[int]]] = {}  # by line; None in a line where both are the same

    def of_line(self, line: int) -> Optional[list[int]]:
        """The units before each byte of a line and before its end, None if they are as many as the bytes."""
        if line not in self.known:
            content = self.text.lines[line]
            self.known[line] = None if content.isascii() else self.units(content)
        return self.known[line]

    def of_places(self, lines: list[int], found: list[int]) -> list[int]:
        """The columns in units of columns in bytes, each in a line."""
        units = {line: self.of_line(line) for line in set(lines)}
        if not any(units.values()):
            return shifted(found, None)
        return [shifted([column], units[line])[0] for line, column in zip(lines, found)]

    def units(self, line: bytes) -> list[int]:
        """The units before each byte of a line and before its end."""
        places = self.text.places(line)
        return [places.units_before[bisect_right(places.bytes_before, byte) - 1] for byte in range(len(line) + 1)]


def view_of(book: SessionBook, text: Text, sight: Sight) -> Json:
    """What a window sees of a text that a session has."""
    columns = Columns(text)
    return {
        "from": sight.start,
        "to": sight.stop,
        "tokens": token_rows(book, columns, range(len(text.lines))[sight.start : sight.stop][:MOST_LINES]),
        "tune": sight.tune,
        "play": None if sight.tune is None else track_rows(book, columns, sight.tune),
    }


def token_rows(book: SessionBook, columns: Columns, lines: range) -> list[list[int]]:
    """The tokens of lines: of each token four numbers, its columns, its kind and its depth."""
    rows: list[list[int]] = []
    count = 0
    for line in lines:
        tokens = book.token_columns(line) or NO_TOKENS
        count += len(tokens.kinds)
        if count > MOST_TOKENS:
            break
        rows.append(token_row(tokens, columns.of_line(line)))
    return rows


def token_row(tokens: TokenColumns, units: Optional[list[int]]) -> list[int]:
    """The numbers of the tokens of a line."""
    row = [0] * (len(TokenColumns._fields) * len(tokens.kinds))
    row[0::4], row[1::4] = shifted(tokens.from_columns, units), shifted(tokens.to_columns, units)
    row[2::4], row[3::4] = tokens.kinds, tokens.depths
    return row


def shifted(columns: list[int], units: Optional[list[int]]) -> list[int]:
    """Columns in bytes as those in units."""
    return [column - 1 for column in columns] if units is None else [units[column - 1] for column in columns]


def track_rows(book: SessionBook, columns: Columns, number: int) -> Optional[list[list[int]]]:
    """The entries of the tracks of a number: of each entry nine numbers, its ticks, its line and columns, its kind, its key and velocity,
    and the bits of its ties. None if the number has no file, or too many entries."""
    try:
        found = book.play_columns(number)
    except PlayTooLong:
        return None
    if found is None or sum(found[1]) > MOST_ENTRIES:
        return None
    play, sizes = found
    rows = play.numbers()
    lines = [line - 1 for line in rows[2::FIELDS]]
    rows[2::FIELDS] = lines
    for field in (3, 4):
        rows[field::FIELDS] = columns.of_places(lines, rows[field::FIELDS])
    ends = list(accumulate(sizes, initial=0))
    return [rows[FIELDS * start : FIELDS * end] for start, end in zip(ends, ends[1:])]
