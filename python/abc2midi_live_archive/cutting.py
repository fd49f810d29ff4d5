"""Cuts a book that a session cannot hold at its tunes, and repeats its file header before each part.

This is the one place at which the archive reads ABC by itself: lines that begin with `X:`, and blank lines. A tune runs from its
`X:` line to a blank line or the next `X:` line, and no tune depends on another one but for their numbers."""

from __future__ import annotations

from collections.abc import Iterator, Sequence
from typing import NamedTuple

from abc2midi_live.lines import MOST_LINES


class Part(NamedTuple):
    """A part of a book: its lines, of which `header` are those of the file header; and how far the others moved up."""

    lines: Sequence[bytes]
    header: int = 0
    moved: int = 0

    def line_of_book(self, line: int) -> int:
        """Returns the line of the book for one of the part, both counted from 1."""
        return line if line <= self.header else line + self.moved


class Cut(NamedTuple):
    """The parts of a book, and the `X:` lines, counted from 1, of the tunes that are too long for a session."""

    parts: list[Part]
    too_long: list[int]


def tune_starts(lines: Sequence[bytes]) -> list[int]:
    """Returns the places of the lines that begin tunes, counted from 0."""
    return [n for n, line in enumerate(lines) if line[:2] == b"X:"]


def cut_book(lines: Sequence[bytes], most: int = MOST_LINES) -> Cut:
    """Returns a book in parts of at most `most` lines. One that has no more is its only part."""
    if len(lines) <= most:
        return Cut([Part(lines)], [])
    starts = tune_starts(lines)
    header = lines[: end_of_header(lines[: starts[0] if starts else len(lines)])][:most]
    too_long: list[int] = []
    parts = []
    for start, stop in spans(lines, starts, most - len(header), too_long):
        parts.append(Part([*header, *lines[start:stop]], len(header), start - len(header)))
    return Cut(parts or [Part(header, len(header))], too_long)


def spans(lines: Sequence[bytes], starts: Sequence[int], room: int, too_long: list[int]) -> Iterator[tuple[int, int]]:
    """Yields the first line and the end of runs of tunes that fit a room. Adds tunes that do not to `too_long`. A tune that fits only
    without the free text after it is the last of its run, as this text is no less of the run than of the tune."""
    first = stop = -1  # of the run so far
    for start, end in zip(starts, [*starts[1:], len(lines)]):
        if end - start > room:
            end = end_of_tune(lines, start, end)
        is_too_long = end - start > room
        if is_too_long:
            too_long.append(start + 1)
        if first >= 0 and (is_too_long or end - first > room):
            yield first, stop
            first = -1
        if not is_too_long:
            first, stop = (start if first < 0 else first), end
    if first >= 0:
        yield first, stop


def end_of_tune(lines: Sequence[bytes], start: int, stop: int) -> int:
    """Returns the first blank line of a range, or its end."""
    return next((n for n in range(start, stop) if is_blank(lines[n])), stop)


def end_of_header(opening: Sequence[bytes]) -> int:
    """Returns how many of the lines before the first tune are repeated: up to the first blank line after one that is neither blank
    nor a comment. The file header is among these, and what else is has no effect."""
    first = next((n for n, line in enumerate(opening) if not is_blank(line) and not line.lstrip(b" \t").startswith(b"%")), None)
    return len(opening) if first is None else end_of_tune(opening, first, len(opening))


def is_blank(line: bytes) -> bool:
    """Returns whether a line has nothing but blanks, but for one carriage return at its end."""
    return not line.removesuffix(b"\r").strip(b" \t")
