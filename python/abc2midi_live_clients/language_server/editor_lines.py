"""The lines of a text as the program cuts them and as an editor counts them.

The program cuts a text at line feeds. In the Language Server Protocol a carriage return alone ends a line, too."""

from bisect import bisect_right
from typing import NamedTuple

from ..common.session_book import splice_places
from .position_encodings import UTF16, Encoding
from .text_changes import Position


class Part(NamedTuple):
    """A line of the editor in a line of the program: where it begins and ends there, and its end before a carriage return, all
    in units of the editor."""

    start: int
    end: int
    limit: int


class EditorLines:
    """The lines of a text, cut at line feeds; the last one is empty if the text ends with a line feed."""

    def __init__(self, text: str, encoding: Encoding = UTF16):
        self.encoding = encoding
        self.texts = text.split("\n")
        self.parted = parted_lines(self.texts)  # those in which a carriage return ends a line of the editor, but for the last line

    def replace(self, start: int, stop: int, texts: list[str]) -> None:
        """Replaces the lines from `start` to `stop`, counted from 0 and without `stop`."""
        self.texts[start:stop] = texts
        self.parted = splice_places(self.parted, start, stop, parted_lines(texts), len(texts))

    def place(self, position: Position) -> tuple[int, int]:
        """The line and the unit of a position. One after the text is its end. One after a line is the line's end,
        before its carriage return."""
        line, unit = position
        number = 0
        for n in self.all_parted():
            more = len(self.parts(n)) - 1
            if line <= n + more:
                line, number = min(line, n), max(0, line - n)
                break
            line -= more
        if line >= len(self.texts):
            return len(self.texts) - 1, self.encoding.length(self.texts[-1])
        part = self.parts(line)[number]
        return line, part.start + unit if part.start + unit <= part.end else part.limit

    def position(self, line: int, character: int) -> Position:
        """The position of a character of a line."""
        unit = self.encoding.length(self.texts[line][:character])
        before = sum(len(self.parts(n)) - 1 for n in self.all_parted() if n < line)
        starts = [part.start for part in self.parts(line)]
        number = bisect_right(starts, unit) - 1
        return Position(line + before + number, unit - starts[number])

    def all_parted(self) -> list[int]:
        """The lines of which the editor has several. A carriage return at the end of the text ends a line, too."""
        last = len(self.texts) - 1
        return [*self.parted, last] if self.texts[last].endswith("\r") and last not in self.parted[-1:] else self.parted

    def parts(self, line: int) -> list[Part]:
        """The lines of the editor in a line."""
        text, is_last = self.texts[line], line == len(self.texts) - 1
        bare = text if is_last else text.removesuffix("\r")
        lengths = [self.encoding.length(part) for part in bare.split("\r")]
        found, start = [], 0
        for length in lengths:
            found.append(Part(start, start + length, start + length))
            start += length + 1
        return found if bare == text else [*found[:-1], found[-1]._replace(end=found[-1].limit + 1)]


def parted_lines(texts: list[str]) -> list[int]:
    """The lines with a carriage return before their end."""
    return [n for n, text in enumerate(texts) if text.find("\r", 0, -1) >= 0]
