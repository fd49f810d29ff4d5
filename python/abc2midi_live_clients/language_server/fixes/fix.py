"""What a quick fix is: changes that do what the sentence of a fault or a hint names."""

from collections.abc import Iterator
from typing import NamedTuple, Optional

from abc2midi_live import TokenKind

from ..diagnostics import Remark
from ..document import Document, TuneLines
from ..token_texts import TokenText
from ..voice_and_part_names import Name, names_in

LARGEST = 999_999_999  # number of a tune


class LineChange(NamedTuple):
    """A change of a line: from which character to which, and what it becomes. Lines and characters count from 0."""

    line: int
    start: int
    end: int
    text: str


class Fix(NamedTuple):
    """A sentence, and changes. One that is preferred is certainly what was meant; all of these can be made at once."""

    title: str
    changes: tuple[LineChange, ...]
    is_preferred: bool = True


class Known(NamedTuple):
    """A fault or a hint, its document, and the numbers that other fixes give to tunes."""

    document: Document
    remark: Remark
    promised: set[int]

    @property
    def number(self) -> int:
        """The line, counted from 0."""
        return self.remark.line

    @property
    def line(self) -> str:
        """The text of the line, without a carriage return at its end."""
        return self.text(self.remark.line)

    @property
    def code(self) -> str:
        """The line without the comment at its end."""
        tokens = self.document.tokens(self.number)
        has_comment = len(tokens) > 1 and tokens[-1].kind == TokenKind.COMMENT
        return self.line[: tokens[-1].start] if has_comment else self.line

    def text(self, line: int) -> str:
        """The text of a line, without a carriage return at its end."""
        return self.document.lines[line].removesuffix("\r")

    def token(self) -> Optional[TokenText]:
        """The token that begins at the fault; in a chord its part."""
        found = [token for token in self.document.tokens(self.number) if token.start == self.remark.start]
        return found[-1] if found else None

    def tune(self) -> Optional[TuneLines]:
        """The tune of the line."""
        return self.document.tune_lines_at(self.number)

    def lines(self) -> range:
        """The lines from the fault to the end of its tune."""
        tune = self.tune()
        return range(self.number, tune.end if tune else self.number + 1)

    def names(self, letter: str) -> list[Name]:
        """The names of the voices or of the parts of the tune, in the order of the text."""
        tune = self.tune()
        return [name for name in names_in(self.document, tune) if name.letter == letter] if tune else []

    def tokens_of_line(self) -> list[TokenText]:
        """The tokens of the line, but for the parts of chords."""
        return [token for token in self.document.tokens(self.number) if not token.is_part]

    def tokens_from_here(self) -> Iterator[TokenText]:
        """Yields the tokens of the tune from the fault on, but for the parts of chords."""
        for line in self.lines():
            for token in self.document.tokens(line):
                if not token.is_part and (token.line, token.start) >= (self.number, self.remark.start):
                    yield token

    def change(self, start: int, end: int, text: str) -> LineChange:
        """The change of characters of the line."""
        return LineChange(self.number, start, end, text)

    def written(self, text: str, is_preferred: bool = True) -> Fix:
        """The fix that writes the whole line, but for a comment at its end, in another way."""
        blanks = len(self.code) - len(self.code.rstrip(" \t"))
        return Fix(f"Write {text}", (self.change(0, len(self.code) - blanks, text),), is_preferred)

    def insertion(self, line: int, text: str) -> LineChange:
        """The insertion of a line before another one, or at the end of the text."""
        lines = self.document.lines
        end = "\r\n" if lines[0].endswith("\r") else "\n"
        if line < len(lines):
            return LineChange(line, 0, 0, text + end)
        last = len(lines) - 1
        return LineChange(last, len(lines[last]), len(lines[last]), end + text)

    def free_number(self, after: int) -> Optional[int]:
        """The first number after one that no tune has."""
        taken = {tune.number for tune in self.document.book.tunes()} | self.promised
        numbers = range(after + 1, after + len(taken) + 2)
        return next((number for number in numbers if number not in taken and number <= LARGEST), None)
