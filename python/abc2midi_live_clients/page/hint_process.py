"""Finding hints in a process of its own, so that whoever types does not wait for them."""

from functools import lru_cache
from typing import NamedTuple, Optional

from abc2midi_live import Fault
from abc2midi_live.lines import without_empty_end

from ..common.faults import end_of
from ..common.session_book import MOST_ENDS, Tune
from ..hints import Finder
from ..hints.reader import NO_LINE, reader_here
from .book_text import Text
from .finding_rows import FaultRow, TuneRow
from .own_process import OwnProcess, answer_all

NICENESS = 19
HintRow = tuple[int, int, int, str, str]  # line from 0, begin and end there in UTF-16, name, sentence


class Question(NamedTuple):
    """A text, and what the program finds in it. The rows go to the process as they are: to make others of those of a long book takes
    as long as a key may take."""

    text: Text
    faults: list[FaultRow]
    tunes: list[TuneRow]


class HintProcess(OwnProcess):
    """The process that finds hints, by the library at a path or the one that is found."""

    def __init__(self, library: Optional[str] = None) -> None:
        super().__init__("page.hint_process", library)

    def rows(self, question: Question) -> list[HintRow]:
        """The hints on a text as windows see them, in order. Raises one of `ENDED` if the process ended."""
        text = question.text
        found: list[HintRow] = self.ask((b"\n".join(text.lines), text.returns, question.faults, question.tunes))
        return found


def serve(library: Optional[str]) -> None:
    """Answers questions till there are no more."""
    finder = Finder(library)

    def rows(asked: tuple[bytes, bool, list[FaultRow], list[TuneRow]]) -> list[HintRow]:
        data, returns, faults, tunes = asked
        return hint_rows(finder, Question(Text(b"", data.split(b"\n"), returns), faults, tunes))

    answer_all(rows, NICENESS)


def hint_rows(finder: Finder, question: Question) -> list[HintRow]:
    """The hints on a text as windows see them."""
    text, rows = question.text, []
    tunes = [Tune(number, title, line + 1) for line, number, title, _ in question.tunes]
    faults = [Fault(line + 1, column, name) for line, column, _, name in question.faults]
    for line, column, name, sentence in finder.hints(without_empty_end(text.lines), tunes, faults):
        content = text.lines[line - 1]
        start, end = text.places(content).span(column, hint_end(finder.library, content, column, name))
        rows.append((line - 1, start, end, name, sentence_of(sentence)))
    return rows


@lru_cache(maxsize=MOST_ENDS)
def hint_end(library: Optional[str], line: bytes, column: int, name: str) -> int:
    """The column after a hint, by the tokens that its line has in a tune. Without a library only the line is known."""
    reader = reader_here(library)
    read = reader.line_in_tune(line) if reader else NO_LINE
    return end_of(line, column, name, zip(read.starts, read.ends))


def sentence_of(words: str) -> str:
    """A hint as a sentence."""
    return f"{words[:1].upper()}{words[1:]}."

