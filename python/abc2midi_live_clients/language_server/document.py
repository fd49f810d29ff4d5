"""A tune book that an editor has open: its text, the session that holds it, and its tunes."""

import tempfile
from contextlib import suppress
from typing import NamedTuple, Optional

from abc2midi_live import Fault, PlayTooLong, Session, Track
from abc2midi_live.lines import without_empty_end

from ..common.json_object import Json
from ..common.line_places import utf8
from ..common.session_book import SessionBook, Tune, files_of
from ..hints import MOST_AT_ONCE, Finder, Hint, number_is_used
from .editor_lines import EditorLines
from .messages import REQUEST_FAILED, Failure
from .played_files import PlayedFiles
from .position_encodings import UTF16, Encoding
from .text_changes import Change, Position
from .token_texts import TokenText, token_texts


class TuneLines(NamedTuple):
    """A tune, its first line, and the line after its last one: a blank line, the next tune's, or the end. Lines count from 0."""

    tune: Tune
    start: int
    end: int


class Document:
    """A tune book that an editor has open. A session of its own has the same text. What it finds in a text is asked once."""

    def __init__(
        self,
        text: str,
        session: Session,
        words: dict[str, str],
        finder: Optional[Finder] = None,
        encoding: Encoding = UTF16,
    ):
        self.text = EditorLines(text, encoding)
        self.encoding = encoding
        self.version: Optional[int] = None  # of the text, as the editor counts
        self.words = words
        self.finder = finder  # of hints
        self.changed = 0  # the line of the last change
        self.is_lost = False  # a change could not be read, so the text is not the editor's
        self.is_broken = False  # an exception came during a change, so the session may have another text
        self.book = SessionBook(session)
        self.files = PlayedFiles()
        self.forget()
        self.book.replace(0, 0, without_empty_end([utf8(line) for line in self.lines]))

    def forget(self) -> None:
        """Forgets what was found in the text before."""
        self.known_faults: Optional[list[Fault]] = None
        self.known_hints: Optional[list[Hint]] = None
        self.known_tokens: dict[int, list[TokenText]] = {}
        self.known_plays: dict[int, tuple[Track, ...]] = {}

    def close(self) -> None:
        """Ends the session, and removes the files that were played."""
        self.book.session.close()
        self.files.close()

    @property
    def lines(self) -> list[str]:
        """The lines of the text, cut at line feeds; the last one is empty if the text ends with a line feed."""
        return self.text.texts

    def faults(self) -> list[Fault]:
        """The faults of the text in order."""
        if self.known_faults is None:
            self.known_faults = self.book.faults()
        return self.known_faults

    def hints(self) -> list[Hint]:
        """The hints on the text in order, as far as they are known: in a long book `look_on` finds more."""
        if self.known_hints is None and self.finder:
            self.finder.take(self.book.lines, self.book.tunes(), self.faults())
            self.look_on()
        return self.known_hints or []

    def look_on(self) -> bool:
        """Looks for hints for a moment. Returns whether all are known."""
        is_done = self.finder is None or self.finder.look(MOST_AT_ONCE)
        if is_done or self.known_hints is None:
            self.known_hints = self.finder.found() if self.finder else []
        return is_done

    def give_up_hints(self) -> None:
        """Looks for no more hints on the present text."""
        self.finder, self.known_hints = None, self.known_hints or []

    def has_all_hints(self) -> bool:
        """Returns whether all hints on the text are known, or none was asked for."""
        return self.known_hints is None or not (self.finder and self.finder.unread)

    def tokens(self, line: int) -> list[TokenText]:
        """The tokens of a line, counted from 0."""
        if line not in self.known_tokens:
            self.known_tokens[line] = list(token_texts(line, self.lines[line], self.book.tokens(line)))
        return self.known_tokens[line]

    def column(self, line: int, character: int) -> int:
        """The column of a character, as the library counts: in bytes from 1."""
        return len(utf8(self.lines[line][:character])) + 1

    def play(self, tune: Tune) -> tuple[Track, ...]:
        """What is played of a tune; nothing if it has no file, or plays too much to list."""
        number = tune.number
        if number not in self.known_plays and self.has_file(tune):
            self.known_plays[number] = ()
            with suppress(PlayTooLong):
                self.known_plays[number] = self.book.play(number) or ()
        return self.known_plays[number] if self.has_file(tune) else ()

    # ---- changes

    def put(self, start: int, stop: int, text: str) -> None:
        """Replaces the lines from `start` to `stop`, counted from 0 and without `stop`, by those of a text."""
        at_end = stop == len(self.lines)
        texts = text.split("\n")
        self.text.replace(start, stop, texts)
        self.forget()
        lines = [utf8(line) for line in texts]
        lines = without_empty_end(lines) if at_end else lines
        self.book.replace(start, min(stop, len(self.book.lines)), lines)

    def change(self, change: Change) -> None:
        """Changes a range of the text, or the whole."""
        if change.range is None:
            self.put(0, len(self.lines), change.text)
            self.is_lost = False
            return
        first, before = self.place(change.range.start)
        last, after = self.place(change.range.end)
        text = self.encoding.splice((self.lines[first], before), change.text, (self.lines[last], after))
        self.put(first, last + 1, text)
        self.changed = first

    def place(self, position: Position) -> tuple[int, int]:
        """The line and the unit of a position. One after the text or a line is its end."""
        return self.text.place(position)

    def character(self, position: Position) -> tuple[int, int]:
        """The line and the character of it that has a position."""
        line, unit = self.place(position)
        return line, len(self.encoding.before(self.lines[line], unit))

    def range(self, first: int, start: int, last: int, end: int) -> Json:
        """The range from a character of a line to a character of a line, all counted from 0."""
        return {"start": self.text.position(first, start)._asdict(), "end": self.text.position(last, end)._asdict()}

    # ---- tunes

    def tunes(self) -> list[TuneLines]:
        """The tunes with their lines."""
        tunes = self.book.tunes()
        ends = [tune.line - 1 for tune in tunes[1:]] + [len(self.lines)]
        return [TuneLines(tune, tune.line - 1, self.blank_line(tune.line, end)) for tune, end in zip(tunes, ends)]

    def tune_lines_at(self, line: int) -> Optional[TuneLines]:
        """The tune that has a line, counted from 0, with its lines."""
        tune = self.tune_at(line)
        if tune is None:
            return None
        after = (each.line - 1 for each in self.book.tunes() if each.line > tune.line)
        return TuneLines(tune, tune.line - 1, self.blank_line(tune.line, next(after, len(self.lines))))

    def blank_line(self, start: int, end: int) -> int:
        """The first blank line from `start` on, or `end`."""
        return next((n for n in range(start, end) if not self.lines[n].removesuffix("\r").strip(" \t")), end)

    def tune_at(self, line: int) -> Optional[Tune]:
        """The tune that has a line, counted from 0, or None."""
        before = [tune for tune in self.book.tunes() if tune.line - 1 <= line]
        is_in = before and line < len(self.lines) and self.blank_line(before[-1].line, line + 1) > line
        return before[-1] if is_in else None

    def has_file(self, tune: Tune) -> bool:
        """Returns whether the file of its number is a tune's."""
        return files_of(self.book.tunes(), self.faults()).get(tune.number) == tune

    def file_at(self, line: int) -> str:
        """A file with the music of the tune that has a line."""
        tune = self.tune_at(line)
        if tune is None:
            raise Failure(REQUEST_FAILED, "no tune is here")
        number = tune.number
        data = self.book.midi(number) if self.has_file(tune) else None
        if data is None:
            raise Failure(REQUEST_FAILED, self.why_no_file(tune))
        try:
            return self.files.write(f"{number}.mid", data)
        except OSError as error:
            raise Failure(REQUEST_FAILED, f"a file cannot be written below {tempfile.gettempdir()}: {error.strerror}") from error

    def why_no_file(self, tune: Tune) -> str:
        """The reason why a tune has no file."""
        owner = files_of(self.book.tunes(), self.faults()).get(tune.number)
        if owner is None or tune.line < owner.line:
            return self.words["TuneTooLong"]
        return number_is_used(tune.number, owner.line)


def title_of(tune: Tune) -> str:
    """The number and the title of a tune."""
    return f"{tune.number} {tune.title}".rstrip()
