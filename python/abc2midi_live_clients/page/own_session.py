"""The session of a book that windows share: it stays on a thread of its own, and is replaced after an exception."""

import threading
from collections.abc import Callable
from concurrent.futures import Future
from concurrent.futures import TimeoutError as TooLate
from contextlib import suppress
from queue import SimpleQueue
from typing import Any, Optional, TypeVar

from abc2midi_live import Edit
from abc2midi_live.lines import without_empty_end

from ..common.options import open_library
from ..common.session_book import SessionBook
from .book_text import Text
from .finding_rows import Rows, TuneRows
from .refused import Refused

SECONDS_TO_END = 3
Result = TypeVar("Result")


class OwnThread:
    """A thread that does one thing after another for other threads. It does not hold up the end of its process."""

    def __init__(self) -> None:
        self.asked: SimpleQueue[Optional[tuple[Future[Any], Callable[[], Any]]]] = SimpleQueue()
        threading.Thread(target=self.run, daemon=True).start()

    def run(self) -> None:
        """Does what is asked, until `end`."""
        while (asked := self.asked.get()) is not None:
            future, act = asked
            try:
                future.set_result(act())
            except BaseException as error:  # whoever asks gets it
                future.set_exception(error)

    def do(self, act: Callable[[], Result], seconds: Optional[float] = None) -> Result:
        """Does something on the thread, and returns what it returns. Raises what it raises, and TimeoutError after so long."""
        future: Future[Result] = Future()
        self.asked.put((future, act))
        return future.result(seconds)

    def end(self) -> None:
        """Ends the thread after what was asked."""
        self.asked.put(None)


class OwnSession:
    """A session of the library with the text that `present` returns, and its thread. One at a time may ask it."""

    def __init__(self, library: Optional[str], present: Callable[[], Text]):
        self.library = library
        self.present = present
        self.thread = OwnThread()
        self.book: Optional[SessionBook] = None  # None after an exception
        self.tune_rows = TuneRows()

    def do(self, act: Callable[[SessionBook], Result]) -> Result:
        """Does something with the session, on its thread. After any exception the session may have another text than windows see, so
        the next call begins another one with the text that is there."""
        return self.thread.do(lambda: self.carry_out(act))

    def forget(self) -> None:
        """Ends the session: the next call begins another one with the text that is there."""
        self.thread.do(self.drop)

    def carry_out(self, act: Callable[[SessionBook], Result]) -> Result:
        """Does something with the session, on its thread."""
        try:
            self.book = self.book or self.opened()
            return act(self.book)
        except MemoryError as error:
            self.drop()
            raise Refused(413, str(error) or "an allocation failed") from error
        except BaseException:
            self.drop()
            raise

    def opened(self) -> SessionBook:
        """A session with the present text. Raises LibraryMissing."""
        book = SessionBook(open_library(self.library))
        book.replace(0, 0, without_empty_end(self.present().lines))
        return book

    def rows(self, book: SessionBook) -> Rows:
        """What the session finds in its text, on its thread."""
        faults = book.faults()
        rows = [(fault.line - 1, fault.column, book.end_of(fault), fault.name) for fault in faults]
        return Rows(rows, self.tune_rows.of(book.tunes(), faults))

    def drop(self) -> None:
        """Ends the session, on its thread."""
        book, self.book, self.tune_rows = self.book, None, TuneRows()
        if book:
            book.session.close()

    def close(self) -> None:
        """Ends the session, unless it is busy for long: then it ends with the process."""
        with suppress(TooLate):
            self.thread.do(self.drop, SECONDS_TO_END)
        self.thread.end()


def hand_over(book: SessionBook, edit: Edit, text: Text) -> None:
    """Lets a session have an edit that makes a text. An empty last line is none there."""
    if edit.stop < len(text.lines) - len(edit.lines) + edit.stop - edit.start:
        book.replace(*edit)
    else:
        new_lines = without_empty_end(text.lines)
        start = min(edit.start, len(new_lines), len(book.lines))
        book.replace(start, len(book.lines), new_lines[start:])
