"""The hints of a book, found while nobody types."""

import time
from contextlib import suppress

from .hint_process import HintProcess
from .own_process import ENDED
from .shared_book import SharedBook

SECONDS_OF_REST = 0.3  # after an edit, before hints are looked for


class HintKeeper:
    """Finds the hints on each text that is left alone for a moment."""

    def __init__(self, book: SharedBook):
        self.book = book
        self.process = HintProcess(self.book.library)
        self.is_closed = False

    def keep(self) -> None:
        """Looks for hints again and again. A version on which the process ended twice in a row has none."""
        known = failed = -1  # the version whose hints are known, and the one on which the process ended last
        while not self.is_closed:
            version, question = self.book.question(known, SECONDS_OF_REST)
            try:
                hints = self.process.rows(question)
            except ENDED:
                self.restart()
                if version != failed:
                    failed = version
                    continue
                hints = []
            self.book.know_hints(version, hints)
            known = version

    def restart(self) -> None:
        """Starts another process, a moment after the last one ended. If that fails, the next question tries again."""
        self.process.close()
        time.sleep(SECONDS_OF_REST)
        if not self.is_closed:
            with suppress(OSError):
                self.process = HintProcess(self.book.library)

    def close(self) -> None:
        """Ends the process."""
        self.is_closed = True
        self.process.close()
