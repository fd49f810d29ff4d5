"""The hints of the page while the process that finds them ends."""

import errno
import unittest
from typing import Optional, cast
from unittest import mock

import trial  # noqa: F401
from abc2midi_live_clients.page import hint_keeper
from abc2midi_live_clients.page.hint_keeper import HintKeeper
from abc2midi_live_clients.page.hint_process import HintRow
from abc2midi_live_clients.page.shared_book import SharedBook

HINT: HintRow = (2, 1, 2, "Overlay", "")
MOST_QUESTIONS = 20


class Ended(Exception):
    """The test has seen enough."""


class Book:
    """A book that has its next version when it knows the hints on the present one. After the last version the test ends."""

    library = "libbook.so"

    def __init__(self, last: int) -> None:
        self.version, self.last = 0, last
        self.asked: list[int] = []  # the version of each question
        self.hints: list[list[HintRow]] = []

    def question(self, known: int, _: float) -> tuple[int, int]:
        """The present version, as the question about it too."""
        self.asked.append(self.version)
        if self.version in (known, self.last) or len(self.asked) > MOST_QUESTIONS:
            raise Ended
        return self.version, self.version

    def know_hints(self, _: int, hints: list[HintRow]) -> None:
        self.hints.append(hints)
        self.version += 1


class Process:
    """A process over the library of the book, which ends on some questions: on each as often as `ends` says."""

    ends: dict[int, int] = {}

    def __init__(self, library: Optional[str]) -> None:
        if library != Book.library:
            raise ValueError(library)

    def rows(self, question: int) -> list[HintRow]:
        if self.ends.get(question):
            self.ends[question] -= 1
            raise EOFError
        return [HINT]

    def close(self) -> None:
        pass


class Keeping(unittest.TestCase):
    @mock.patch.object(hint_keeper, "HintProcess", Process)
    @mock.patch.object(hint_keeper, "SECONDS_OF_REST", 0)
    @mock.patch.object(Process, "ends", {1: 1, 2: MOST_QUESTIONS})
    def test_a_process_that_ends(self) -> None:
        """It is asked once more. If it ends again, the version has no hints, and the next one is asked about."""
        book = Book(4)
        with self.assertRaises(Ended):
            HintKeeper(cast(SharedBook, book)).keep()
        self.assertEqual((book.asked, book.hints), ([0, 1, 1, 2, 2, 3, 4], [[HINT], [HINT], [], [HINT]]))

    @mock.patch.object(hint_keeper, "SECONDS_OF_REST", 0)
    @mock.patch.object(Process, "ends", {1: 2})
    def test_a_process_that_cannot_be_started(self) -> None:
        """The version has no hints, and a later one has them when it can be started again."""
        full = OSError(errno.EAGAIN, "Resource temporarily unavailable")
        book = Book(4)
        with mock.patch.object(hint_keeper, "HintProcess", side_effect=[Process(Book.library), full, Process(Book.library)]), self.assertRaises(Ended):
            HintKeeper(cast(SharedBook, book)).keep()
        self.assertEqual((book.asked, book.hints), ([0, 1, 1, 2, 3, 4], [[HINT], [], [HINT], [HINT]]))
