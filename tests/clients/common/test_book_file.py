"""When a book on disk counts as saved, by a clock that the test moves."""

from unittest import mock

import trial
from abc2midi_live_clients.common import book_file


@mock.patch.object(book_file, "signature_of", lambda _: (1, 2, 3, 4, 5))
class Ticks(trial.Folder):
    """A file system with so slow a clock that two saves of one size have the same signature."""

    def setUp(self) -> None:
        super().setUp()
        self.path = self.folder / "book.abc"
        self.seconds_now = 100.0
        self.file = book_file.BookFile(str(self.path), pause=lambda _: None, clock=lambda: self.seconds_now)

    def test_two_saves_in_one_tick_and_a_look_between(self) -> None:
        """The look finds the file as it was, and the second save counts all the same."""
        self.path.write_bytes(b"one")
        self.assertEqual(self.file.saved(), b"one")
        self.seconds_now += 0.5
        self.assertIsNone(self.file.saved())
        self.path.write_bytes(b"two")
        self.seconds_now += 0.5
        self.assertEqual(self.file.saved(), b"two")

    def test_a_look_after_the_tick(self) -> None:
        """Then no other save can have the signature, and the file is not read."""
        self.path.write_bytes(b"one")
        self.file.saved()
        for seconds, is_settled in ((2.5, False), (1, True)):
            self.seconds_now += seconds
            self.assertIsNone(self.file.saved())
            self.assertEqual(self.file.is_settled, is_settled)
