"""The changes that are kept for windows, and books that are too large."""

from collections.abc import Callable
from unittest import mock

import trial
from abc2midi_live import BookTooLarge, reading
from abc2midi_live_clients.common.book_file import BookFile
from abc2midi_live_clients.common.json_object import Json
from abc2midi_live_clients.page import windows
from abc2midi_live_clients.page.saving import read_book
from abc2midi_live_clients.page.windows import RecentChanges


def change(version: int, *lines: str) -> Json:
    return {"version": version, "edit": {"start": 0, "stop": 0, "lines": list(lines)}}


class Limits(trial.Folder):
    def versions(self, changes: RecentChanges) -> list[int]:
        return [each["version"] for each in changes]

    def test_many_changes(self) -> None:
        changes = RecentChanges()
        changes.extend(change(version, "C") for version in range(300))
        self.assertEqual(self.versions(changes), list(range(100, 300)))

    @mock.patch.object(windows, "MOST_CHARACTERS", 10)
    def test_long_changes(self) -> None:
        """The last one stays, however long it is."""
        changes = RecentChanges()
        for version, length, kept in (1, 4, [1]), (2, 4, [1, 2]), (3, 3, [2, 3]), (4, 11, [4]), (5, 0, [5]), (6, 10, [5, 6]), (7, 1, [7]):
            changes.extend([change(version, "C" * length)])
            self.assertEqual(self.versions(changes), kept)

    def test_books_that_are_too_large(self) -> None:
        path = self.folder / "book.abc"
        path.write_bytes(b"X:1\nK:C\n")
        for most, is_read in (8, True), (7, False):
            with mock.patch.object(reading, "MOST_BOOK_BYTES", most):
                reads: list[Callable[[], object]] = [BookFile(str(path)).saved, lambda: read_book(str(path))]
                for read in reads:
                    if is_read:
                        self.assertEqual(read(), b"X:1\nK:C\n")
                        continue
                    with self.assertRaises(BookTooLarge):
                        read()
