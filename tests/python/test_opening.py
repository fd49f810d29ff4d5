"""Books that are too large to be read."""

import errno
import os
from unittest import mock

import abc2midi_live
import setting
from abc2midi_live import reading

MEGABYTES = 256


class TooLarge(setting.Room):
    """`open` refuses them before it looks for a program."""

    def test_a_file(self) -> None:
        path = self.folder / "book.abc"
        with path.open("wb") as file:
            file.truncate((MEGABYTES << 20) + 1)
        with self.assertRaisesRegex(abc2midi_live.BookTooLarge, "^.Errno 27. File too large: a book has at most 256 MB: .*book.abc.$") as raised:
            abc2midi_live.open(path, program="/missing")
        self.assertEqual((raised.exception.errno, raised.exception.filename), (errno.EFBIG, os.fspath(path)))
        self.assertIsInstance(raised.exception, abc2midi_live.Error)

    @mock.patch.object(reading, "MOST_BOOK_BYTES", 8)
    def test_a_device_without_an_end(self) -> None:
        with self.assertRaises(abc2midi_live.BookTooLarge):
            abc2midi_live.open("/dev/zero", program="/missing")

    @mock.patch.object(reading, "MOST_BOOK_BYTES", 8)
    def test_the_largest(self) -> None:
        path = self.folder / "book.abc"
        for book, error in (b"X:1\nK:C\n", abc2midi_live.ProgramMissing), (b"X:1\nK:C\n\n", abc2midi_live.BookTooLarge):
            path.write_bytes(book)
            with self.assertRaises(error):
                abc2midi_live.open(path, program="/missing")
