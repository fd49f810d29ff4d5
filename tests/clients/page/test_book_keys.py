"""The secrets of books, by which a page and the next start of its server know each other."""

import os
import resource
from collections.abc import Iterator
from contextlib import contextmanager
from pathlib import Path
from unittest import mock

import trial
from abc2midi_live_clients.page.book_keys import book_key

KEY = "^[0-9a-f]{64}$"


@contextmanager
def no_room() -> Iterator[None]:
    """No file can get a byte, as on a full disk."""
    before = resource.getrlimit(resource.RLIMIT_FSIZE)
    resource.setrlimit(resource.RLIMIT_FSIZE, (0, before[1]))
    try:
        yield
    finally:
        resource.setrlimit(resource.RLIMIT_FSIZE, before)


class Keys(trial.Folder):
    def setUp(self) -> None:
        super().setUp()
        state = mock.patch.dict(os.environ, {"XDG_STATE_HOME": str(self.folder / "state")})
        state.start()
        self.addCleanup(state.stop)

    def kept(self) -> Path:
        """The only file with a key."""
        (kept,) = (self.folder / "state/abc2midi_live/keys").iterdir()
        return kept

    def test_a_key_is_kept(self) -> None:
        key = book_key("book.abc")
        self.assertRegex(key, KEY)
        self.assertEqual((book_key("book.abc"), self.kept().read_text(), oct(self.kept().stat().st_mode)), (key, key, "0o100600"))
        self.kept().chmod(0o400)
        self.assertEqual(book_key("book.abc"), key)
        self.assertNotEqual(book_key("other.abc"), key)

    def test_no_home(self) -> None:
        """The key is this start's alone."""
        for error in (RuntimeError, KeyError):
            with mock.patch.dict(os.environ, {"XDG_STATE_HOME": ""}), mock.patch.object(Path, "home", side_effect=error):
                self.assertRegex(book_key("book.abc"), KEY)

    def test_a_full_disk(self) -> None:
        """The key is this start's alone, and that of the next start with room is kept."""
        with no_room():
            self.assertRegex(book_key("book.abc"), KEY)
        key = book_key("book.abc")
        self.assertEqual((book_key("book.abc"), self.kept().read_text()), (key, key))

    def test_a_link(self) -> None:
        """It is not followed: whoever made it may read what it leads to. Nothing is written there."""
        key = book_key("book.abc")
        link, target = self.kept(), self.folder / "target"
        link.rename(target)
        link.symlink_to(target)
        self.assertNotEqual(book_key("book.abc"), key)
        target.write_bytes(b"")
        self.assertRegex(book_key("book.abc"), KEY)
        self.assertEqual(target.read_bytes(), b"")

    def test_a_file_of_another_user(self) -> None:
        key = book_key("book.abc")
        with mock.patch("os.getuid", return_value=os.getuid() + 1):
            self.assertNotEqual(book_key("book.abc"), key)

    def test_files_that_have_no_key(self) -> None:
        """Nothing is written into them, and each start has another key."""
        book_key("book.abc")
        for data, mode in ((b"", 0o644), (b"0" * 64, 0o640), (b"0" * 63, 0o600), (b"\xff" * 64, 0o600)):
            self.kept().write_bytes(data)
            self.kept().chmod(mode)
            keys = {book_key("book.abc") for _ in range(2)}
            self.assertEqual((len(keys - {"0" * 64}), self.kept().read_bytes()), (2, data))
