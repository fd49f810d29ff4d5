"""Saving a book without loss."""

import os
import stat
import unittest
from collections.abc import Callable
from typing import Any, Optional
from unittest import mock

import trial
from abc2midi_live_clients.common import replaced_file
from abc2midi_live_clients.common.regular_file import NotRegular
from abc2midi_live_clients.page import saving

OLD, NEW = b"old\n", b"new\n"


class Saving(trial.Folder):
    def setUp(self) -> None:
        super().setUp()
        self.path = str(self.files / "book.abc")
        self.write(OLD)

    def write(self, data: bytes) -> None:
        with open(self.path, "wb") as file:
            file.write(data)

    def save(self, expected: Optional[bytes] = OLD) -> None:
        saving.save_book(self.path, NEW, saving.digest_of(expected))

    def assert_is(self, data: bytes) -> None:
        """The book has these bytes, and nothing else is in its folder."""
        self.assertEqual(trial.files_in(self.files), {os.path.basename(self.path): data})

    def test_saves(self) -> None:
        os.chmod(self.path, 0o640)
        self.save()
        self.assert_is(NEW)
        self.assertEqual(stat.S_IMODE(os.stat(self.path).st_mode), 0o640)
        os.unlink(self.path)
        self.save(None)
        self.assert_is(NEW)
        self.assertEqual(stat.S_IMODE(os.stat(self.path).st_mode), 0o666 & ~saving.UMASK)

    def test_a_book_that_changed(self) -> None:
        with self.assertRaises(saving.BookChanged) as raised:
            self.save(b"other")
        self.assertEqual(raised.exception.present, saving.digest(OLD))
        with self.assertRaises(saving.BookChanged):
            self.save(None)
        self.assert_is(OLD)

    def test_a_book_that_changes_while_it_is_saved(self) -> None:
        """Another writer that comes at any time before the replacement is seen, whether it writes the file or replaces it."""
        for write in (self.write, self.replace):
            for step in ("refuse_loss", "compare", "write_beside", "keep_owner"):
                self.write(OLD)
                with self.subTest(step=step), self.meanwhile(step, lambda: write(b"other")):
                    with self.assertRaises(saving.BookChanged) as raised:
                        self.save()
                    self.assertEqual(raised.exception.present, saving.digest(b"other"))
                    self.assert_is(b"other")
        os.unlink(self.path)
        with self.meanwhile("write_beside", lambda: self.write(b"other")), self.assertRaises(saving.BookChanged):
            self.save(None)
        self.assert_is(b"other")

    def test_a_book_that_changes_at_the_last_moment(self) -> None:
        """Between the last look and the replacement."""
        writes: list[Callable[[bytes], None]] = [self.write, self.replace, lambda _: os.unlink(self.path)]
        for write in writes:
            self.write(OLD)
            with self.meanwhile("compare", lambda: write(b"other"), 2), self.assertRaises(saving.BookChanged):
                self.save()
            self.assertIn(trial.files_in(self.files), ({"book.abc": b"other"}, {}))
        self.write(OLD)
        with self.meanwhile("compare", lambda: self.replace(b"other"), 2), self.meanwhile("exchange", lambda: self.replace(b"third")):
            with self.assertRaises(saving.BookChanged):
                self.save()
        self.assert_is(b"third")
        self.write(OLD)
        with mock.patch.object(replaced_file, "LIBRARY", None):
            self.save()
        self.assert_is(NEW)

    def test_a_replaced_file_that_cannot_be_read(self) -> None:
        """It comes back, whatever the reason is: another program's text may be in it."""
        read = saving.read_book
        for error in (OSError(5, "Input/output error"), NotRegular("book.abc"), MemoryError(), KeyboardInterrupt()):

            def read_or_fail(path: str, error: BaseException = error) -> Optional[bytes]:
                if path != self.path:
                    raise error
                return read(path)

            self.write(OLD)
            with mock.patch.object(saving, "read_book", read_or_fail), self.subTest(error=error):
                with self.meanwhile("compare", lambda: self.replace(b"other"), 2), self.assertRaises(type(error)):
                    self.save()
            self.assert_is(b"other")

    def test_a_replaced_file_that_is_none(self) -> None:
        """A link that another program puts there at the last moment comes back, too."""

        def link() -> None:
            os.unlink(self.path)
            os.symlink("elsewhere", self.path)

        with self.meanwhile("compare", link, 2), self.assertRaises(NotRegular):
            self.save()
        self.assertEqual((os.readlink(self.path), os.listdir(self.files)), ("elsewhere", ["book.abc"]))

    def replace(self, data: bytes) -> None:
        """Writes the book as editors do that rename a new file."""
        new = self.folder / "new"
        new.write_bytes(data)
        os.replace(new, self.path)

    def meanwhile(self, step: str, act: Callable[[], object], time: int = 1) -> "mock._patch[Callable[..., Any]]":
        """Lets something happen once, after a step of saving is done for the first time, or for another."""
        return mock.patch.object(saving, step, after(getattr(saving, step), act, time))

    def test_a_file_that_is_read_only(self) -> None:
        os.chmod(self.path, 0o444)
        with self.assertRaisesRegex(saving.NotSaved, "read-only"):
            self.save()
        self.assert_is(OLD)

    def test_a_file_of_two_names(self) -> None:
        os.link(self.path, self.folder / "other name")
        with self.assertRaisesRegex(saving.NotSaved, "2 names"):
            self.save()
        self.assert_is(OLD)
        self.assertEqual(os.stat(self.path).st_nlink, 2)

    def test_no_regular_file(self) -> None:
        """Nothing is opened that could wait or be replaced: a pipe, a device, a folder, a link."""
        os.unlink(self.path)
        Act = Callable[[str], None]
        kinds: list[tuple[Act, Act]] = [(os.mkfifo, os.unlink), (os.mkdir, os.rmdir), (lambda path: os.symlink(os.devnull, path), os.unlink)]
        for make, remove in kinds:
            make(self.path)
            before = os.lstat(self.path)
            acts: list[Callable[[], object]] = [self.save, lambda: self.save(None), lambda: saving.read_book(self.path)]
            for act in acts:
                with self.assertRaises(NotRegular):
                    act()
            self.assertEqual(os.lstat(self.path), before)
            remove(self.path)
        with self.assertRaises(NotRegular):
            saving.read_book(os.devnull)

    def test_a_long_name(self) -> None:
        os.unlink(self.path)
        self.path = str(self.files / ("n" * 251 + ".abc"))
        self.write(OLD)
        self.save()
        self.assert_is(NEW)

    def test_extended_attributes(self) -> None:
        try:
            os.setxattr(self.path, "user.colour", b"red")
        except OSError as error:
            self.skipTest(f"no extended attributes here: {error.strerror}")
        self.save()
        self.assertEqual(os.getxattr(self.path, "user.colour"), b"red")
        with mock.patch("os.setxattr", side_effect=PermissionError), self.assertRaisesRegex(saving.NotSaved, "extended attributes"):
            self.save(NEW)
        self.assert_is(NEW)

    def test_attributes_that_only_the_new_file_has(self) -> None:
        """A folder may give them to new files, as access lists. The book had none."""
        new = self.folder / "new"
        new.write_bytes(b"")
        try:
            os.setxattr(new, "user.colour", b"red")
        except OSError as error:
            self.skipTest(f"no extended attributes here: {error.strerror}")
        with open(self.path, "rb") as old, open(new, "r+b") as file:
            saving.keep_attributes(old.fileno(), file.fileno())
        self.assertEqual(os.listxattr(new), os.listxattr(self.path))

    def test_the_owner(self) -> None:
        """It stays, or nothing is saved."""
        if os.getuid() != 0:
            self.skipTest("only the superuser gives files away")
        os.chown(self.path, 1234, 2345)
        os.chmod(self.path, 0o4755)
        self.save()
        found = os.stat(self.path)
        self.assertEqual((found.st_uid, found.st_gid, stat.S_IMODE(found.st_mode)), (1234, 2345, 0o4755))
        with mock.patch("os.fchown", side_effect=PermissionError), self.assertRaisesRegex(saving.NotSaved, "another user"):
            self.save(NEW)
        self.assert_is(NEW)

    def test_no_room(self) -> None:
        for call in ("fsync", "fchmod"):
            failing = mock.patch(f"os.{call}", side_effect=OSError(28, "No space left on device"))
            with self.subTest(call=call), failing, self.assertRaisesRegex(OSError, "No space"):
                self.save()
            self.assert_is(OLD)


def after(step: Callable[..., Any], act: Callable[[], object], time: int) -> Callable[..., Any]:
    """A step of saving, after which something happens once."""
    times = 0

    def stepped(*words: Any) -> Any:
        nonlocal times
        result = step(*words)
        times += 1
        if times == time:
            act()
        return result

    return stepped
