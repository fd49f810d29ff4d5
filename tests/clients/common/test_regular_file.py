"""How the clients open books, and that no other module does it."""

import ast
import os
import socket
from collections.abc import Callable, Iterator
from pathlib import Path
from unittest import mock

import trial
from abc2midi_live_clients.common import regular_file
from abc2midi_live_clients.common.regular_file import NotRegular, open_regular

PACKAGES = [trial.TOP / "python" / name for name in ("abc2midi_live_clients", "abc2midi_live_archive")]
OPEN_NO_BOOKS = {  # modules that call `os.open`, and for what
    "common/lock_file.py": "a lock",
    "common/regular_file.py": "books",
    "common/replaced_file.py": "new files, and folders",
    "page/book_keys.py": "the keys",
    "page/score/limits.py": "places that the drawing process may see",
    "storing.py": "folders",
    "watch/command.py": "/dev/null",
    "command.py": "/dev/null",
    "disks.py": "folders",
}


def calls(name: str) -> Iterator[str]:
    """The modules that use a name such as `os.open`."""
    for package in PACKAGES:
        for path in package.rglob("*.py"):
            found = (ast.unparse(node) for node in ast.walk(ast.parse(path.read_text("utf-8"))) if isinstance(node, ast.Attribute))
            if name in found:
                yield str(path.relative_to(package))


class RegularFile(trial.Folder):
    def setUp(self) -> None:
        super().setUp()
        self.book = self.folder / "book.abc"
        self.book.write_bytes(b"X:1\n")
        self.link = self.folder / "link.abc"
        self.link.symlink_to(self.book)

    def test_a_book_and_a_link_to_one(self) -> None:
        for path, follows in ((self.book, True), (self.book, False), (self.link, True)):
            with open_regular(str(path), follows) as file:
                self.assertEqual(file.read(), b"X:1\n")
                self.assertFalse(os.get_inheritable(file.fileno()))
        with self.assertRaisesRegex(NotRegular, "^.*it is a symbolic link, and not a regular file"):
            open_regular(str(self.link), follows=False)

    def test_a_name_in_an_open_folder(self) -> None:
        folder = os.open(self.folder, os.O_RDONLY)
        self.addCleanup(os.close, folder)
        with open_regular("book.abc", folder=folder) as file:
            self.assertEqual(file.read(), b"X:1\n")
        with self.assertRaises(NotRegular):
            open_regular("link.abc", False, folder)

    def test_nothing_else_is_opened(self) -> None:
        """Opening it could wait, or have an effect."""
        with socket.socket(socket.AF_UNIX) as bound:
            bound.bind(str(self.folder / "socket"))
        os.mkfifo(self.folder / "pipe")
        for name, why in (("pipe", "it is not"), ("socket", "it is not"), (".", "it is a folder"), ("/dev/null", "it is not")):
            for follows in (True, False):
                with self.subTest(name), mock.patch("os.open", side_effect=AssertionError), self.assertRaisesRegex(NotRegular, why):
                    open_regular(str(self.folder / name), follows)

    def test_what_takes_the_name_meanwhile_is_not_read(self) -> None:
        """A pipe does not let it wait, and a link is not followed."""
        acts: list[tuple[Callable[[], object], type[OSError]]] = [(lambda: os.mkfifo(self.book), NotRegular), (lambda: self.book.symlink_to("link.abc"), OSError)]
        look = regular_file.refuse_others
        for act, error in acts:
            self.book.unlink()
            self.book.write_bytes(b"")
            looks: list[str] = []

            def then(path: str, found: os.stat_result) -> None:
                look(path, found)
                looks.append(path)
                if len(looks) == 1:
                    self.book.unlink()
                    act()

            before = len(os.listdir("/proc/self/fd"))
            with mock.patch.object(regular_file, "refuse_others", then), self.assertRaises(error):
                open_regular(str(self.book), follows=False)
            self.assertEqual(len(os.listdir("/proc/self/fd")), before)

    def test_no_other_module_opens_books(self) -> None:
        self.assertEqual(set(calls("os.open")) - set(OPEN_NO_BOOKS), set())
        self.assertEqual({name for name in calls("os.O_NOFOLLOW")} - {"common/lock_file.py", "page/book_keys.py", "storing.py"}, {"common/regular_file.py"})


class Callers(trial.Folder):
    def test_each_uses_it(self) -> None:
        """By a name that the module alone can refuse with its sentence."""
        from abc2midi_live_archive.reading import read_file
        from abc2midi_live_archive.storing import store_files
        from abc2midi_live_clients.common.book_file import BookFile
        from abc2midi_live_clients.page.book_folder import content_of
        from abc2midi_live_clients.page.saving import read_book

        os.mkfifo(self.folder / "pipe")
        pipe = str(self.folder / "pipe")
        readers: list[Callable[[], object]] = [lambda: read_file(pipe), BookFile(pipe).saved, lambda: content_of(Path(pipe)), lambda: read_book(pipe)]
        for reader in readers:
            with self.assertRaises(NotRegular):
                reader()
        os.mkfifo(self.folder / "1.mid")
        store_files(str(self.folder), {1: b"MThd"})
        self.assertEqual((self.folder / "1.mid").read_bytes(), b"MThd")
