"""How soon the watcher sees a save: by events of Linux if Debian's python3-inotify is installed, and at its next look if not."""

import argparse
import importlib.util
import os
import shutil
import sys
import threading
import time
import unittest
from collections.abc import Callable
from contextlib import suppress
from unittest import mock

import trial
from abc2midi_live_clients.watch import command
from abc2midi_live_clients.watch.book_events import BookEvents, Place, places_of
from abc2midi_live_clients.watch.midi_folder import MidiFolder
from abc2midi_live_clients.watch.reports import JsonReport

LONG = 60.0  # seconds: longer than a busy machine takes for an event
needs_inotify = unittest.skipUnless(importlib.util.find_spec("inotify"), "python3-inotify is not installed")


class Places(trial.Folder):
    """Where a book is saved."""

    def test_links_are_followed(self) -> None:
        away = self.folder / "away"
        away.mkdir()
        (self.folder / "one.abc").symlink_to("two.abc")
        (self.folder / "two.abc").symlink_to("away/book.abc")
        names = [(self.folder, "one.abc"), (self.folder, "two.abc"), (away, "book.abc")]
        self.assertEqual(places_of(str(self.folder / "one.abc")), [Place(str(folder), name) for folder, name in names])

    def test_links_in_a_circle_and_a_book_that_is_missing(self) -> None:
        (self.folder / "one.abc").symlink_to("two.abc")
        (self.folder / "two.abc").symlink_to("one.abc")
        names = ["one.abc", "two.abc"]
        self.assertEqual(places_of(str(self.folder / "one.abc")), [Place(str(self.folder), name) for name in names])
        self.assertEqual(places_of(str(self.folder / "none.abc")), [Place(str(self.folder), "none.abc")])


@needs_inotify
class Events(trial.Folder):
    """A save ends the wait for it."""

    def setUp(self) -> None:
        super().setUp()
        self.inside = self.folder / "books"
        self.inside.mkdir()
        self.path = self.inside / "book.abc"
        self.path.write_bytes(b"X:1\n")

    def waits(self, events: BookEvents, save: Callable[[], object], most: float = LONG) -> float:
        """How long a wait is during which somebody saves."""
        saving = threading.Timer(0.3, save)
        saving.start()
        since = time.monotonic()
        events.wait(most)
        took = time.monotonic() - since
        saving.join()
        return took

    def rename_to(self, path: str) -> None:
        """Saves as editors do that write another file first."""
        (self.inside / "new").write_bytes(b"X:2\n")
        os.replace(self.inside / "new", path)

    def test_a_file_that_is_written_or_renamed(self) -> None:
        events = BookEvents(str(self.path))
        self.assertLess(self.waits(events, lambda: self.path.write_bytes(b"X:2\n")), LONG / 2)
        self.assertLess(self.waits(events, lambda: self.rename_to(str(self.path))), LONG / 2)
        self.assertLess(self.waits(events, lambda: self.path.write_bytes(b"X:3\n")), LONG / 2)

    def test_other_files_of_the_folder(self) -> None:
        """Their names may be of any bytes."""
        events = BookEvents(str(self.path))
        self.assertGreaterEqual(self.waits(events, lambda: (self.inside / "other").write_bytes(b""), 2), 1.9)
        self.waits(events, lambda: open(os.fsencode(self.inside) + b"/\xff", "wb").close(), 2)
        self.assertLess(self.waits(events, lambda: self.path.write_bytes(b"X:3\n")), LONG / 2)

    def test_a_link_to_a_book_elsewhere(self) -> None:
        link = self.folder / "link.abc"
        link.symlink_to("books/book.abc")
        events = BookEvents(str(link))
        self.assertLess(self.waits(events, lambda: self.rename_to(str(self.path))), LONG / 2)
        self.assertLess(self.waits(events, lambda: self.rename_to(str(link))), LONG / 2)

    def test_a_folder_that_vanishes_and_comes_back(self) -> None:
        events = BookEvents(str(self.path))
        shutil.rmtree(self.inside)
        since = time.monotonic()
        events.wait(0.5)
        events.wait(0.5)
        self.assertGreaterEqual(time.monotonic() - since, 0.5)
        self.inside.mkdir()
        events.wait(LONG)  # it returns at once: the folder is new
        self.assertLess(self.waits(events, lambda: self.path.write_bytes(b"X:2\n")), LONG / 2)
        self.assertLess(time.monotonic() - since, LONG)

    def test_another_folder_of_the_same_name(self) -> None:
        events = BookEvents(str(self.path))
        self.inside.rename(self.folder / "old")
        self.inside.mkdir()
        events.wait(LONG)
        self.assertLess(self.waits(events, lambda: self.path.write_bytes(b"X:2\n")), LONG / 2)


class NoEvents(trial.Folder):
    """Without the module a wait is a pause."""

    def test_a_pause(self) -> None:
        path = self.folder / "book.abc"
        with mock.patch.dict(sys.modules, {"inotify": None, "inotify.adapters": None}):
            events = BookEvents(str(path))
        since = time.monotonic()
        path.write_bytes(b"X:1\n")
        events.wait(0.2)
        self.assertGreaterEqual(time.monotonic() - since, 0.2)

    def test_a_module_that_fails(self) -> None:
        broken = mock.Mock()
        broken.Inotify.side_effect = ValueError("too many")
        with mock.patch.dict(sys.modules, {"inotify": mock.Mock(), "inotify.adapters": broken}):
            self.assertIsNone(BookEvents(str(self.folder / "book.abc")).inotify)


@needs_inotify
class Watched(trial.Folder):
    """The watcher stores the file of a save before its next look."""

    def test_a_save(self) -> None:
        path = self.folder / "book.abc"
        path.write_bytes(b"X:1\nK:C\nC\n")
        words = argparse.Namespace(book=str(path), dir=str(self.files), program=trial.program, play=None, no_hints=True, clean=False, once=False)
        self.addCleanup(command.interrupted.clear)
        with mock.patch.object(command, "SECONDS_BETWEEN_LOOKS", LONG):
            watching = threading.Thread(target=self.watch, args=(words,))
            watching.start()
            self.wait_for_file("1.mid")
            path.write_bytes(b"X:1\nK:C\nC\n\nX:2\nK:C\nC\n")
            self.wait_for_file("2.mid")
            command.interrupted.set()
            path.write_bytes(b"X:1\nK:C\nC\n")
            watching.join(LONG / 2)
        self.assertFalse(watching.is_alive())

    def watch(self, words: argparse.Namespace) -> None:
        with suppress(KeyboardInterrupt):
            command.watch(words, MidiFolder(words.dir), JsonReport(words.book, {}, lambda _: None))

    def wait_for_file(self, name: str) -> None:
        until = time.monotonic() + LONG / 2
        while not (self.files / name).exists():
            self.assertLess(time.monotonic(), until)
            time.sleep(0.01)
