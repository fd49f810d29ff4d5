"""What the tests of the watcher share: a watcher in this process, which looks on request, and one as a process."""

import os
import re
import signal
import subprocess
import sys
import time
from collections.abc import Callable
from pathlib import Path
from typing import Any, Optional

import trial
from abc2midi_live_clients.common.book_file import BookFile
from abc2midi_live_clients.common.faults import sentences
from abc2midi_live_clients.common.session_book import LiveBook
from abc2midi_live_clients.hints import Finder
from abc2midi_live_clients.watch.midi_folder import MidiFolder
from abc2midi_live_clients.watch.reports import TextReport
from abc2midi_live_clients.watch.watched_book import WatchedBook

TUNE = b"X:1\nT:Kesh\nK:G\nGABc\n"
OTHER = b"\nX:2\nK:C\nCDE\n"


class Looks(trial.Folder):
    """A watcher that looks on request."""

    in_full = clean = False
    finder: Optional[type[Finder]] = None  # what makes one that finds hints

    def setUp(self) -> None:
        super().setUp()
        self.path = self.folder / "book.abc"
        self.told: list[str] = []
        self.seconds_now = 0.0
        self.start_watch()

    def start_watch(self, **more: Any) -> None:
        """Starts the watcher."""
        file = BookFile(str(self.path), pause=lambda _: None, clock=lambda: self.seconds_now)
        report = TextReport(str(self.path), sentences(), self.in_full, self.told.append)
        finder = self.finder() if self.finder else None
        self.watch = WatchedBook(file, MidiFolder(str(self.files)), self.program, report, clean=self.clean, finder=finder, **more)
        self.addCleanup(self.watch.close)

    def program(self) -> LiveBook:
        """A program that holds a book."""
        book = LiveBook(trial.program, str(self.files))
        assert book.process.stdout
        self.addCleanup(book.process.stdout.close)
        return book

    def look(self) -> list[str]:
        """What a look tells, without how long it took and without the name of the folder. Looks are half a second apart."""
        self.told.clear()
        self.seconds_now += 0.5
        self.watch.update()
        return [re.sub(r"; \d+ ms$", "", line).replace(str(self.folder), "") for line in self.told]

    def save(self, book: bytes) -> list[str]:
        """What a look tells when this was saved. The folder must then be that of a fresh run."""
        self.path.write_bytes(book)
        told = self.look()
        self.assertEqual(trial.files_in(self.files), trial.fresh(book).files)
        return told

    def kill_program(self) -> None:
        """Ends the program as the system does when memory is short."""
        self.watch.book.process.kill()
        self.watch.book.process.wait()


class Process(trial.Folder):
    """The watcher as a process of its own."""

    def setUp(self) -> None:
        super().setUp()
        self.path = self.folder / "book.abc"
        self.write_starter()

    def start(self, *words: str, files: Optional[Path] = None) -> None:
        """Starts it, with a program that tells its process. Behind a shell's `&` Ctrl-C is ignored; it is not here."""
        signal.signal(signal.SIGINT, signal.default_int_handler)
        command = [sys.executable, str(trial.clients / "watch"), str(self.path), "--dir", str(files or self.files), *words]
        self.process = subprocess.Popen(
            [*command, "--program", str(self.folder / "program")], stdout=subprocess.PIPE, stderr=subprocess.PIPE
        )
        self.limit(self.process)

    def line(self) -> str:
        """The next line that it prints."""
        assert self.process.stdout
        return self.process.stdout.readline().decode()

    def pid(self) -> int:
        """The process of its program."""
        return int((self.folder / "pid").read_text())

    def end(self) -> tuple[str, str, int]:
        """What it printed when it ended by itself: standard output, standard error, and the exit status."""
        output, errors = self.process.communicate(timeout=trial.SECONDS)
        return output.decode(), errors.decode(), self.process.returncode

    def interrupt(self, by: signal.Signals = signal.SIGINT) -> None:
        """Ends it, which prints nothing more."""
        self.process.send_signal(by)
        self.assertEqual(self.end(), ("", "", 0))

    def wait_for(self, comes: Callable[[], object]) -> None:
        """Waits till something comes about."""
        until = time.monotonic() + trial.SECONDS
        while not comes():
            self.assertLess(time.monotonic(), until)
            time.sleep(0.01)

    def assert_gone(self, process: int) -> None:
        """No such process is there."""
        with self.assertRaises(ProcessLookupError):
            os.kill(process, 0)
