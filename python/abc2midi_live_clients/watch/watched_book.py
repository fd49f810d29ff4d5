"""A tune book that is watched, and its files."""

import os
import time
from collections.abc import Callable
from contextlib import suppress
from typing import Optional

from abc2midi_live import Built, Fault, ProgramEnded, ProgramMissing
from abc2midi_live.lines import lines_of_book

from ..common.book_file import BookFile
from ..common.player import Player
from ..common.session_book import LiveBook, Tune, files_of
from ..hints import MOST_AT_ONCE, Finder, Hint
from .known_remarks import KnownRemarks
from .midi_folder import MidiFolder
from .reports import Change, File, Report

FAILED, HAS_FAULTS = 1, 3  # exit statuses
NOTHING_BUILT = Built([], [], None)


class WatchedBook:
    """A tune book on disk, and the program that keeps its files current."""

    def __init__(
        self,
        file: BookFile,
        folder: MidiFolder,
        start: Callable[[], LiveBook],
        report: Report,
        player: Optional[Player] = None,
        finder: Optional[Finder] = None,
        clean: bool = False,
        goes_on: bool = True,
    ):
        self.file = file
        self.folder = folder
        self.start = start
        self.report = report
        self.player = player
        self.finder = finder
        self.clean = clean
        self.goes_on = goes_on  # after the first build
        self.book = start()
        self.is_down = False  # the program, which the next save starts again
        self.is_away = False  # the book could not be read since the last build
        self.pending: Optional[bytes] = None  # a save that the files do not follow yet
        self.built: Optional[bytes] = None  # the save that they follow
        self.files: dict[int, Tune] = {}
        self.known_faults: KnownRemarks[Fault] = KnownRemarks()
        self.known_hints: KnownRemarks[Hint] = KnownRemarks()
        self.looked_at: list[bytes] = []  # for hints
        self.owes_hints = False  # they are not all known yet
        self.is_first = False  # the book was opened with this text
        self.trouble: Optional[str] = None  # why the last look did nothing
        self.status: Optional[int] = None  # the exit status of a watcher that builds once

    def close(self) -> None:
        """Ends the player and the program."""
        if self.player:
            self.player.stop()
        with suppress(OSError, ValueError):
            self.book.close()

    def update(self) -> None:
        """Looks at the book once, and brings the files up to date if it was saved."""
        since = time.perf_counter()
        self.hear_player()
        try:
            data = self.file.saved()
        except OSError as error:
            self.is_away = True
            self.wait(f"{self.file.path}: {error.strerror}", "waiting for it")
            return
        if data is not None:
            self.pending = data
        if self.pending is None:
            self.trouble = None
            if self.owes_hints:
                self.look_on()
        elif self.follow(self.pending, since):
            self.pending = None

    def wait(self, trouble: str, until: str) -> None:
        """Reports, once, why nothing can be done."""
        self.status = FAILED
        if self.trouble != trouble:
            self.report.message(f"{trouble}; {until}" if self.goes_on else trouble)
        self.trouble = trouble

    def follow(self, data: bytes, since: float) -> bool:
        """Brings the files up to date with a save, and starts the program again if it ended. Returns False if there is no
        program to start: then the next look tries again."""
        why = ""
        for is_first in (True, False):
            try:
                if self.is_down:
                    self.start_again()
                self.bring(data, since)
                self.trouble = None
                return True
            except ProgramEnded as ended:
                self.is_down, why = True, str(ended)
                if is_first:
                    self.report.message(f"{why}; restarting it")
            except ProgramMissing as missing:
                self.wait(str(missing), "waiting for it")
                return False
        self.wait(f"{why}, again", "the next save tries again")
        return True

    def start_again(self) -> None:
        """Starts the program with the text that the files follow. So the next build removes the files that go."""
        with suppress(OSError, ValueError):
            self.book.close()
        self.book = self.start()
        self.book.replace(0, 0, lines_of_book(self.built or b""))
        self.book.build()
        self.is_down = False

    def bring(self, data: bytes, since: float) -> None:
        """Brings the files up to date with a save, and reports what that changed."""
        if not os.path.isdir(self.folder.path):  # somebody removed it
            with suppress(OSError):
                prepare(self.folder, self.report)
        self.book.replace(0, len(self.book.lines), lines_of_book(data))
        built = self.book.build()
        faults, tunes = self.book.faults(), self.book.tunes()
        files = files_of(tunes, faults)
        restored = [] if built.failed is not None else self.restore(files)
        before, is_opening, is_new = self.files, self.built is None, self.built != data
        self.files, self.built = files, data
        self.status = FAILED if built.failed is not None else HAS_FAULTS if faults else 0
        if is_new or restored or built != NOTHING_BUILT:
            milliseconds = 1000 * (time.perf_counter() - since)
            written = [File(number, files[number].title) for number in sorted({*built.written, *restored})]
            removed = [File(number, before[number].title if number in before else "") for number in built.removed]
            marked = self.known_faults.marked(faults, self.book.lines)
            hints = self.look_for_hints(tunes, faults, is_opening)
            self.report.change(Change(written, removed, built.failed, marked, hints, is_opening, milliseconds))
        elif self.is_away:
            self.report.message(f"{self.file.path}: there again, unchanged")
        self.is_away = False
        if is_opening:
            self.look_for_leftovers()
        elif self.player and built.written:
            self.play(self.player, self.book.path(built.written[-1]))

    def look_for_hints(self, tunes: list[Tune], faults: list[Fault], is_opening: bool) -> Optional[list[tuple[Hint, bool]]]:
        """The hints on the book, each with whether it is new. If many tunes changed, they are looked for later: None."""
        if not self.finder:
            return []
        self.looked_at = list(self.book.lines)
        self.finder.take(self.looked_at, tunes, faults)
        is_done = self.finder.look(MOST_AT_ONCE) if self.goes_on else self.finder.look()
        self.owes_hints, self.is_first = not is_done, is_opening
        return self.marked_hints(self.finder) if is_done else None

    def look_on(self) -> None:
        """Looks for hints for a moment, and reports them when all are known."""
        if self.finder and self.finder.look(MOST_AT_ONCE):
            self.owes_hints = False
            self.report.hints(self.marked_hints(self.finder), self.is_first)

    def marked_hints(self, finder: Finder) -> list[tuple[Hint, bool]]:
        """The hints that were found, each with whether it is new."""
        return self.known_hints.marked(finder.found(), self.looked_at)

    def restore(self, files: dict[int, Tune]) -> list[int]:
        """Writes files that somebody deleted, and returns their numbers. The program does not see that they are gone."""
        restored = []
        try:
            for number in self.folder.missing(files):
                data = self.book.midi(number)
                if data is not None:
                    self.folder.write(number, data)
                    restored.append(number)
        except OSError as error:
            self.report.message(f"{error.filename or self.folder.path}: {error.strerror}")
        return restored

    def look_for_leftovers(self) -> None:
        """Reports files of an earlier run that no tune of the book has, and removes them if that is wanted."""
        try:
            names = self.folder.leftovers(self.files)
            removes = self.clean and bool(self.files)  # a book without tunes may be the wrong one
            if removes:
                self.folder.remove(names)
        except OSError as error:
            self.report.message(f"{error.filename or self.folder.path}: {error.strerror}")
            return
        if names:
            self.report.leftovers(names, removes)
        if names and self.clean and not removes:
            self.report.message("the book has no tune, so --clean removes nothing")

    def play(self, player: Player, path: str) -> None:
        """Plays a file."""
        try:
            player.play(path)
        except OSError as error:
            self.report.message(f"{player.words[0]}: {error.strerror}")

    def hear_player(self) -> None:
        """Reports a player that failed."""
        failure = self.player.failure() if self.player else None
        if self.player and failure:
            self.report.message(f"{self.player.words[0]} {failure}")


def prepare(folder: MidiFolder, report: Report) -> None:
    """Makes the folder if only the last part of its path is missing, and locks it. Raises FolderTaken, and OSError if
    there is no folder then."""
    if folder.make():
        report.message(f"{folder.path}: folder created")
    try:
        folder.take()
    except OSError as error:
        report.message(f"{folder.path}: {error.strerror}; so a second watcher of this folder is not noticed")
