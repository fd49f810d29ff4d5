"""Keeps the MIDI files of a tune book current while any editor saves it."""

import argparse
import errno
import io
import os
import shutil
import signal
import sys
import threading
from typing import Any

from abc2midi_live import ProgramMissing

from ..common.book_file import BookFile
from ..common.faults import sentences
from ..common.options import add_common_options, find_program
from ..common.player import Player, command
from ..common.session_book import LiveBook
from ..common.signals import when_told_to_end
from ..common.terminal_text import printable
from ..hints import Finder
from .book_events import BookEvents
from .midi_folder import FolderTaken, MidiFolder
from .reports import JsonReport, Report, TextReport
from .watched_book import FAILED, WatchedBook, prepare

SECONDS_BETWEEN_LOOKS = 0.5
NO_PROGRAM = 127  # an exit status
REMEDIES = {errno.ENOENT: "; make the folder above it first", errno.ENOTDIR: "; name another folder by --dir"}


def arguments() -> argparse.Namespace:
    """The arguments of the command line."""
    parser = argparse.ArgumentParser(
        description=__doc__,
        epilog="Ctrl-C ends the watcher. Exit status: 0 at Ctrl-C, or after --once if the book has no fault; "
        "3 after --once if it has faults; 1 if something failed; 2 for wrong arguments; 127 if there is no program.",
    )
    parser.add_argument("book", metavar="BOOK", help="the tune book; it is never changed")
    parser.add_argument("--dir", required=True, help="the folder for the MIDI files; it is made if it is missing")
    parser.add_argument("--once", action="store_true", help="build the files once and end")
    parser.add_argument("--all", action="store_true", help="print all faults and hints after each save, not only the new ones")
    parser.add_argument("--no-hints", action="store_true", help="print no hints")
    parser.add_argument("--json", action="store_true", help="print one JSON object a line, for other programs")
    parser.add_argument("--clean", action="store_true", help="at the start, remove files N.mid that no tune of the book has")
    play = "play a changed file after each save, that of the greatest number, as --play timidity"
    parser.add_argument("--play", metavar="COMMAND", type=command, help=play)
    add_common_options(parser)
    words = parser.parse_args()
    if words.once and words.play:
        parser.error("--once plays nothing: leave out --once or --play")
    return words


interrupted = threading.Event()


def interrupt(*_: Any) -> None:
    """Ends the watcher. Python drops the exception if the signal comes while it lets go of a value, so the event stays."""
    interrupted.set()
    raise KeyboardInterrupt


def tell(line: str) -> None:
    """Prints a line at once. An OSError names standard output."""
    try:
        print(line, flush=True)
    except OSError as error:
        raise OSError(error.errno, error.strerror, "standard output") from error


def drop_output() -> None:
    """Lets Python drop what it could not print, and end without another try."""
    os.dup2(os.open(os.devnull, os.O_WRONLY), sys.stdout.fileno())


def why_failed(error: OSError, folder: str) -> str:
    """The file that failed, if there is one, the reason, and what to do if it is the folder of the MIDI files."""
    name = f"{printable(str(error.filename))}: " if error.filename is not None else ""
    remedy = REMEDIES.get(error.errno or 0, "") if error.filename == folder else ""
    return f"{name}{error.strerror}{remedy}"


def start_book(words: argparse.Namespace, folder: MidiFolder, report: Report) -> WatchedBook:
    """Starts the program of the book that the command line names."""
    player = Player(words.play) if words.play else None
    if player and not shutil.which(player.words[0]):
        report.message(f"{player.words[0]}: no such player; install it, or name another one by --play; each save tries it again")

    def start() -> LiveBook:
        return LiveBook(words.program or find_program(), words.dir)

    finder = None if words.no_hints else Finder()
    return WatchedBook(BookFile(words.book), folder, start, report, player, finder, words.clean, not words.once)


def watch(words: argparse.Namespace, folder: MidiFolder, report: Report) -> int:
    """Watches the book until Ctrl-C, or builds it once; the exit status."""
    book = start_book(words, folder, report)
    events = BookEvents(words.book)
    try:
        while not interrupted.is_set():
            book.update()
            if words.once and book.status is not None:
                return book.status
            events.wait(0 if book.owes_hints else SECONDS_BETWEEN_LOOKS)
        raise KeyboardInterrupt
    finally:
        book.close()


def main() -> int:
    """Runs the watcher; the exit status."""
    words = arguments()
    when_told_to_end(interrupt)
    if signal.getsignal(signal.SIGINT) is not signal.SIG_IGN:
        signal.signal(signal.SIGINT, interrupt)
    if isinstance(sys.stdout, io.TextIOWrapper):
        sys.stdout.reconfigure(errors="replace")
    report: Report = TextReport(words.book, sentences(), words.all, tell)
    if words.json:
        report = JsonReport(words.book, sentences(), tell)
    folder = MidiFolder(words.dir)
    try:
        prepare(folder, report)
        return watch(words, folder, report)
    except KeyboardInterrupt:
        return FAILED if words.once else 0
    except FolderTaken as error:
        print(f"watch: {printable(words.dir)}: {error}", file=sys.stderr)
        return FAILED
    except ProgramMissing as error:
        print(f"watch: {error}", file=sys.stderr)
        return NO_PROGRAM
    except BrokenPipeError:  # nobody reads the lines
        drop_output()
        return FAILED
    except OSError as error:
        drop_output()
        print(f"watch: {why_failed(error, words.dir)}", file=sys.stderr)
        return FAILED
    finally:
        folder.release()
