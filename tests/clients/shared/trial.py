"""What the tests of the clients share: the program that is tried, what a fresh run of it gives, and random tunes."""

import compileall
import os
import random
import shutil
import signal
import subprocess
import sys
import tempfile
import threading
import unittest
from collections.abc import Iterator
from contextlib import contextmanager
from pathlib import Path
from typing import Any, NamedTuple, Optional

TOP = Path(__file__).resolve().parents[3]
CLIENTS = TOP / "clients"  # the commands
PACKAGES = TOP / "python"
SECONDS = 300  # that a process may take, on a slow machine too
sys.path[:0] = [str(PACKAGES)]

program = ""
clients = CLIENTS  # the folder of the commands that the tests start
library = str(TOP / "out/c_library/lib/libabc2midi_live.so.1")  # that the page and the language server run over
oracle: list[str] = []  # the command of the program whose answers are expected
saves, tunes, changes, seed = 25, 20, 60, 1


@contextmanager
def home() -> Iterator[Path]:
    """A home for the clients and the browser, so that the tests leave nothing in the user's."""
    with tempfile.TemporaryDirectory() as folder:
        before = dict(os.environ)
        for name in [name for name in before if name.startswith("XDG_")]:
            del os.environ[name]
        os.environ["HOME"] = folder
        yield Path(folder)
        os.environ.update(before)


def installed_clients(folder: Path) -> Path:
    """Copies the clients to a folder as an installation has them, with compiled modules, which tests import from then on, and links to
    the library and the documents. Returns the folder of the commands. In a checkout each process of a client compiles its modules anew."""
    commands, packages = folder / "bin", folder / "share/abc2midi_live"
    shutil.copytree(CLIENTS, commands)
    shutil.copytree(PACKAGES, packages)
    shutil.copytree(TOP / "page", packages / "abc2midi_live_clients/page_files", ignore=shutil.ignore_patterns("static"))
    version = subprocess.run([TOP / "scripts/build/version"], capture_output=True, text=True, check=True).stdout
    (packages / "version").write_text(version)
    compileall.compile_dir(packages, quiet=1)
    (folder / "lib").mkdir()
    (folder / "lib/libabc2midi_live.so.1").symlink_to(library)
    (folder / "share/doc/abc2midi_live").mkdir(parents=True)
    (folder / "share/doc/abc2midi_live/docs").symlink_to(TOP / "docs")
    sys.path[sys.path.index(str(PACKAGES))] = str(packages)
    return commands


class Fresh(NamedTuple):
    """What a program makes of a book from nothing: its files by name, and (line, column, name) of each fault that the clients
    show. Of `BadByte` at each byte of a character they show the first."""

    files: dict[str, bytes]
    faults: list[tuple[int, int, str]]


def fresh(book: bytes, command: Optional[list[str]] = None) -> Fresh:
    """What a program of its own makes of a book."""
    with tempfile.TemporaryDirectory() as directory:
        path = Path(directory, "book")
        path.write_bytes(book)
        folder = Path(directory, "files")
        folder.mkdir()
        words = [*(command or oracle), "--dir", str(folder), str(path)]
        asked = subprocess.run(words, input=b"build\nfaults\n", capture_output=True, check=True)
        answers = asked.stdout.decode().splitlines()
        faults = [fault_of(row) for row in answers[answers.index("end") + 1 : -1]]
        lines = book.removeprefix(b"\xef\xbb\xbf").split(b"\n")
        shown = [fault for fault in faults if fault[2] != "BadByte" or begins_a_character(lines[fault[0] - 1], fault[1])]
        return Fresh(files_in(folder), shown)


def fault_of(row: str) -> tuple[int, int, str]:
    """The fault of a row as `3:5 BadByte`: its line, its column and its name."""
    place, name = row.split()
    line, column = place.split(":")
    return int(line), int(column), name


def begins_a_character(line: bytes, column: int) -> bool:
    """Whether a character begins at a column, which counts bytes from 1; a byte that is no text is a character."""
    at = 1
    for character in line.decode("utf-8", "surrogateescape"):
        if at >= column:
            break
        at += len(character.encode("utf-8", "surrogateescape"))
    return at == column


def files_in(folder: Path) -> dict[str, bytes]:
    """The files of a folder by name."""
    return {entry.name: Path(entry.path).read_bytes() for entry in os.scandir(folder)}


def hear_of_the_terminal(test: unittest.TestCase) -> None:
    """Lets the processes that a test starts hear when their terminal is closed, also if this one was started by `nohup`."""
    before = signal.signal(signal.SIGHUP, signal.SIG_DFL)
    test.addCleanup(signal.signal, signal.SIGHUP, before)


class Folder(unittest.TestCase):
    """Tests that have a folder of their own, which goes with them."""

    maxDiff = 2000
    seconds = SECONDS  # that a process of these tests has, beside its random changes

    def setUp(self) -> None:
        kept = tempfile.TemporaryDirectory()
        self.addCleanup(kept.cleanup)
        self.folder = Path(kept.name)
        self.files = self.folder / "files"
        self.files.mkdir()

    def write_starter(self) -> None:
        """Writes a script that starts the program, and leaves the number of its process in `pid`."""
        starter = self.folder / "program"
        starter.write_text(f'#!/bin/sh\necho $$ >"{self.folder}/pid"\nexec "{program}" "$@"\n')
        starter.chmod(0o755)

    def limit(self, process: Any) -> None:
        """Ends a process with its test, and when it takes too long: then nothing more is read of it."""
        limit = threading.Timer(self.seconds + 3 * changes, process.kill)
        limit.start()
        self.addCleanup(process.communicate)
        self.addCleanup(process.kill)
        self.addCleanup(limit.cancel)


MUSIC = ["C", "D2", "^F", "_b,", "z", "|", "|:", ":|", "[1", "[CEG]", "(3abc", ">", "-", "&", '"Am"', "é", "𝄞", "{a}", "[K:D]"]
MUSIC += ["f", "!f!", "!pp!", "!trill!"]
FIELDS = ["T:A title", "M:6/8", "M:7", "L:1/16", "Q:1/4=90", "K:D", "K:X", "V:1", "V:2", "P:A", "w:la la", "% words"]
FIELDS += ["%%MIDI program 41", "%%MIDI program 5 % words", "%%MIDI program 128", "%%MIDI program 2 41"]
FIELDS += ["%%propagate-accidentals octave", "%%propagate-accidentals not", "%%propagate-accidentals both"]
COMMANDS = ["quit", "build", "delete 1 9", "insert 1 2", "end", "hex 1"]


def random_line(chance: random.Random) -> str:
    """A line of music, a field, nothing, or what a command looks like."""
    kind = chance.random()
    if kind < 0.6:
        return " ".join(chance.choice(MUSIC) for _ in range(chance.randrange(1, 9)))
    if kind < 0.8:
        return chance.choice(FIELDS)
    return chance.choice(COMMANDS) if kind < 0.9 else ""


def random_tune(chance: random.Random, number: int) -> list[str]:
    """The lines of a tune, with a blank one after them."""
    body = [random_line(chance) or "C" for _ in range(chance.randrange(1, 8))]
    return [f"X:{number}", f"T:Tune {number} {chance.randrange(1000)}", "M:4/4", f"K:{chance.choice('CDEFGAB')}", *body, ""]
