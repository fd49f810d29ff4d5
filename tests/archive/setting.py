"""What the tests of the archive share: the program, the library, a folder, and runs of the command."""

from __future__ import annotations

import os
import random
import re
import signal
import sqlite3
import subprocess
import sys
import tempfile
import unittest
from collections.abc import Iterator, Sequence
from contextlib import suppress
from functools import cache
from pathlib import Path
from typing import Any, NamedTuple, Optional

TOP = Path(__file__).resolve().parent.parent.parent
COMMAND = TOP / "clients/archive"
SECONDS = 1800  # that a run may take: it ends those that hang, and a machine with much other work takes ten times as long as a quiet one
sys.path[:0] = [str(TOP / "python"), str(TOP / "tests/clients/shared")]
import trial  # noqa: E402

program: Optional[str] = None
library: Optional[str] = None
books, seed = 1_000, 1
kills, archives = 3, 300  # how often workers and runs are killed, and how many archives are broken by chance


class Ran(NamedTuple):
    """How a run ended."""

    status: int
    out: str
    err: str


@cache
def random_book(number: int) -> bytes:
    """A random book: tunes, some of one number, and perhaps a file header and free text; the same one for the same number."""
    chance = random.Random(f"{seed}/{number}")
    opening = [trial.random_line(chance) for _ in range(chance.choice([0, 0, 2, 6]))]
    tunes = [line for _ in range(chance.randrange(1, 6)) for line in trial.random_tune(chance, chance.randrange(1, 8))]
    return "\n".join([*opening, *tunes, ""]).encode(chance.choice(["utf-8", "latin-1"]), "replace")


@cache
def fresh(book: bytes) -> trial.Fresh:
    """What the program makes of a book. Many tests have the same ones."""
    return trial.fresh(book, trial.oracle)


def tree(folder: Path) -> dict[str, bytes]:
    """The MIDI files, and those that are not complete, below a folder: their bytes by their paths there."""
    paths = [path for path in sorted(folder.rglob("*")) if path.is_file() and ".mid" in path.name]
    return {str(path.relative_to(folder)): path.read_bytes() for path in paths}


def stamp(path: Path) -> tuple[int, int]:
    """What changes when a file is written or replaced."""
    found = path.stat()
    return found.st_ino, found.st_mtime_ns


def without_progress(err: bytes) -> bytes:
    """Standard error of a run without the lines on how far it is, which a slow run prints."""
    return re.sub(rb"(?m)^\d+ of \d+ books, .*\n", b"", err)


class Room(unittest.TestCase):
    """Tests that have a folder of their own, which goes with them."""

    maxDiff = 2000

    def setUp(self) -> None:
        kept = tempfile.TemporaryDirectory()
        self.addCleanup(kept.cleanup)
        self.folder = Path(kept.name).resolve()
        self.to = self.folder / "to"

    def write(self, name: str, data: bytes) -> Path:
        """Writes a file into the folder."""
        path = self.folder / name
        path.parent.mkdir(parents=True, exist_ok=True)
        path.write_bytes(data)
        return path


class Runs(Room):
    """Tests that run the command. A subclass says what compiles."""

    def backend(self) -> list[str]:
        """The arguments that name what compiles."""
        raise NotImplementedError

    def words(self, *words: Any) -> list[str]:
        """The words of a command."""
        return [sys.executable, "-B", str(COMMAND), *map(str, words), "--to", str(self.to), *self.backend()]

    def run_archive(self, *words: Any, status: Optional[int] = 0, stdin: bytes = b"") -> Ran:
        """Runs the command, and looks at its exit status."""
        asked = subprocess.run(self.words(*words), input=stdin, capture_output=True, timeout=SECONDS)
        ran = Ran(asked.returncode, asked.stdout.decode("utf-8", "replace"), asked.stderr.decode("utf-8", "replace"))
        if status is not None:
            self.assertEqual(ran.status, status, ran)
        self.assertNotIn("Traceback", ran.err)
        return ran

    def start(self, *words: Any) -> "subprocess.Popen[bytes]":
        """Starts the command in a session of its own."""
        process = subprocess.Popen(
            self.words(*words), stdin=subprocess.DEVNULL, stdout=subprocess.PIPE, stderr=subprocess.PIPE, start_new_session=True
        )
        self.addCleanup(process.communicate)
        self.addCleanup(end_group, process)
        return process

    def rows(self, question: str, *values: Any) -> list[Any]:
        """The rows of the catalogue that answer a question."""
        database = sqlite3.connect(self.to / "catalogue.sqlite")
        try:
            return database.execute(question, values).fetchall()
        finally:
            database.close()

    def assert_as_fresh(self, books: dict[str, bytes]) -> None:
        """Compares the archive with what the program makes of each of its books, by their names: files and faults."""
        wanted_files, wanted_faults = {}, []
        for name, book in books.items():
            made = fresh(book)
            wanted_files.update({f"{name}/{file}": data for file, data in made.files.items()})
            wanted_faults += [(name, *fault) for fault in made.faults]
        self.assertEqual(tree(self.to), wanted_files)
        question = "SELECT books.name, line, column, remarks.name FROM remarks JOIN books ON books.id = book WHERE kind = 'fault'"
        self.assertEqual(sorted(self.rows(question)), sorted(wanted_faults))


def end_group(process: "subprocess.Popen[bytes]") -> None:
    """Ends a process that is the first of its group, and the others of the group."""
    try:
        os.killpg(process.pid, signal.SIGKILL)
    except ProcessLookupError:
        pass


def children_of(process: int) -> Iterator[int]:
    """The processes that the threads of a process started and that still run."""
    for file in Path(f"/proc/{process}/task").glob("*/children"):
        with suppress(OSError):
            for child in file.read_text("ascii").split():
                if Path(f"/proc/{child}/stat").read_text("latin-1").rpartition(")")[2].split()[0] != "Z":
                    yield int(child)


def workers_of(process: int) -> Sequence[int]:
    """The workers of a run."""
    found = []
    for child in children_of(process):
        try:
            words = Path(f"/proc/{child}/cmdline").read_bytes()
        except OSError:
            continue
        if b"archive.worker_main" in words:
            found.append(child)
    return found
