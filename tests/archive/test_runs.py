"""Runs of the command over the process and over the library, cut books, failures, stops and clusters."""

from __future__ import annotations

import importlib
import importlib.util
import json
import os
import random
import shlex
import shutil
import signal
import sqlite3
import subprocess
import sys
import time
import unittest
from contextlib import closing, suppress
from pathlib import Path
from typing import Any, Optional
from unittest import mock

import books
import setting
from abc2midi_live_archive import compiling
from abc2midi_live_archive.cutting import Cut, cut_book
from abc2midi_live_archive.units import Backend, Outcome, Unit
from books import EXAMPLES, TUNE
from slow import STOPPED, Slow, wait_for


class OverTheProcess(books.Books):
    def backend(self) -> list[str]:
        return ["--program", str(setting.program)]


class OverTheLibrary(books.Books):
    def backend(self) -> list[str]:
        return ["--library", str(setting.library)]

    def test_more_faults_than_the_catalogue_has(self) -> None:
        """All are counted."""
        unit = Unit("book", "", b"X:1\nK:C\nC&&&&\n", None, Backend(library=str(setting.library)), False, None, {})
        with mock.patch.object(compiling, "MOST_REMARKS", 3):
            result = compiling.do_unit(unit)
        self.assertEqual((len(result.remarks), result.fault_count), (3, 4))

    def test_a_book_of_more_lines_than_a_session_takes(self) -> None:
        """The tunes are far apart in free text, so that the program can make their files of a shorter book."""
        free = b"\n" * 600_000
        tunes = [TUNE % (1, b"One"), TUNE % (2, b"Two") + TUNE % (1, b"Again")]
        self.run_archive(self.write("long.abc", b"M:C|\n\n" + tunes[0] + free + tunes[1] + free))
        short = setting.fresh(b"M:C|\n\n" + tunes[0] + tunes[1])
        self.assertEqual(setting.tree(self.to), {f"long/{name}": data for name, data in short.files.items()})
        self.assertEqual(self.rows("SELECT lines, parts FROM books"), [(1_200_020, 2)])
        titles = [("One", 3), ("Two", 600_009), ("Again", 600_015)]
        self.assertEqual(self.rows("SELECT title, line FROM tunes ORDER BY line"), titles)


class CutBooks(setting.Room):
    def test_a_cut_book_has_what_the_whole_one_has(self) -> None:
        """Random books, cut into parts of few lines, against the program on the whole book."""
        parts = 0

        def cut(lines: list[bytes]) -> Cut:
            found = cut_book(lines, 20)
            nonlocal parts
            parts += len(found.parts)
            return Cut(found.parts, found.too_long)

        for number in range(40):
            book = setting.random_book(number)
            unit = Unit("book", "", book, None, Backend(program=setting.program), False, None, {})
            with self.subTest(number), mock.patch.object(compiling, "cut_book", cut):
                result = compiling.do_unit(unit)
                fresh = setting.fresh(book)
                files = {f"{name}.mid": data for name, data in (result.files or {}).items()}
                faults = [(fault.line, fault.column, fault.name) for fault in result.remarks]
                self.assertEqual((result.outcome, files, sorted(faults)), (Outcome.COMPILED, fresh.files, sorted(fresh.faults)))
        self.assertGreater(parts, 60)

    def test_a_fault_of_the_file_header_counts_once(self) -> None:
        """Though each part has this header."""
        book = b"M:3/0\n\n" + TUNE % (1, b"One") + TUNE % (2, b"Two") + b"X:3\nK:C\nC&|\n"
        unit = Unit("book", "", book, None, Backend(program=setting.program), False, None, {})
        with mock.patch.object(compiling, "cut_book", lambda lines: cut_book(lines, 8)):
            result = compiling.do_unit(unit)
        self.assertEqual((result.outcome, result.parts, result.fault_count), (Outcome.COMPILED, 3, 2))
        self.assertEqual([(fault.line, fault.column, fault.name) for fault in result.remarks], [(1, 1, "BadMeter"), (17, 2, "BadByte")])


class Failures(setting.Runs):
    def backend(self) -> list[str]:
        return ["--program", str(setting.program)]

    def test_wrong_arguments(self) -> None:
        for words in ("x --jobs 0", "x --catalogue xml", "x --jobs 1 --scheduler tcp://x:1", "x --library x", ""):
            with self.subTest(words):
                self.assertIn("usage:", self.run_archive(*words.split(), status=2).err)
        self.assertFalse(self.to.exists())

    def test_there_is_nothing_that_compiles(self) -> None:
        with mock.patch.object(self, "backend", lambda: ["--program", "/nowhere/program"]):
            ran = self.run_archive(EXAMPLES[0], status=1)
        self.assertIn("/nowhere/program", ran.err)

    def test_a_second_run_in_one_folder_is_refused(self) -> None:
        gate = self.folder / "gate"
        os.mkfifo(gate)
        script = f'#!/bin/sh\nread line <{shlex.quote(str(gate))}\nexec {shlex.quote(str(setting.program))} "$@"\n'
        slow = self.write("slow", script.encode())
        slow.chmod(0o755)
        with mock.patch.object(self, "backend", lambda: ["--program", str(slow)]):
            first = self.start(EXAMPLES[0])
            wait_for(lambda: (self.to / "catalogue.sqlite").exists())
            second = self.run_archive(EXAMPLES[1], status=1)
            self.assertIn(f"another run works in this folder (process {first.pid})", second.err)
            gate.write_text("go on\n")
            self.assertEqual(first.wait(setting.SECONDS), 0)
        self.assertEqual({path.split("/")[0] for path in setting.tree(self.to)}, {EXAMPLES[0].stem})
        self.run_archive(EXAMPLES[1])

    def test_a_folder_that_cannot_be_made(self) -> None:
        self.write("to", b"")
        self.assertIn("Not a directory", self.run_archive(EXAMPLES[0], status=1).err)
        self.to.unlink()
        self.to = self.folder / "no/such"
        self.assertIn("No such file", self.run_archive(EXAMPLES[0], status=1).err)

    def test_a_book_whose_folder_is_a_file(self) -> None:
        self.run_archive(*EXAMPLES)
        shutil.rmtree(self.to / "sounds")
        self.write("to/sounds", b"")
        ran = self.run_archive(*EXAMPLES, status=1)
        self.assertIn("sounds.abc: cannot be written: Not a directory", ran.err)
        self.assertIn("1 as before; 1 with a problem", ran.out)

    def test_a_folder_that_is_read_only(self) -> None:
        self.run_archive(EXAMPLES[0])
        ran = self.run_mounted("mount -o bind,ro {to} {to}", EXAMPLES[1])
        self.assertEqual(ran.status, 1, ran)
        self.assertIn("Read-only file system", ran.err)

    def test_a_disk_that_is_full(self) -> None:
        self.to.mkdir()
        for number in range(40):
            self.write(f"in/book_{number}.abc", b"".join(TUNE % (tune, b"A tune") for tune in range(1, 9)))
        kept = self.folder / "kept"
        kept.mkdir()
        ran = self.run_mounted(f"mount -t tmpfs -o size=300k tmpfs {{to}}; trap 'cp -a {{to}}/. {kept}' EXIT", self.folder / "in")
        self.assertEqual(ran.status, 1, ran)
        self.assertRegex(ran.err, "No space left on device|disk is full")
        wanted = {path: data for path, data in self.wanted_tree().items()}
        self.assertEqual([path for path, data in setting.tree(kept).items() if wanted.get(path) != data], [])
        shutil.rmtree(self.to)
        kept.rename(self.to)
        self.run_archive(self.folder / "in")
        self.assertEqual(setting.tree(self.to), wanted)

    def test_a_catalogue_that_cannot_grow(self) -> None:
        """The run ends with a summary."""
        for number in range(10):
            self.write(f"in/book_{number}.abc", b"".join(TUNE % (tune, b"A tune") for tune in range(300)))
        limited = ["sh", "-c", 'ulimit -f 400; exec "$@"', "sh", *self.words(self.folder / "in", "--jobs", "1")]
        asked = subprocess.run(limited, capture_output=True, text=True, timeout=setting.SECONDS)
        self.assertEqual((asked.returncode, "Traceback" in asked.stderr), (1, False), asked)
        self.assertRegex(asked.stdout, r"books? compiled, .*; stopped\n$")
        self.assertRegex(asked.stderr, r"archive: .*catalogue.sqlite: .*\n$")
        self.run_archive(self.folder / "in")
        self.assertEqual(setting.tree(self.to), self.wanted_tree())

    def wanted_tree(self) -> dict[str, bytes]:
        """The files of the books in the folder `in`."""
        books = {path.stem: path.read_bytes() for path in (self.folder / "in").iterdir()}
        return {f"{name}/{file}": data for name, book in books.items() for file, data in setting.fresh(book).files.items()}

    def run_mounted(self, mounting: str, *words: Any) -> setting.Ran:
        """Runs the command where the archive's folder is another file system. The test is skipped if that cannot be made."""
        if subprocess.run(["unshare", "-rm", "mount", "-t", "tmpfs", "tmpfs", self.folder], capture_output=True).returncode:
            self.skipTest("this machine does not let a process mount file systems of its own")
        script = f"set -e; {mounting.format(to=shlex.quote(str(self.to)))}; {shlex.join(self.words(*words))}"
        asked = subprocess.run(["unshare", "-rm", "sh", "-c", script], capture_output=True, timeout=setting.SECONDS)
        ran = setting.Ran(asked.returncode, asked.stdout.decode(), asked.stderr.decode())
        self.assertNotIn("Traceback", ran.err)
        return ran


class Stops(Slow):
    """Runs that are stopped, and workers that are killed."""

    def test_ctrl_c_ends_a_run_at_once_with_a_summary(self) -> None:
        self.hold(1)
        process = self.start_and_wait("--jobs", "2")
        workers = setting.workers_of(process.pid)
        os.killpg(process.pid, signal.SIGINT)  # as a terminal does
        out, err = process.communicate(timeout=setting.SECONDS)
        self.assertEqual((process.returncode, b"Traceback" in err), (1, False), err)
        self.assertRegex(out.decode(), STOPPED, err)
        self.assertTrue(workers)
        wait_for(lambda: not any(Path(f"/proc/{worker}").exists() for worker in workers))
        self.assertEqual([path for path in setting.tree(self.to) if not path.endswith(".mid")], [])
        self.release()
        self.run_archive(self.folder / "in")
        self.assert_as_fresh(self.books)

    def test_ctrl_c_while_the_catalogue_is_written_ends_with_a_summary(self) -> None:
        """The catalogue waits for a reader, so that the signal comes in the middle of a commit."""
        self.hold(0)
        process = self.start(self.folder / "in", "--jobs", "2")
        wait_for(lambda: self.count_books() == len(self.books))  # the first commit is over
        words = [sys.executable, "-c", READER, str(self.to / "catalogue.sqlite")]
        with subprocess.Popen(words, stdin=subprocess.PIPE, stdout=subprocess.PIPE) as reader:
            self.assertEqual(reader.stdout and reader.stdout.readline(), b"reading\n")
            self.hold(20)
            wait_for(lambda: self.count_books() is None)  # a commit waits, and no other reader may come
            os.killpg(process.pid, signal.SIGINT)
            reader.communicate()
        out, err = process.communicate(timeout=setting.SECONDS)
        self.assertEqual(process.returncode, 1, err)
        self.assertRegex(out.decode(), STOPPED, err)
        self.release()
        self.run_archive(self.folder / "in")
        self.assert_as_fresh(self.books)

    def count_books(self) -> Optional[int]:
        """Returns how many books the catalogue has, or None if it cannot be read now."""
        try:
            with closing(sqlite3.connect(f"file:{self.to}/catalogue.sqlite?mode=ro", 0, uri=True)) as database:
                count: int = database.execute("SELECT count(*) FROM books").fetchone()[0]
                return count
        except sqlite3.OperationalError:
            return None

    def test_a_run_that_is_killed_leaves_no_half_file_and_no_worker(self) -> None:
        self.hold(20)
        process = self.start_and_wait("--jobs", "2")
        workers = setting.workers_of(process.pid)
        process.kill()
        process.wait()
        self.assertTrue(workers)
        wait_for(lambda: not any(Path(f"/proc/{worker}").exists() for worker in workers))
        whole = {path: data for path, data in self.wanted().items()}
        hidden = tuple(f".{name}.new/" for name in self.books)  # folders that have no name of a book yet
        found = {path: data for path, data in setting.tree(self.to).items() if path.endswith(".mid") and not path.startswith(hidden)}
        self.assertEqual([path for path, data in found.items() if whole.get(path) != data], [])
        self.release()
        self.run_archive(self.folder / "in")
        self.assertEqual(setting.tree(self.to), whole)

    def wanted(self) -> dict[str, bytes]:
        """The files of all books."""
        return {f"{name}/{file}": data for name, book in self.books.items() for file, data in setting.fresh(book).files.items()}

    def test_workers_that_are_killed_change_nothing(self) -> None:
        """They are killed while there are other books: one that is done alone has three trials, and many kills would use them up."""
        chance, killed = random.Random(setting.seed), 0
        self.hold(20)
        process = self.start_and_wait("--jobs", "2", "--catalogue", "csv")
        end = time.monotonic() + setting.SECONDS
        while killed < 10 and process.poll() is None and time.monotonic() < end:
            time.sleep(chance.uniform(0.1, 0.4))
            workers = setting.workers_of(process.pid)
            with suppress(ProcessLookupError):  # the pool ends the others when one was killed
                if workers:
                    os.kill(chance.choice(workers), signal.SIGKILL)
                    killed += 1
        self.release()
        out, err = process.communicate(timeout=setting.SECONDS)
        self.assertEqual((process.returncode, killed, b"Traceback" in err), (0, 10, False), (out, err))
        self.assert_as_fresh(self.books)

    def test_a_book_that_kills_its_workers_ends_no_other(self) -> None:
        self.write("in/bad.abc", b"X:1\nK:C\nkill the worker\n")
        deadly = self.write("slow", DEADLY.format(shlex.quote(str(setting.program))).encode())
        deadly.chmod(0o755)
        ran = self.run_archive(self.folder / "in", "--jobs", "2", status=1)
        self.assertIn("bad.abc: cannot be compiled: each worker that compiled it died", ran.err)
        self.assertIn("40 books compiled", ran.out)
        self.assert_as_fresh(self.books)


# A reader of a catalogue, until its standard input ends. It is a process: those of one process share their locks.
READER = """import sqlite3, sys
database = sqlite3.connect(sys.argv[1])
database.execute("BEGIN")
database.execute("SELECT count(*) FROM books").fetchone()
print("reading", flush=True)
sys.stdin.read()
"""

# A program that kills the worker that started it, if it is still its parent, when it is asked for a certain line.
DEADLY = """#!/bin/bash
while IFS= read -r line; do
    case $line in *'kill the worker'*) grep -q archive.worker_main "/proc/$PPID/cmdline" && kill -9 "$PPID" ;; esac
    printf '%s\\n' "$line"
done | {} "$@"
"""


@unittest.skipIf(importlib.util.find_spec("distributed") is None, "this Python has no distributed: install python3-distributed")
class Clusters(Slow):
    """Runs over a scheduler of Dask and three workers on this machine."""

    def backend(self) -> list[str]:
        return [*super().backend(), "--scheduler", self.address]

    def setUp(self) -> None:
        super().setUp()
        file = self.folder / "scheduler.json"
        self.scheduler = self.dask("distributed.cli.dask_scheduler", "--port", "0", "--no-dashboard", "--scheduler-file", str(file), "--host", "127.0.0.1")
        wait_for(lambda: address_in(file))
        self.address = address_in(file)
        places = [self.folder / f"place_{number}" for number in range(3)]
        self.workers = [
            self.dask("distributed.cli.dask_worker", self.address, "--nthreads", "1", "--no-dashboard", "--local-directory", str(place))
            for place in places
        ]
        with importlib.import_module("distributed").Client(self.address, timeout=setting.SECONDS) as client:
            client.wait_for_workers(len(self.workers), timeout=setting.SECONDS)  # a run waits for one worker, half a minute at most

    def dask(self, module: str, *words: str) -> "subprocess.Popen[bytes]":
        """Starts a process of the cluster."""
        environment = {**os.environ, "PYTHONPATH": str(setting.TOP / "python")}
        process = subprocess.Popen(
            [sys.executable, "-m", module, *words], env=environment, stdout=subprocess.DEVNULL, stderr=subprocess.DEVNULL, start_new_session=True
        )
        self.addCleanup(process.wait)
        self.addCleanup(setting.end_group, process)
        self.addCleanup(end_gently, process)
        return process

    def test_files_are_those_of_the_program(self) -> None:
        self.run_archive(self.folder / "in")
        self.assert_as_fresh(self.books)
        self.assertIn("40 as before", self.run_archive(self.folder / "in").out)

    def test_files_are_brought_back(self) -> None:
        self.run_archive(self.folder / "in", "--collect")
        self.assert_as_fresh(self.books)
        self.assertIn("40 as before", self.run_archive(self.folder / "in", "--collect").out)

    def test_a_worker_that_is_killed_changes_nothing(self) -> None:
        self.hold(20)
        process = self.start_and_wait()
        setting.end_group(self.workers[0])
        self.release()
        out, err = process.communicate(timeout=setting.SECONDS)
        self.assertEqual(process.returncode, 0, (out, err))
        self.assert_as_fresh(self.books)

    def test_kills_at_moments_of_chance(self) -> None:
        """Of a worker, which its keeper then starts again, and of the run, which the same command resumes."""
        chance = random.Random(setting.seed)
        self.program = str(setting.program)
        for trial in range(setting.kills):
            with self.subTest(trial):
                self.to = self.folder / f"to_{trial}"
                process = self.start(self.folder / "in")
                time.sleep(chance.uniform(0.5, 3))
                is_of_run = chance.random() < 0.3
                for killed in [process.pid] if is_of_run else setting.children_of(chance.choice(self.workers).pid):
                    with suppress(ProcessLookupError):
                        os.kill(killed, signal.SIGKILL)
                out, err = process.communicate(timeout=setting.SECONDS)
                self.assertNotIn(b"Traceback", err)
                if is_of_run:
                    self.run_archive(self.folder / "in")
                else:
                    self.assertEqual(process.returncode, 0, (out, err))
                self.assert_as_fresh(self.books)

    def test_a_cluster_without_workers_ends_the_run(self) -> None:
        """After some patience. The books that they were at are in no result."""
        self.hold(20)
        process = self.start_and_wait("--patience", "2")
        for worker in self.workers:
            setting.end_group(worker)
        out, err = process.communicate(timeout=setting.SECONDS)
        self.release()
        wanted = b"archive: the cluster has no workers any more; waiting 2 seconds for one\n"
        wanted += b"archive: the cluster has no workers any more, and none came in 2 seconds; the same command resumes the run\n"
        self.assertEqual((process.returncode, setting.without_progress(err)), (1, wanted))
        self.assertRegex(out.decode(), STOPPED)

    def test_a_scheduler_that_ends_ends_the_run(self) -> None:
        self.hold(20)
        process = self.start_and_wait()
        setting.end_group(self.scheduler)
        _, err = process.communicate(timeout=setting.SECONDS)
        self.release()
        self.assertEqual((process.returncode, b"Traceback" in err), (1, False), err)
        self.assertIn(b"archive: the scheduler ended", err)

    def test_there_is_no_scheduler(self) -> None:
        with mock.patch.object(self, "address", "tcp://127.0.0.1:9"):
            self.assertIn("no scheduler with a worker answers", self.run_archive(self.folder / "in", status=1).err)


def end_gently(process: "subprocess.Popen[bytes]") -> None:
    """Lets a process remove what it shares with others, if it can do that soon."""
    process.terminate()
    with suppress(subprocess.TimeoutExpired):
        process.wait(30)


def address_in(file: Path) -> str:
    """Returns the address that a scheduler wrote into its file, or nothing while it is not there whole."""
    with suppress(FileNotFoundError, json.JSONDecodeError):
        address: str = json.loads(file.read_text())["address"]
        return address
    return ""
