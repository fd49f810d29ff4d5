"""Sessions in a process of the program."""

import os
import signal
import subprocess
import threading
from collections.abc import Callable
from functools import partial
from pathlib import Path
from typing import Union
from unittest import mock

import abc2midi_live
import sessions
import setting
import trial
from abc2midi_live import Built, LibraryNeeded, ProcessSession, ProgramEnded, ProgramMissing, process


class OverTheProcess(sessions.Sessions):
    def begin(self) -> ProcessSession:
        return ProcessSession(setting.program)

    def test_there_are_no_counters(self) -> None:
        self.assertIsNone(self.session(sessions.TUNE).work)

    def test_there_are_no_tokens(self) -> None:
        session = self.session(sessions.TUNE)
        with self.assertRaisesRegex(LibraryNeeded, "over the C library"):
            session.tokens(1)
        with self.assertRaises(IndexError):
            session.tokens(6)

    def test_there_are_no_plays(self) -> None:
        session = self.session(sessions.TUNE)
        with self.assertRaisesRegex(LibraryNeeded, "over the C library"):
            session.play(1)
        with self.assertRaises(TypeError):
            session.play("1")  # type: ignore[arg-type]

    def test_files(self) -> None:
        session = ProcessSession(setting.program, self.folder)
        self.addCleanup(session.close)
        session.insert(1, sessions.TUNE)
        self.assertEqual((session.build(), session.build()), (Built([1], [], None), Built([], [], None)))
        self.assertEqual((self.folder / "1.mid").read_bytes(), session.output(1))
        (self.folder / "2.mid").mkdir()
        session.insert(1, ["X:2", "K:C", ""])
        self.assertEqual(session.build(), Built([], [], 2))
        self.assertEqual(sorted(os.listdir(self.folder)), ["1.mid", "2.mid"])
        with self.begin() as other, self.assertRaisesRegex(ValueError, "no folder"):
            other.build()

    def test_a_program_that_ends(self) -> None:
        session = self.begin()
        self.addCleanup(session.close)
        session.insert(1, sessions.TUNE)
        os.kill(session.process.pid, signal.SIGKILL)
        for _ in range(2):
            with self.assertRaisesRegex(ProgramEnded, "status -9"):
                session.titles
        with self.assertRaisesRegex(ProgramEnded, "status -9"):
            session.insert(1, "C")
        self.assertEqual(session.lines, sessions.TUNE)

    def test_calls_after_the_end(self) -> None:
        """All but those for lines raise the exception again, also those that need no answer of the program."""
        session = ProcessSession("/bin/false", self.folder)
        self.addCleanup(session.close)
        calls: list[Callable[[], object]] = [lambda: session.faults, lambda: session.numbers, lambda: session.work, session.build]
        calls += [partial(session.output, number) for number in (1, -1, 10**9)]
        calls += [lambda: session.insert(7, "C"), lambda: session.delete(0, 10**9), lambda: session.set_text(""), lambda: session.apply([])]
        for call in calls:
            with self.assertRaisesRegex(ProgramEnded, "status 1"):
                call()
        self.assertEqual((session.lines, session.line_count), ([], 0))

    def test_a_program_that_ends_at_once(self) -> None:
        session = ProcessSession("/bin/false")
        self.addCleanup(session.close)
        with self.assertRaisesRegex(ProgramEnded, "status 1"):
            session.insert(1, "C")
        self.assertEqual(session.lines, [])

    def test_an_answer_that_the_program_never_gives(self) -> None:
        other = self.folder / "other"
        other.write_text("#!/bin/sh\necho hello\nexec cat >/dev/null\n")
        other.chmod(0o755)
        session = ProcessSession(other)
        self.addCleanup(session.close)
        for _ in range(2):
            with self.assertRaisesRegex(ProgramEnded, "answered an edit by b'hello'"):
                session.insert(1, "C")

    def test_a_missing_program(self) -> None:
        for program in (self.folder / "none", self.folder):
            with self.assertRaisesRegex(ProgramMissing, str(program)):
                ProcessSession(program)

    def test_an_interrupted_call(self) -> None:
        """No later call takes an answer that belongs to another one."""
        session = self.session(sessions.TUNE)
        with mock.patch.object(session, "_whole", side_effect=KeyboardInterrupt), self.assertRaises(KeyboardInterrupt):
            session.faults
        with self.assertRaisesRegex(ProgramEnded, "interrupted"):
            session.titles
        self.assertEqual(session.lines, sessions.TUNE)

    def test_a_child_of_the_caller_that_has_the_pipe(self) -> None:
        """`close` does not wait until the child ends too."""
        session = ProcessSession(setting.program)
        assert session.process.stdin
        child = subprocess.Popen(["sleep", "1000"], pass_fds=[session.process.stdin.fileno()])
        self.addCleanup(child.wait)
        self.addCleanup(child.kill)
        limit = threading.Timer(trial.SECONDS, child.kill)
        limit.start()
        session.insert(1, sessions.TUNE)
        session.close()
        limit.cancel()
        self.assertEqual((child.poll(), session.process.returncode), (None, 0))

    def test_a_program_that_does_not_end(self) -> None:
        other = self.folder / "other"
        other.write_text("#!/bin/sh\nexec sleep 1000\n")
        other.chmod(0o755)
        session = ProcessSession(other)
        limit = threading.Timer(trial.SECONDS, session.process.terminate)
        limit.start()
        with mock.patch.object(process, "SECONDS_TO_END", 0.1):
            session.close()
        limit.cancel()
        self.assertEqual(session.process.returncode, -signal.SIGKILL)

    def test_ctrl_c_does_not_reach_the_program(self) -> None:
        with self.begin() as session:
            self.assertNotEqual(os.getpgid(session.process.pid), os.getpgid(0))


class Opened(setting.Room):
    """`open` over a program."""

    def book(self, data: bytes) -> Path:
        path = self.folder / "book.abc"
        path.write_bytes(data)
        return path

    def test_a_book(self) -> None:
        path = self.book(b"\xef\xbb\xbfX:1\nK:C\nC")
        names: list[Union[str, Path]] = [path, str(path)]
        for name in names:
            with abc2midi_live.open(name, program=setting.program) as session:
                self.assertEqual((session.lines, session.numbers), ([b"X:1", b"K:C", b"C"], [1]))
        with abc2midi_live.open(program=setting.program) as session:
            self.assertEqual(session.lines, [])

    def test_books_that_cannot_be_opened(self) -> None:
        with self.assertRaises(FileNotFoundError):
            abc2midi_live.open(self.folder / "none", program=setting.program)
        with self.assertRaises(abc2midi_live.BadLine):
            abc2midi_live.open(self.book(b"C" * 65_536), program=setting.program)
        with self.assertRaises(ValueError):
            abc2midi_live.open(library="a", program="b")
        with self.assertRaises(abc2midi_live.LibraryMissing):
            abc2midi_live.open(library=self.folder / "none")
        with self.assertRaises(ProgramMissing):
            abc2midi_live.open(program=self.folder / "none")
