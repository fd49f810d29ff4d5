"""Standard input and output: commands and answers one after another, streams that fail, and lines of any length."""

from __future__ import annotations

import os
import shutil
import subprocess
import unittest
from pathlib import Path

from built_program import TOP, ProgramTest

LONGEST = 65535  # bytes of a line
REFUSED_LINE = "a line holds a line feed or has more than 65,535 bytes"
REFUSED_TEXT = "the text would have more than 1,048,576 lines"


class Input(ProgramTest):
    def test_an_input_that_can_never_be_read(self) -> None:
        """It is a folder, it is closed, or it is only open for writing. The program does not try again."""
        folder = os.open(self.room, os.O_RDONLY)
        self.addCleanup(os.close, folder)
        with (self.room / "written").open("wb") as written:
            for name, stream in (("a folder", folder), ("only for writing", written)):
                with self.subTest(name):
                    self.assert_ended(self.run_words(self.words("--dir", self.folder), stdin=stream), 1, "read fault")
        closed = ["bash", "-c", 'exec "$@" <&-', "bash", *self.words("--dir", self.folder)]
        self.assert_ended(self.run_words(closed), 1, "read fault")

    def test_quit_ends_the_run_at_once(self) -> None:
        """It does not read on: this input has no end."""
        end, start = os.pipe()
        self.addCleanup(os.close, start)
        self.addCleanup(os.close, end)
        os.write(start, b"quit\n")
        self.assert_answers(self.run_words(self.words("--dir", self.folder), stdin=end))

    def test_an_answer_comes_before_the_next_command(self) -> None:
        with self.conversation() as talk:
            talk.ask("hex 1", "none")
            talk.ask("insert 1 4\nX:1\nT:A\nK:C\nC", "ok written 1 removed")
            talk.ask("jump 1", "error command")
            talk.ask("delete 1 5", "error BadRange")

    def test_commands_with_long_lines(self) -> None:
        """A line has at most 65,535 bytes, its carriage return included. No part of a longer line, or of a longer command, is a command."""
        lines = ["insert 1 1", f"{'0' * 65534}\r", "insert 1 1", f"{'0' * LONGEST}\r", "insert 1 1"]
        lines += [f"{'0' * 200000}quit", f"{'0' * 65536}quit", "hex 1"]
        ended = self.run_program("".join(f"{line}\n" for line in lines))
        self.assert_answers(ended, "ok written removed", "error BadLine", "error BadLine", "error command", "none")

    def test_the_longest_command_lines(self) -> None:
        """A line of more bytes than a command may have is none, and so is one of as many. The next line is a command again."""
        lines = ["0" * LONGEST, "hex 1", "0" * (LONGEST + 1), "hex 1", f"{'0' * LONGEST}\r", "hex 1", f"hex 1{'0' * 65530}"]
        ended = self.run_program("\n".join(lines))
        self.assert_answers(ended, *["error command", "none"] * 3, "error command")


class Answers(ProgramTest):
    """Answers that cannot be written."""

    def full(self, stream: str, *words: str) -> None:
        """The run ends with a fault, since standard output accepts nothing."""
        with open("/dev/full", "wb") as full:
            ended = self.run_program(stream, *words, stdout=full)
        self.assert_ended(ended, 1, "write fault")

    def test_an_answer_before_quit(self) -> None:
        self.full((TOP / "tests/transcripts/tunes/first_tune").read_text())

    def test_the_last_answer_if_no_quit_comes(self) -> None:
        self.full("hex 1\n")

    def test_later_commands_are_not_carried_out(self) -> None:
        self.full("insert 1 3\nX:1\nK:C\nC\nbuild\n")
        self.assert_files({})

    def test_the_answer_to_a_book(self) -> None:
        self.full("", "README.md")


class Books(ProgramTest):
    def refused(self, stream: str, why: str, *rows: str) -> None:
        """The book is refused, which leaves the empty text, and the run goes on."""
        ended = self.run_program(stream, self.room / "book")
        self.assert_ended(ended, 0, f"warning: the tune book '{self.room}/book' is refused: {why}")
        self.assertEqual(ended.out.decode().splitlines(), [*rows])

    def accepted(self, stream: str, *rows: str) -> None:
        self.assert_answers(self.run_program(stream, self.room / "book"), *rows)

    def test_a_book_is_read_before_the_input(self) -> None:
        """Of a book and an input that cannot be read the book is named."""
        folder = os.open(self.room, os.O_RDONLY)
        self.addCleanup(os.close, folder)
        ended = self.run_words(self.words("--dir", self.folder, self.room / "none"), stdin=folder)
        why = "cannot be read: No such file or directory (os error 2)"
        self.assert_ended(ended, 1, f"error: the tune book '{self.room}/none' {why}\nread fault")
        self.assertEqual(ended.out, b"")
        ended = self.run_words(self.words("--dir", self.folder, "README.md"), stdin=folder)
        self.assert_ended(ended, 1, "read fault")
        self.assertEqual(ended.out, b"ok written removed\n")

    def test_long_lines(self) -> None:
        """A line may have 65,535 bytes. A carriage return stays in it, and makes it too long."""
        (self.room / "book").write_text(f"{'0' * LONGEST}\n{'0' * LONGEST}")
        self.accepted("delete 2 2\n", *["ok written removed"] * 2)
        (self.room / "book").write_bytes(b"0" * LONGEST + b"\r\n")
        self.refused("delete 1 1\ninsert 1 1\n\n", REFUSED_LINE, "error BadLine", "error BadRange", "ok written removed")

    def test_the_largest(self) -> None:
        """A book of 1,048,576 lines is a text, whether or not its last line has a line feed. One of more is refused."""
        (self.room / "book").write_text("x\n" * 1048576)
        self.accepted("delete 1048576 1048576\n", *["ok written removed"] * 2)
        (self.room / "book").write_text("x\n" * 1048576 + "x")
        self.refused("delete 1 1\n", REFUSED_TEXT, "error TooLarge", "error BadRange")
        (self.room / "book").write_text("x\n" * 1048577 + "0" * 65536)
        self.refused("", REFUSED_LINE, "error BadLine")


class Memory(ProgramTest):
    """50 MB, into which 80 MB do not fit."""

    LARGE = (b"0" * 80 + b"\n") * 1_000_000

    def limited(self, stream: Path, *words: Path) -> None:
        """The run ends without an answer."""
        limited = ["bash", "-c", 'ulimit -v 50000; exec "$@"', "bash", *self.words("--dir", self.folder, *words)]
        with stream.open("rb") as given:
            ended = self.run_words(limited, stdin=given)
        self.assert_ended(ended, 3, "out of memory")
        self.assertEqual(ended.out, b"")

    def test_a_book(self) -> None:
        (self.room / "book").write_bytes(self.LARGE)
        self.limited(Path(os.devnull), self.room / "book")

    def test_an_insertion(self) -> None:
        (self.room / "stream").write_bytes(b"insert 1 1000000\n" + self.LARGE)
        self.limited(self.room / "stream")


@unittest.skipUnless(shutil.which(os.environ.get("CC", "cc")), "there is no C compiler")
class Failures(ProgramTest):
    """Each request for memory, and each call of the system, refused in turn."""

    SHORT = "tunes/first_tune build/build_of_the_first_tune build/build_writes_and_removes build/build_of_tunes_that_change_numbers "
    SHORT += "tunes/comments_and_blank_lines edits/edits_there_and_back books/defaults_of_a_file_header"

    def passes(self, command: str, *words: str) -> None:
        ran = subprocess.run([TOP / command, *self.words(), *words], capture_output=True, text=True)
        self.assertEqual(ran.returncode, 0, ran.stdout + ran.stderr)

    def test_each_request_for_memory(self) -> None:
        """Alone and with all later ones, on transcripts that make few."""
        self.passes("tests/failures/refused_memory", *self.SHORT.split())

    def test_each_call_of_the_system(self) -> None:
        """Each read, each write and each call that stores a file, once and permanently."""
        self.passes("tests/failures/failing_calls")
