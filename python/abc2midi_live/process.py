"""A session in a process of the program, which is asked by its commands."""

from __future__ import annotations

import os
import re
import subprocess
import tempfile
from collections.abc import Iterator, Sequence
from contextlib import contextmanager, suppress
from operator import index
from typing import NamedTuple, Optional

from .edits import Edit
from .errors import SENTENCES, LibraryNeeded, ProgramEnded, ProgramMissing, refusal
from .finding import PathName, find_program
from .lines import MOST_LINES
from .plays import Track
from .session import Fault, Report, Session, Title, Work
from .tokens import Token

MOST_NUMBER = 999_999_999  # that a command can name
SECONDS_TO_END = 10  # for a program that is asked to end
REFUSALS = {b"error %s" % kind.__name__.encode(): kind for kind in SENTENCES}


class Built(NamedTuple):
    """What a build wrote and removed: numbers of files; and the number at which it failed."""

    written: list[int]
    removed: list[int]
    failed: Optional[int]


class ProcessSession(Session):
    """A session in a process of its own. Ctrl-C does not reach the program. It ends by `close`, or with the caller, because
    its input ends then. `close` kills a program that does not end within ten seconds.

    If the program ends, the call raises `ProgramEnded`, and so does every later one but `close` and those for lines: open
    another session with these. It ends with status 3 if it is out of memory. The same holds for a call that Ctrl-C or
    another exception interrupts. Several threads may use one session if only one calls at a time."""

    def __init__(self, program: Optional[PathName] = None, directory: Optional[PathName] = None) -> None:
        """Starts a program, or that of `find_program`, with an empty text. `directory` is the folder of `build`. Raises
        ProgramMissing."""
        super().__init__()
        name = os.fspath(program) if program is not None else find_program()
        self.directory = os.fspath(directory) if directory is not None else None
        self._numbers: set[int] = set()
        self._title_lines: list[bytes] = []
        self._titles: list[Title] = []
        self._end: Optional[str] = None  # why there is no more answer
        words = [name, "--dir", self.directory if self.directory is not None else tempfile.gettempdir()]
        try:
            self.process = subprocess.Popen(words, stdin=subprocess.PIPE, stdout=subprocess.PIPE, start_new_session=True)
        except OSError as error:
            raise ProgramMissing(f"{name}: {error.strerror}") from error
        assert self.process.stdin and self.process.stdout
        self._commands, self._answers = self.process.stdin, self.process.stdout

    # ---- edits

    def _insert(self, at: int, lines: list[bytes]) -> Report:
        if not 0 <= at <= MOST_NUMBER or len(lines) > MOST_LINES:  # no command can name them
            self._check_edits([Edit(at - 1, at - 1, lines)])
        return self._edit(f"insert {at:d} {len(lines)}", lines)

    def _replace(self, from_line: int, to_line: int, lines: list[bytes]) -> Report:
        if not (0 <= from_line <= MOST_NUMBER and 0 <= to_line <= MOST_NUMBER) or len(lines) > MOST_LINES:
            self._check_edits([Edit(from_line - 1, to_line, lines)])
        return self._edit(f"replace {from_line:d} {to_line:d} {len(lines)}", lines)

    def _delete(self, from_line: int, to_line: int) -> Report:
        if not (0 <= from_line <= MOST_NUMBER and 0 <= to_line <= MOST_NUMBER):
            self._check_edits([Edit(from_line - 1, to_line, [])])
        return self._edit(f"delete {from_line:d} {to_line:d}")

    def _edit(self, command: str, lines: Sequence[bytes] = ()) -> Report:
        """Sends an edit."""
        with self._exchange():
            answer = self._ask(command, lines)
            report = None if answer in REFUSALS else report_of(answer)
        if report is None:
            raise refusal(REFUSALS[answer])
        self._numbers.update(report.written)
        self._numbers.difference_update(report.removed)
        return report

    # ---- what the text has

    def output(self, number: int) -> Optional[bytes]:
        self._check_ready()
        if not 0 <= index(number) <= MOST_NUMBER:
            return None
        with self._exchange():
            answer = self._ask(f"hex {number:d}")
        return None if answer == b"none" else bytes.fromhex(answer.decode())

    @property
    def numbers(self) -> list[int]:
        self._check_ready()
        return sorted(self._numbers)

    @property
    def titles(self) -> list[Title]:
        lines = self._list("titles")
        if lines != self._title_lines:
            parted = (line.partition(b" ") for line in lines)
            self._title_lines, self._titles = lines, [Title(int(number), text) for number, _, text in parted]
        return self._titles.copy()

    @property
    def faults(self) -> list[Fault]:
        found = []
        for answer in self._list("faults"):
            place, name = answer.decode().split()
            line, _, column = place.partition(":")
            found.append(Fault(int(line), int(column), name))
        return found

    def tokens(self, number: int) -> tuple[Token, ...]:
        self._check_line(number)
        raise LibraryNeeded("a session over a process has no tokens of lines: open one over the C library")

    def play(self, number: int) -> Optional[tuple[Track, ...]]:
        self._check_ready()
        index(number)
        raise LibraryNeeded("a session over a process has no plays of tunes: open one over the C library")

    @property
    def work(self) -> Optional[Work]:
        self._check_ready()
        return None

    # ---- the folder

    def build(self) -> Built:
        """Brings the folder up to date with the text: writes and removes files `N.mid`. A build ends at the first file that
        fails; the program prints the reason on standard error. The next build tries that file again."""
        if self.directory is None:
            raise ValueError("the session has no folder: open it with a directory")
        numbers: dict[str, list[int]] = {"written": [], "removed": [], "failed": []}
        for line in self._list("build"):
            what, name = line.decode().split()
            numbers[what].append(int(name.partition(".")[0]))
        return Built(numbers["written"], numbers["removed"], numbers["failed"][0] if numbers["failed"] else None)

    # ---- commands and answers

    @contextmanager
    def _exchange(self) -> Iterator[None]:
        """One command and its whole answer. If that is interrupted, the next answer would belong to no command: so the
        program is ended."""
        self._check_ready()
        try:
            yield
        except BaseException as error:
            self._lose(str(error) if isinstance(error, ProgramEnded) else "a call was interrupted")
            raise

    def _check_ready(self) -> None:
        super()._check_ready()
        if self._end:
            raise ProgramEnded(self._end)

    def _lose(self, why: str) -> None:
        """Ends the program: it has no more answers."""
        self._end = self._end or why
        self.process.kill()

    def _recover(self) -> None:
        self._lose("an edit was interrupted")

    def _list(self, command: str) -> list[bytes]:
        """The lines that answer a command, up to `end`."""
        with self._exchange():
            first = self._ask(command)
            return [] if first == b"end" else [first, *map(self._whole, iter(self._answers.readline, b"end\n"))]

    def _ask(self, command: str, lines: Sequence[bytes] = ()) -> bytes:
        """The first line that answers a command. A command has the count of its lines, so none of them is read as a command."""
        try:
            self._commands.write(b"\n".join([command.encode(), *lines, b""]))
            self._commands.flush()
        except BrokenPipeError:
            pass  # then the answers have ended too
        return self._whole(self._answers.readline())

    def _whole(self, line: bytes) -> bytes:
        """A line of the answers without its end; only a program that ended leaves one without."""
        if not line.endswith(b"\n"):
            raise ProgramEnded(f"the program ended with status {self.process.wait()}")
        return line[:-1]

    def _close(self) -> None:
        """Asks the program to end. Its input ends only when no child of the caller has the pipe any more, so a command does it."""
        if not self._end:
            with suppress(subprocess.TimeoutExpired):
                self.process.communicate(b"quit\n", SECONDS_TO_END)
        self.process.kill()
        with suppress(BrokenPipeError):
            self._commands.close()
        self._answers.close()
        self.process.wait()


def report_of(answer: bytes) -> Report:
    """The report in an answer to an edit."""
    found = re.fullmatch(rb"ok written((?: \d+)*) removed((?: \d+)*)", answer)
    if not found:
        raise ProgramEnded(f"the program answered an edit by {answer[:80]!r}")
    return Report(tuple(map(int, found[1].split())), tuple(map(int, found[2].split())))
