"""The program that is tried: its runs, conversations with it, and the files that it leaves."""

from __future__ import annotations

import os
import shutil
import subprocess
import tempfile
import unittest
from collections.abc import Iterator
from contextlib import contextmanager
from pathlib import Path
from typing import IO, Any, NamedTuple, Optional, Union

TOP = Path(__file__).resolve().parents[2]
SECONDS = 600  # that a run may take, on a slow machine too

PATH: Optional[Path] = None  # of the program

# Two tunes, and what their files hold: SMF 1.0, a header of two tracks, the conductor's track and that of the voice.
TWO_TUNES = "insert 1 7\nX:1\nK:C\nC\n\nX:2\nK:C\nD\n"
HEAD = "4D546864000000060001000201E04D54726B0000001200FF510307A12000FF590200008170FF2F00"
FILE_OF_C = f"{HEAD}4D54726B0000000D00903C508170803C4000FF2F00"
FILE_OF_D = f"{HEAD}4D54726B0000000D00903E508170803E4000FF2F00"
WRITTEN_BOTH = "written 1.mid\nwritten 2.mid\nend\n"


class Ended(NamedTuple):
    """How a run ended: its exit status, and its output."""

    status: int
    out: bytes
    err: bytes


def files_of(folder: Path) -> dict[str, str]:
    """The files of a folder, hidden ones too: each with its bytes in upper-case hexadecimal."""
    return {path.name: path.read_bytes().hex().upper() for path in folder.iterdir()}


class ProgramTest(unittest.TestCase):
    """A test of the program, with a room of its own, in which the folder of the files is."""

    def setUp(self) -> None:
        self.room = Path(tempfile.mkdtemp())
        self.addCleanup(shutil.rmtree, self.room, ignore_errors=True)
        self.folder = self.room / "files"
        self.folder.mkdir()

    def words(self, *words: Union[str, Path]) -> list[Union[str, Path]]:
        """The words that start the program."""
        assert PATH
        return [PATH, *words]

    def run_program(self, stream: Union[str, bytes], *words: Union[str, Path], **more: Any) -> Ended:
        """Runs the program with its files in the folder of the test, and maybe a book."""
        given = stream.encode() if isinstance(stream, str) else stream
        return self.run_words(self.words("--dir", self.folder, *words), input=given, **more)

    def run_words(self, words: list[Union[str, Path]], **more: Any) -> Ended:
        """Runs a command. `more` are arguments of `subprocess.run`."""
        more.setdefault("stdout", subprocess.PIPE)
        ran = subprocess.run(words, stderr=subprocess.PIPE, timeout=SECONDS, cwd=more.pop("cwd", TOP), **more)
        return Ended(ran.returncode, ran.stdout or b"", ran.stderr)

    def assert_ended(self, ended: Ended, status: int, message: str = "") -> None:
        """The run ended so, with this message on standard error."""
        self.assertEqual((ended.status, ended.err.decode().rstrip("\n")), (status, message))

    def assert_answers(self, ended: Ended, *rows: str) -> None:
        """The run ended well, in silence but for these rows."""
        self.assert_ended(ended, 0)
        self.assert_same(ended.out, "".join(f"{row}\n" for row in rows).encode())

    def assert_same(self, found: bytes, wanted: bytes) -> None:
        """Compares bytes, of which a failure shows those around the first difference."""
        if found != wanted:
            at = len(os.path.commonprefix([found, wanted]))
            self.fail(f"after {at} bytes: {found[max(at - 40, 0) : at + 80]!r}, wanted {wanted[max(at - 40, 0) : at + 80]!r}")

    def assert_files(self, wanted: dict[str, str], folder: Optional[Path] = None) -> None:
        """The folder has these files and no others."""
        self.assertEqual(files_of(folder or self.folder), wanted)

    @contextmanager
    def conversation(self, folder: Optional[Path] = None) -> Iterator[Conversation]:
        """A conversation with the program, which ends it by `quit`."""
        with Conversation(self, folder or self.folder) as talk:
            yield talk
            talk.end()


class Conversation:
    """A run of the program that gets a command when the answer to the one before is there."""

    def __init__(self, test: ProgramTest, folder: Path):
        self.test = test
        words = ["timeout", str(SECONDS), *test.words("--dir", folder)]
        self.errors = (test.room / "errors").open("w+b")
        self.child = subprocess.Popen(words, stdin=subprocess.PIPE, stdout=subprocess.PIPE, stderr=self.errors)

    def __enter__(self) -> Conversation:
        return self

    def __exit__(self, *_: object) -> None:
        self.child.kill()
        self.child.communicate()
        self.errors.close()

    def pipe(self, stream: Optional[IO[bytes]]) -> IO[bytes]:
        assert stream
        return stream

    def ask(self, command: str, answer: str) -> None:
        """Writes a command, and reads its answer, as many rows as are wanted."""
        to, of = self.pipe(self.child.stdin), self.pipe(self.child.stdout)
        to.write(f"{command}\n".encode())
        to.flush()
        rows = answer.splitlines()
        self.test.assertEqual([of.readline().decode().rstrip("\n") for _ in rows], rows, command)

    def said(self) -> list[str]:
        """The rows on standard error."""
        self.errors.seek(0)
        return self.errors.read().decode().splitlines()

    def end(self) -> None:
        """Ends the run by `quit`, to which there is no answer."""
        self.test.assertEqual((self.child.communicate(b"quit\n", timeout=SECONDS)[0], self.child.returncode), (b"", 0))
