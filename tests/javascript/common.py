"""What the tests of the JavaScript package share: the program, the package that is tried, and Node."""

from __future__ import annotations

import shutil
import subprocess
import sys
import tempfile
import unittest
from collections.abc import Iterator
from functools import lru_cache
from pathlib import Path
from typing import NamedTuple, Optional

TOP = Path(__file__).resolve().parent.parent.parent
TESTS = TOP / "tests/javascript"
SECONDS = 600  # that a command may take, on a slow machine too

sys.path[:0] = [str(TOP / "tests/c_library"), str(TOP / "tests/clients/shared")]
import streams  # noqa: E402

program: Optional[str] = None
module: Optional[str] = None
package = Path()  # the folder of the package that is tried, if there is a module
count = 200  # of the random streams


@lru_cache(maxsize=None)
def node() -> list[str]:
    """The command of Node, or nothing if there is none."""
    found = shutil.which("node")
    return [found] if found else []


def transcripts() -> Iterator[Path]:
    """The stored conversations without arguments, a status and `build`."""
    for stdout in sorted((TOP / "tests/transcripts").glob("*/*.stdout")):
        name = stdout.with_suffix("")
        has_more = any(name.with_name(name.name + more).exists() for more in (".args", ".status"))
        if name.is_file() and not has_more and b"\nbuild" not in b"\n" + name.read_bytes():
            yield name


def wanted_of(stream: bytes) -> bytes:
    """What the program answers to a stream."""
    with tempfile.TemporaryDirectory() as folder:
        return subprocess.run([str(program), "--dir", folder], input=stream, stdout=subprocess.PIPE, check=True).stdout


class Conversation(NamedTuple):
    """A stream of commands, and its answers."""

    name: str
    stream: bytes
    wanted: bytes


def run_page_script(folder: Path, module: Optional[str]) -> "subprocess.CompletedProcess[str]":
    """Makes the page without a server, with a module, or with a file that is none."""
    with tempfile.NamedTemporaryFile(suffix=".wasm") as empty:
        words = [str(TOP / "scripts/package/static_page"), "--module", module or empty.name, str(folder)]
        return subprocess.run(words, capture_output=True, text=True)


def make_page(folder: Path, module: Optional[str]) -> None:
    """The same, which succeeds."""
    ran = run_page_script(folder, module)
    assert ran.returncode == 0, ran.stderr


@lru_cache(maxsize=None)
def conversations() -> list[Conversation]:
    """The transcripts, and with a program random streams and a large one."""
    found = [Conversation(path.name, path.read_bytes(), path.with_name(path.name + ".stdout").read_bytes()) for path in transcripts()]
    if program:
        made = [(f"stream_{seed}", streams.stream(seed)) for seed in range(1, count + 1)]
        found += [Conversation(name, stream, wanted_of(stream)) for name, stream in [*made, ("large", large_stream())]]
    return found


def large_stream() -> bytes:
    """A stream whose answers do not fit into the room that a session has for short ones."""
    tunes = b"".join(b"X:%d\nT:%d\nK:C\nC?\n" % (number, number) for number in range(1, 1501))
    long_title, long_tune = b"X:1501\nT:" + b"t" * 5000 + b"\nK:C\nC\n", b"X:1502\nK:C\n" + b"CDEF GABc|" * 300 + b"\n"
    book = tunes + long_title + long_tune
    questions = b"faults\ntitles\nhex 1\nhex 1501\nhex 1502\n"
    lines = book.count(b"\n")
    return b"insert 1 %d\n" % lines + book + questions + b"insert 1 2\nM:3/4\n\n" + questions + b"delete 1 %d\n" % (lines + 2) + questions


class Room(unittest.TestCase):
    """Tests that have a folder of their own, which goes with them."""

    maxDiff = 2000

    def setUp(self) -> None:
        kept = tempfile.TemporaryDirectory()
        self.addCleanup(kept.cleanup)
        self.folder = Path(kept.name)

    def lines_of(self, words: list[str]) -> list[str]:
        """The lines that a command prints, which succeeds."""
        ran = subprocess.run(words, cwd=self.folder, capture_output=True, text=True, timeout=SECONDS)
        self.assertEqual(ran.returncode, 0, ran.stdout + ran.stderr)
        return ran.stdout.splitlines()

    def assert_ok(self, words: list[str], least: int) -> None:
        """All tests of a script pass, and there are at least `least` of them."""
        lines = self.lines_of(words)
        self.assertEqual([line for line in lines if not line.startswith("ok ")], [])
        self.assertGreaterEqual(len(lines), least)
