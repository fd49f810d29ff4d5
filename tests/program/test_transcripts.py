"""The stored transcripts: NAME is standard input, and NAME.args the arguments, one a line, where FOLDER is the folder of the files, which
is --dir without that file. Wanted are the output NAME.stdout, on standard error NAME.stderr (nothing without it), the exit status
NAME.status (0 without it), and in the folder NAME.files (nothing without it)."""

from __future__ import annotations

import os
from pathlib import Path
from typing import Any, Callable

from built_program import TOP, ProgramTest, files_of


def beside(transcript: Path, end: str) -> bytes:
    """What a file beside a transcript has; nothing if it is not there."""
    path = Path(f"{transcript}.{end}")
    return path.read_bytes() if path.exists() else b""


class Transcripts(ProgramTest):
    """A test for each."""

    maxDiff = 2000

    def try_transcript(self, transcript: Path) -> None:
        has_arguments = Path(f"{transcript}.args").exists()
        given = beside(transcript, "args").splitlines() if has_arguments else [b"--dir", b"FOLDER"]
        words: list[Any] = [os.fsencode(self.folder) if word == b"FOLDER" else word for word in given]
        with transcript.open("rb") as stream:
            ended = self.run_words(self.words(*words), stdin=stream)
        self.assertEqual(ended.out, beside(transcript, "stdout"))
        self.assertEqual((ended.status, ended.err), (int(beside(transcript, "status") or b"0"), beside(transcript, "stderr")))
        rows = [f"{name} {held}".rstrip() for name, held in sorted(files_of(self.folder).items())]
        self.assertEqual(rows, beside(transcript, "files").decode().splitlines())


def test_of(transcript: Path) -> Callable[[Transcripts], None]:
    """The test of a transcript."""
    return lambda test: test.try_transcript(transcript)


for answers in sorted((TOP / "tests/transcripts").glob("*/*.stdout")):
    name = answers.with_suffix("")
    setattr(Transcripts, f"test_{name.parent.name}_{name.name}", test_of(name))
