"""Types the first commands of README.md, and compares the answers that it quotes."""

from __future__ import annotations

import subprocess
import tempfile
from typing import Optional

from .markdown import INDENTED, TOP, text_of
from .outcome import Outcome, Outcomes, difference

PAGE = TOP / "README.md"
COMMAND = "./abc2midi_live --dir /tmp "
SECONDS = 300


def first_answers(program: str) -> Optional[str]:
    """What is wrong with the first answers, or None."""
    lines = INDENTED.findall(text_of(PAGE))
    at = next(n for n, line in enumerate(lines) if line.startswith(COMMAND))
    book, _, commands = lines[at].removeprefix(COMMAND).partition(" < ")
    wanted = [line for line in lines[at + 1 :] if line.startswith(("ok ", "written "))]
    with tempfile.TemporaryDirectory() as folder, (TOP / commands).open("rb") as stream:
        ran = subprocess.run([program, "--dir", folder, TOP / book], stdin=stream, capture_output=True, timeout=SECONDS, check=True)
    return difference(ran.stdout.decode().split("\n")[: len(wanted)], wanted)


def start(program: Optional[str]) -> Outcomes:
    """The first commands, if there is a program."""
    what = "the first commands of README.md"
    yield Outcome(what, first_answers(program)) if program else Outcome(f"{what}: no program was named", is_skipped=True)
