"""Replays the conversation of docs/protocol.md."""

from __future__ import annotations

import subprocess
import tempfile
import threading
from typing import Optional

from .markdown import INDENTED, TOP, text_of
from .outcome import Outcome, Outcomes, difference

PAGE = TOP / "docs/protocol.md"
SECONDS = 300


def replay(program: str) -> Optional[str]:
    """What is wrong with the conversation, or None: each answer has to come before the next command is written."""
    lines = [line for line in INDENTED.findall(text_of(PAGE)) if line.startswith(("> ", "< "))]
    found: list[str] = []
    with tempfile.TemporaryDirectory() as folder:
        process = subprocess.Popen(
            [program, "--dir", folder], stdin=subprocess.PIPE, stdout=subprocess.PIPE, text=True, encoding="utf-8"
        )
        assert process.stdin and process.stdout
        limit = threading.Timer(SECONDS, process.kill)
        limit.start()
        for line in lines:
            if line.startswith("> "):
                process.stdin.write(f"{line[2:]}\n")
                process.stdin.flush()
                found.append(line)
            else:
                found.append(f"< {process.stdout.readline()}".rstrip("\n"))
        rest, _ = process.communicate()
        limit.cancel()
    return difference(found + rest.splitlines(), lines) or (None if process.returncode == 0 else "the run failed")


def conversation(program: Optional[str]) -> Outcomes:
    """The conversation, if there is a program."""
    if program:
        yield Outcome("the conversation of docs/protocol.md", replay(program))
    else:
        yield Outcome("the conversation of docs/protocol.md: no program was named", is_skipped=True)
