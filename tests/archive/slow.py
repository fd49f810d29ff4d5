"""Runs over a program that takes its time, so that a test can do something in the middle of one."""

from __future__ import annotations

import subprocess
import sys
import tempfile
import time
from typing import Any

import setting

STOPPED = r"books? compiled, .* not done; \d+:\d\d; stopped\n$"  # the end of the summary


class Slow(setting.Runs):
    """Runs over forty books, by a program that takes its time and that a test can hold."""

    def setUp(self) -> None:
        super().setUp()
        self.books = {f"book_{number}": setting.random_book(number) for number in range(40)}
        for name, book in self.books.items():
            self.write(f"in/{name}.abc", book)
        self.turns = self.folder / "turns"
        slow = self.write("slow", SLOW.format(python=sys.executable, turns=str(self.turns), program=str(setting.program)).encode())
        slow.chmod(0o755)
        self.program = str(slow)

    def hold(self, turns: int) -> None:
        """Lets this number of programs go on, and the others wait: so no run ends by itself, however slow the test is."""
        self.turns.mkdir(exist_ok=True)
        for number in range(turns):
            (self.turns / str(number)).mkdir()

    def release(self) -> None:
        """Lets all programs go on."""
        self.turns.rename(tempfile.mkdtemp(dir=self.folder))

    def backend(self) -> list[str]:
        return ["--program", self.program]

    def start_and_wait(self, *words: Any) -> "subprocess.Popen[bytes]":
        """Starts a run, and waits for its first files."""
        process = self.start(self.folder / "in", *words)
        wait_for(lambda: bool(list(self.to.glob("[!.]*/*.mid"))) or process.poll() is not None)
        return process


def wait_for(is_there: Any) -> None:
    """Waits until something is so."""
    end = time.monotonic() + setting.SECONDS
    while not is_there():
        if time.monotonic() > end:
            raise AssertionError("it did not come about in time")
        time.sleep(0.02)


# A program that takes its time. While there is a folder for turns, it needs one of them to go on. Its standard input ends with its worker, and
# so does it then.
SLOW = """#!{python} -IS
import glob, os, select, sys, time

def took(turn):
    try:
        os.rmdir(turn)
    except OSError:
        return False
    return True

worker = select.poll()
worker.register(0, 0)
time.sleep(0.1)
while os.path.isdir({turns!r}) and not any(map(took, glob.glob({turns!r} + "/*"))):
    if worker.poll(100):
        sys.exit()
os.execv({program!r}, [{program!r}, *sys.argv[1:]])
"""
