"""Shows how far a run of `rt ci` is: crates and functions proved, of how many, and about how long the rest takes."""

from __future__ import annotations

import os
import re
import signal
import subprocess
import sys
import threading
import time
from pathlib import Path
from typing import Callable, Optional, TextIO

from crate_list import Crate

DONE = re.compile(r"rt: (\w+) (proved|is kept)\b")
SECONDS_BETWEEN_LOOKS = 1.0


def minutes(seconds: float) -> str:
    """A time in words: '40 s', '9 min' or '1 h 5 min'."""
    if seconds < 60:
        return f"{max(round(seconds), 1)} s"
    whole = round(seconds / 60)
    return f"{whole} min" if whole < 60 else f"{whole // 60} h {whole % 60} min"


class Progress:
    """What is done of a run. The rest takes as long for a function as those that the run proved."""

    def __init__(self, crates: dict[str, Crate], now: Callable[[], float] = time.monotonic):
        self.crates, self.now = crates, now
        self.since = now()
        self.kept: set[str] = set()  # proved by earlier runs
        self.proved: set[str] = set()

    def read(self, line: str) -> Optional[str]:
        """Takes a line of the run, and returns the name of the crate that it reports as done, if it does."""
        found = DONE.match(line)
        if not found or found[1] not in self.crates or found[1] in self.kept | self.proved:
            return None
        (self.kept if found[2] == "is kept" else self.proved).add(found[1])
        return found[1]

    def functions(self, names: set[str]) -> int:
        return sum(self.crates[name].functions for name in names)

    def words(self) -> str:
        """One line: what is done, how long it took, and what is left."""
        done, passed = self.kept | self.proved, self.now() - self.since
        words = f"{len(done)} of {len(self.crates)} crates, {self.functions(done):,} of {self.functions({*self.crates}):,} functions, {minutes(passed)}"
        left, proved = self.functions({*self.crates} - done), self.functions(self.proved)
        return f"{words}, about {minutes(passed * left / proved)} left" if left and proved else words


class Display:
    """The line at the bottom of a terminal, or plain lines if standard error is none. The output of the run may go to the same
    terminal; the line makes way for it then."""

    def __init__(self, progress: Progress, to: TextIO, out: TextIO):
        self.progress, self.to, self.out = progress, to, out
        self.makes_way = out is sys.stdout
        self.is_terminal = to.isatty()
        self.writing = threading.Lock()
        self.last = time.monotonic()

    def clear(self) -> None:
        if self.is_terminal:
            print("\r\x1b[K", end="", file=self.to, flush=True)

    def look(self) -> None:
        """Writes the line anew, unless output has just passed."""
        with self.writing:
            has_room = not self.makes_way or time.monotonic() - self.last > SECONDS_BETWEEN_LOOKS / 2
            if self.is_terminal and has_room:
                width = os.get_terminal_size(self.to.fileno()).columns - 1
                print(f"\r\x1b[K{self.progress.words()[:width]}", end="", file=self.to, flush=True)

    def take(self, line: str) -> None:
        """Passes a line of the run on, and writes what it says of the progress."""
        with self.writing:
            if self.makes_way:
                self.clear()
            self.last = time.monotonic()
            self.out.write(line)
            self.out.flush()
            name = self.progress.read(line)
            if name and not self.is_terminal:
                how = "is kept" if name in self.progress.kept else "is proved"
                print(f"{name} {how}: {self.progress.words()}", file=self.to, flush=True)


def run(words: list[str], folder: Path, crates: dict[str, Crate], out: TextIO) -> int:
    """Runs a command in a folder, writes its output to `out` and its progress to standard error, and returns its status."""
    ended = threading.Event()

    def tick() -> None:
        while not ended.wait(SECONDS_BETWEEN_LOOKS):
            display.look()

    ticking = threading.Thread(target=tick, daemon=True)
    with subprocess.Popen(words, cwd=folder, stdout=subprocess.PIPE, stderr=subprocess.STDOUT, text=True) as child:
        display = Display(Progress(crates), sys.stderr, out)
        ticking.start()
        assert child.stdout
        try:
            for line in child.stdout:
                display.take(line)
        except BaseException:
            child.send_signal(signal.SIGTERM)
            raise
        finally:
            ended.set()
            ticking.join()
            display.clear()
    return child.returncode
