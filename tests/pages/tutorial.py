"""Follows the steps of docs/tutorial.md: saves each book, and compares what the watcher prints."""

from __future__ import annotations

import os
import queue
import re
import signal
import subprocess
import sys
import tempfile
import threading
from pathlib import Path
from typing import Optional

from .markdown import TOP, Block, fenced_blocks
from .outcome import Outcome, Outcomes, difference

PAGE = TOP / "docs/tutorial.md"
SECONDS = 60  # that the watcher has for a line
WATCH = "$ abc2midi_live-watch "


class Reader:
    """A musician in a folder, with a watcher."""

    def __init__(self, program: str, folder: str):
        self.program, self.folder = program, folder
        self.watcher: Optional[subprocess.Popen[str]] = None
        self.lines: queue.Queue[str] = queue.Queue()

    def watch(self, words: str) -> None:
        """Starts the watcher, without a player."""
        self.stop()
        options = re.sub(r" --play \S+", "", words.removeprefix(WATCH)).split()
        signal.signal(signal.SIGINT, signal.default_int_handler)  # the watcher ignores Ctrl-C if it inherits that
        command = [sys.executable, "-B", str(TOP / "clients/watch"), *options, "--program", self.program]
        self.watcher = subprocess.Popen(command, cwd=self.folder, stdout=subprocess.PIPE, text=True, encoding="utf-8")
        threading.Thread(target=self.read, args=(self.watcher,), daemon=True).start()

    def read(self, watcher: subprocess.Popen[str]) -> None:
        """Gathers what the watcher prints."""
        assert watcher.stdout
        for line in watcher.stdout:
            self.lines.put(line.rstrip("\n"))

    def stop(self) -> None:
        """Ends the watcher by Ctrl-C."""
        if self.watcher:
            self.watcher.send_signal(signal.SIGINT)
            self.watcher.wait(SECONDS)

    def compare(self, wanted: list[str]) -> Optional[str]:
        """What is wrong with the next lines of the watcher, or None. Times differ."""
        found = []
        for _ in wanted:
            try:
                found.append(self.lines.get(timeout=SECONDS))
            except queue.Empty:
                break
        return difference([without_time(line) for line in found], [without_time(line) for line in wanted])

    def follow(self, block: Block) -> Optional[str]:
        """Does what a block says; what is wrong, or None."""
        lines = block.text.splitlines()
        if block.kind == "abc":
            Path(self.folder, "book.abc").write_text(block.text, "utf-8")
        elif block.kind == "text":
            return self.compare(lines)
        elif lines[0].startswith(WATCH):
            self.watch(lines[0])
            return self.compare(lines[1:])
        elif lines[0].startswith("$ timidity "):
            name = lines[0].split()[-1]
            return None if os.path.isfile(os.path.join(self.folder, name)) else f"there is no {name}"
        return None


def without_time(line: str) -> str:
    return re.sub(r"\d+ ms$", "0 ms", line)


def tutorial(program: Optional[str]) -> Outcomes:
    """The steps of the tutorial, if there is a program."""
    if not program:
        yield Outcome("the steps of docs/tutorial.md: no program was named", is_skipped=True)
        return
    with tempfile.TemporaryDirectory() as folder:
        reader = Reader(program, folder)
        try:
            for block in fenced_blocks(PAGE):
                yield Outcome(f"docs/tutorial.md: {block.text.splitlines()[-1]}", reader.follow(block))
        finally:
            reader.stop()
