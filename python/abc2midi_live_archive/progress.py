"""Progress on standard error: a bar in a terminal if tqdm is installed, else a line now and then."""

from __future__ import annotations

import importlib
import sys
import time
from abc import ABC, abstractmethod
from typing import Any, Optional, TextIO

from abc2midi_live_clients.common.clock import clock

SECONDS_BETWEEN_LINES = 10.0
SECONDS_IN_A_TERMINAL = 2.0


class Progress(ABC):
    """What a run shows of itself."""

    @abstractmethod
    def step(self, tunes: int) -> None:
        """Notes that a book is done, with this number of tunes."""

    @abstractmethod
    def message(self, text: str, stream: TextIO) -> None:
        """Prints a line to a stream."""

    @abstractmethod
    def close(self) -> None:
        """Ends the display."""


class Bar(Progress):
    """A bar of tqdm."""

    def __init__(self, total: int, bar: Any):
        self.bar = bar(total=total, unit="book", file=sys.stderr, dynamic_ncols=True)
        self.tunes = 0

    def step(self, tunes: int) -> None:
        self.tunes += tunes
        self.bar.set_postfix(tunes=self.tunes, refresh=False)
        self.bar.update()

    def message(self, text: str, stream: TextIO) -> None:
        self.bar.write(text, file=stream)

    def close(self) -> None:
        self.bar.close()


class Lines(Progress):
    """A line now and then."""

    def __init__(self, total: int, seconds: float):
        self.total, self.seconds = total, seconds
        self.books = self.tunes = 0
        self.started = self.printed = time.monotonic()

    def step(self, tunes: int) -> None:
        self.books += 1
        self.tunes += tunes
        now = time.monotonic()
        if now - self.printed >= self.seconds and self.books < self.total:
            self.printed = now
            print(line(self.books, self.total, self.tunes, now - self.started), file=sys.stderr, flush=True)

    def message(self, text: str, stream: TextIO) -> None:
        print(text, file=stream, flush=True)

    def close(self) -> None:
        pass


def line(books: int, total: int, tunes: int, seconds: float) -> str:
    """Returns how far a run is, how fast, and how long it will take."""
    left = seconds / books * (total - books)
    return f"{books} of {total} books, {tunes} tunes, {tunes / max(seconds, 0.001):.0f} tunes a second, about {clock(left)} left"


def start_progress(total: int) -> Progress:
    """Returns the progress of a run over this number of books."""
    if not sys.stderr.isatty():
        return Lines(total, SECONDS_BETWEEN_LINES)
    bar = loaded_tqdm()
    return Bar(total, bar) if bar else Lines(total, SECONDS_IN_A_TERMINAL)


def loaded_tqdm() -> Optional[Any]:
    """Returns the bar of tqdm, if it is installed."""
    try:
        return importlib.import_module("tqdm").tqdm
    except ImportError:
        return None
