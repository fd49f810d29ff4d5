"""A tune book on disk, and when an editor saved it."""

import os
import time
from collections.abc import Callable
from typing import BinaryIO, Optional

from abc2midi_live.reading import bytes_of_book

from .regular_file import open_regular

SECONDS_TO_SETTLE = 0.01  # between two reads that must agree
SECONDS_OF_EMPTINESS = 0.4  # an editor may empty a file before it writes it
SECONDS_OF_A_TICK = 3  # no file system's clock ticks more slowly; two saves within one tick may look the same

Signature = tuple[int, int, int, int, int]


class BookFile:
    """A tune book that editors save: by writing, by renaming, or by emptying it first."""

    def __init__(
        self,
        path: str,
        pause: Callable[[float], object] = time.sleep,
        clock: Callable[[], float] = time.monotonic,
    ):
        self.path = path
        self.pause = pause
        self.clock = clock
        self.data: Optional[bytes] = None  # the bytes that `saved` returned last
        self.data_signature: Optional[Signature] = None
        self.signature: Optional[Signature] = None  # at the last look
        self.since = 0.0  # when a look found that signature first
        self.is_settled = False  # no other save can have that signature
        self.empty_since: Optional[float] = None  # when a look found it empty first

    def saved(self) -> Optional[bytes]:
        """The bytes of the book if somebody saved it since the last call that returned some, or if it could not be read
        meanwhile, else None. The bytes may be the same as before. Raises OSError if the book cannot be read."""
        try:
            return self.read_if_changed()
        except OSError:
            self.signature, self.data_signature, self.empty_since = None, None, None
            raise

    def read_if_changed(self) -> Optional[bytes]:
        """Reads the book, unless its signature shows that nobody saved it."""
        with open_regular(self.path) as file:
            signature = signature_of(file)
            if signature != self.signature:
                self.signature, self.since, self.is_settled = signature, self.clock(), False
            if self.is_settled:
                return None
            age = self.clock() - self.since
            data = bytes_of_book(file)
        if self.is_just_emptied(data):
            return None
        if (signature, data) == (self.data_signature, self.data):
            self.is_settled = age >= SECONDS_OF_A_TICK
            return None
        return self.read_again(signature, data)

    def is_just_emptied(self, data: bytes) -> bool:
        """Returns whether the book has been empty for a moment only."""
        if data:
            self.empty_since = None
            return False
        if self.empty_since is None:
            self.empty_since = self.clock()
        return self.clock() - self.empty_since < SECONDS_OF_EMPTINESS

    def read_again(self, signature: Signature, data: bytes) -> Optional[bytes]:
        """These bytes if a second read finds the same, else None: then the save goes on."""
        self.pause(SECONDS_TO_SETTLE)
        with open_regular(self.path) as file:
            if bytes_of_book(file) != data:
                return None
        self.data, self.data_signature = data, signature
        return data


def signature_of(file: BinaryIO) -> Signature:
    """What a save changes: the file itself, its size, and its times."""
    found = os.fstat(file.fileno())
    return found.st_dev, found.st_ino, found.st_size, found.st_mtime_ns, found.st_ctime_ns
