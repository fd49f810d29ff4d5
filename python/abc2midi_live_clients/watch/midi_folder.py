"""The folder of a book's MIDI files: its lock, and files that should or should not be there."""

import errno
import os
import re
from collections.abc import Collection
from contextlib import suppress
from typing import Optional

from ..common.lock_file import FileLocked, lock_file, open_lock, write_owner
from ..common.replaced_file import replacing

LOCK = ".watch.lock"
OWN_NAME = re.compile(r"(0|[1-9][0-9]{0,8})\.mid")
HALF_WRITTEN = re.compile(r"\.(0|[1-9][0-9]{0,8})\.mid\.new")


class FolderTaken(Exception):
    """Another watcher keeps the folder current."""


class MidiFolder:
    """The folder of the files `N.mid`. Only these names are the program's, and `.N.mid.new` while it writes one."""

    def __init__(self, path: str):
        self.path = path
        self.lock: Optional[int] = None

    def make(self) -> bool:
        """Makes the folder if only the last part of its path is missing, and returns whether it did."""
        try:
            os.mkdir(self.path)
        except FileExistsError:
            if not os.path.isdir(self.path):
                raise NotADirectoryError(errno.ENOTDIR, os.strerror(errno.ENOTDIR), self.path) from None
            return False
        return True

    def take(self) -> None:
        """Locks the folder against other watchers. The system frees the lock when this process ends, in whatever way."""
        self.release()
        while self.lock is None:
            descriptor = open_lock(self.inside(LOCK))
            try:
                lock_file(descriptor)
            except FileLocked as locked:
                os.close(descriptor)
                why = f"another watcher keeps this folder current{locked.owner}; end it, or name another folder by --dir"
                raise FolderTaken(why) from None
            except OSError:
                os.close(descriptor)
                raise
            if self.is_at_its_place(descriptor):
                self.lock = descriptor
                write_owner(descriptor)
            else:  # the watcher that had it has just ended, and removed it
                os.close(descriptor)

    def is_at_its_place(self, descriptor: int) -> bool:
        """Whether an open lock is still the one in the folder."""
        try:
            there = os.stat(self.inside(LOCK), follow_symlinks=False)
        except FileNotFoundError:
            return False
        return os.path.samestat(os.fstat(descriptor), there)

    def release(self) -> None:
        """Unlocks the folder."""
        if self.lock is not None:
            with suppress(OSError):
                if self.is_at_its_place(self.lock):
                    os.unlink(self.inside(LOCK))
            os.close(self.lock)
            self.lock = None

    def leftovers(self, numbers: Collection[int]) -> list[str]:
        """The files of an earlier run that belong to none of these numbers, and files that it wrote by half."""
        files, halves = [], []
        with os.scandir(self.path) as entries:
            for entry in entries:
                own, half = OWN_NAME.fullmatch(entry.name), HALF_WRITTEN.fullmatch(entry.name)
                if entry.is_dir(follow_symlinks=False):
                    continue
                if own and int(own[1]) not in numbers:
                    files.append(int(own[1]))
                elif half:
                    halves.append(int(half[1]))
        return [f"{number}.mid" for number in sorted(files)] + [f".{number}.mid.new" for number in sorted(halves)]

    def remove(self, names: list[str]) -> None:
        """Removes files."""
        for name in names:
            with suppress(FileNotFoundError):
                os.unlink(self.inside(name))

    def missing(self, numbers: Collection[int]) -> list[int]:
        """Those of the numbers that have no file, rising."""
        names = set(os.listdir(self.path))
        return sorted(number for number in numbers if f"{number}.mid" not in names)

    def write(self, number: int, data: bytes) -> None:
        """Writes the file of a number, as the program does: under another name, which then replaces it."""
        new = self.inside(f".{number}.mid.new")
        with suppress(FileNotFoundError):
            os.unlink(new)
        with replacing(self.inside(f"{number}.mid"), new) as file:
            file.write(data)

    def inside(self, name: str) -> str:
        """The path of a name in the folder."""
        return os.path.join(self.path, name)
