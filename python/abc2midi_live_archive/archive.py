"""The folder of an archive: it is made if only its last part is missing, and one run at a time has it."""

from __future__ import annotations

import errno
import os

from abc2midi_live_clients.common.lock_file import FileLocked, lock_file, open_lock, write_owner

from .disks import sync_file_system

LOCK = ".archive.lock"  # it stays: a lock file that is removed could be locked twice


class ArchiveTaken(Exception):
    """Another run has the archive."""


class Folder:
    """The folder of an archive, which may be missing."""

    def __init__(self, path: str):
        self.path = os.path.abspath(path)

    def inside(self, name: str) -> str:
        """Returns the path of a name in the folder."""
        return os.path.join(self.path, name)

    def names(self) -> list[str]:
        """Returns the names in the folder. Raises OSError."""
        try:
            return os.listdir(self.path)
        except FileNotFoundError:
            return []


class Archive(Folder):
    """A folder that this run has locked. The system frees the lock when this process ends, in whatever way."""

    def __init__(self, path: str):
        """Makes and locks the folder. Raises OSError and ArchiveTaken."""
        super().__init__(path)
        try:
            os.mkdir(self.path)
        except FileExistsError:
            if not os.path.isdir(self.path):
                raise NotADirectoryError(errno.ENOTDIR, os.strerror(errno.ENOTDIR), path) from None
        self.lock = open_lock(self.inside(LOCK))
        try:
            lock_file(self.lock)
        except FileLocked as locked:
            os.close(self.lock)
            raise ArchiveTaken(f"another run works in this folder{locked.owner}; wait for it, or name another folder by --to") from None
        write_owner(self.lock)

    def sync(self) -> None:
        """Has all files of the folder reach its disk. Raises OSError."""
        sync_file_system(self.lock)

    def release(self) -> None:
        """Frees the folder."""
        os.close(self.lock)
