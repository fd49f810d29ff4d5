"""A file by which one process at a time has a folder."""

import fcntl
import os
import re
from contextlib import suppress


class FileLocked(Exception):
    """Another process has the file. `owner` is the number of that process in parentheses, or nothing if the file does not have it."""

    def __init__(self, owner: str):
        super().__init__(owner)
        self.owner = owner


def open_lock(path: str) -> int:
    """Opens a lock file. One that another user made may be read only, and can be locked too."""
    try:
        return os.open(path, os.O_RDWR | os.O_CREAT | os.O_NOFOLLOW | os.O_CLOEXEC, 0o666)
    except PermissionError:
        with suppress(FileNotFoundError):  # then the folder is the reason
            return os.open(path, os.O_RDONLY | os.O_NOFOLLOW | os.O_CLOEXEC)
        raise


def lock_file(descriptor: int) -> None:
    """Locks a file that is open, till it is closed. Raises FileLocked."""
    try:
        fcntl.flock(descriptor, fcntl.LOCK_EX | fcntl.LOCK_NB)
    except BlockingIOError:
        owner = re.match(rb"[0-9]{1,10}", os.read(descriptor, 10))
        raise FileLocked(f" (process {owner[0].decode()})" if owner else "") from None


def write_owner(descriptor: int) -> None:
    """Writes the number of this process into a lock file, unless another user made the file."""
    with suppress(OSError):
        os.ftruncate(descriptor, 0)
        os.write(descriptor, b"%d\n" % os.getpid())
