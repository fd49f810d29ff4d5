"""Opens the files that users name, books first of all. No other module of the clients opens a book.

- Only a regular file is read. Opening a pipe would wait, and opening a device may have effects, so neither is opened.
- A link is followed if the user named it. It is not followed if a client found the name itself, as in a folder, because a link may lead
  out of that folder; nor if the file is about to be replaced, because the link would be replaced instead.
- The look at the kind comes before the opening, and once more after it, since another program may change what has the name."""

import errno
import os
import stat
from typing import BinaryIO, Optional

OPENING = os.O_RDONLY | os.O_NONBLOCK | os.O_NOCTTY | os.O_CLOEXEC  # never waits


class NotRegular(OSError):
    """Something else than a regular file has the name."""

    def __init__(self, path: str, mode: int = 0):
        kind = "a symbolic link, and " if stat.S_ISLNK(mode) else "a folder, and " if stat.S_ISDIR(mode) else ""
        super().__init__(errno.EINVAL, f"it is {kind}not a regular file", path)


def refuse_others(path: str, found: os.stat_result) -> None:
    """Raises NotRegular if what was found at a path is no regular file."""
    if not stat.S_ISREG(found.st_mode):
        raise NotRegular(path, found.st_mode)


def open_regular(path: str, follows: bool = True, folder: Optional[int] = None) -> BinaryIO:
    """Opens a regular file for reading; its name may be one in an open folder. Raises OSError."""
    refuse_others(path, os.stat(path, dir_fd=folder, follow_symlinks=follows))
    descriptor = os.open(path, OPENING if follows else OPENING | os.O_NOFOLLOW, dir_fd=folder)
    try:
        refuse_others(path, os.fstat(descriptor))
        return os.fdopen(descriptor, "rb")
    except BaseException:
        os.close(descriptor)
        raise
