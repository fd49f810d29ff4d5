"""Writes files that replace others. No other module of the clients does that.

- A reader sees the old file or the new one, as a whole: the new file is written beside the old one, and takes its name in one step.
- The file beside the old one is made for that alone, so no link is followed. It goes if anything fails.
- A link of that name is replaced, and the file that it names stays as it is.
- A book reaches the disk before it takes the name (`syncs`). Other files are made again from it, so they need not."""

import ctypes
import errno
import os
from collections.abc import Iterator
from contextlib import contextmanager, suppress
from typing import BinaryIO, Optional

LIBRARY = ctypes.CDLL(None, use_errno=True)
HERE, RENAME_EXCHANGE = -100, 2  # Linux: names are relative to the present folder; two names are exchanged
CREATING = os.O_WRONLY | os.O_CREAT | os.O_EXCL | os.O_CLOEXEC
RIGHTS = 0o666  # of a new file, but for those that the user's mask takes


def name_beside(path: str) -> str:
    """Returns a new name in the folder of a file. It is short: the name of the file may be as long as names can be."""
    return os.path.join(os.path.dirname(path), f".abc2midi_live.{os.urandom(8).hex()}")


@contextmanager
def new_file(path: str, rights: int = RIGHTS, syncs: bool = False, folder: Optional[int] = None) -> Iterator[BinaryIO]:
    """A new file, whose name may be one in an open folder. It is complete at the end, and on the disk if it `syncs`; if anything is
    raised it is gone. Raises OSError."""
    descriptor = os.open(path, CREATING, rights, dir_fd=folder)
    try:
        with os.fdopen(descriptor, "wb") as file:
            yield file
            file.flush()
            if syncs:
                os.fsync(descriptor)
    except BaseException:
        with suppress(OSError):
            os.unlink(path, dir_fd=folder)
        raise


@contextmanager
def replacing(path: str, new: str = "", rights: int = RIGHTS, folder: Optional[int] = None) -> Iterator[BinaryIO]:
    """A new file, by this name or any other one, which replaces the one at the path at the end. Raises OSError."""
    new = new or name_beside(path)
    with new_file(new, rights, folder=folder) as file:
        yield file
    try:
        os.replace(new, path, src_dir_fd=folder, dst_dir_fd=folder)
    except BaseException:
        with suppress(OSError):
            os.unlink(new, dir_fd=folder)
        raise


def give_free_name(new: str, path: str) -> bool:
    """Gives a file a name that no file has; False if the file system cannot do that. Raises FileExistsError."""
    try:
        os.link(new, path)
    except FileExistsError:
        raise
    except OSError:  # a file system without hard links
        return False
    return True


def replace(new: str, path: str) -> None:
    """Gives a file another name, which may be that of another one."""
    os.replace(new, path)


def name_folder(new: str, path: str) -> None:
    """Gives a new folder its name, which may be that of an empty folder. Raises OSError."""
    os.rename(new, path)


def exchange(one: str, other: str) -> bool:
    """Exchanges the names of two files in one step; False if the system cannot do that. Raises OSError."""
    call = getattr(LIBRARY, "renameat2", None)
    if call is None:
        return False
    if call(HERE, os.fsencode(one), HERE, os.fsencode(other), RENAME_EXCHANGE) == 0:
        return True
    number = ctypes.get_errno()
    if number in (errno.EINVAL, errno.ENOSYS):
        return False
    raise OSError(number, os.strerror(number))


def sync_names(folder: str) -> None:
    """Brings the names of a folder to the disk, if its file system can do that."""
    with suppress(OSError):
        descriptor = os.open(folder, os.O_RDONLY | os.O_DIRECTORY | os.O_CLOEXEC)
        try:
            os.fsync(descriptor)
        finally:
            os.close(descriptor)
