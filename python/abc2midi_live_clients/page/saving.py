"""Saving a book without loss: a new file replaces the old one in one step, or the save is refused with the reason."""

import errno
import hashlib
import os
import stat
import sys
from contextlib import nullcontext, suppress
from typing import BinaryIO, NamedTuple, Optional

from abc2midi_live.reading import bytes_of_book

from ..common.regular_file import open_regular, refuse_others
from ..common.replaced_file import exchange, give_free_name, name_beside, new_file, replace, sync_names


class NotSaved(Exception):
    """The book is not saved, and is as it was: a sentence says why."""


class BookChanged(Exception):
    """Another program changed the book: the digest of its present content, None if there is no book any more."""

    def __init__(self, present: Optional[str]):
        super().__init__("another program changed the book on disk" if present else "the book is no longer on disk")
        self.present = present


class Stamp(NamedTuple):
    """What changes when a file is written or replaced."""

    device: int
    inode: int
    size: int
    modified: int
    changed: int


def digest(data: bytes) -> str:
    """A short name of one content of a book."""
    return hashlib.sha256(data).hexdigest()


def digest_of(data: Optional[bytes]) -> Optional[str]:
    """The same, of a book that may not be there."""
    return None if data is None else digest(data)


def stamp_of(path: str) -> Optional[Stamp]:
    """The stamp of a book, None if there is none."""
    try:
        found = os.lstat(path)
    except FileNotFoundError:
        return None
    refuse_others(path, found)
    return Stamp(found.st_dev, found.st_ino, found.st_size, found.st_mtime_ns, found.st_ctime_ns)


def open_book(path: str) -> Optional[BinaryIO]:
    """Opens a book for reading; None if there is none."""
    try:
        return open_regular(path, follows=False)
    except FileNotFoundError:
        return None


def read_book(path: str) -> Optional[bytes]:
    """The bytes of a book, None if there is none."""
    file = open_book(path)
    if file is None:
        return None
    with file:
        return bytes_of_book(file)


def save_book(path: str, data: bytes, expected: Optional[str]) -> None:
    """Replaces a book whose content has the expected digest; makes one if None is expected. The new file has the owner, the
    group, the rights and the extended attributes of the old one. Whatever is raised, the old file is as it was."""
    with open_book(path) or nullcontext() as file:
        old = None if file is None else file.fileno()
        if old is not None:
            refuse_loss(path, os.fstat(old))
        compare(path, expected)
        new = write_beside(path, data, old)
        try:
            put_in_place(new, path, expected)
        finally:
            with suppress(OSError):
                os.unlink(new)
    sync_names(os.path.dirname(path))


def refuse_loss(path: str, old: os.stat_result) -> None:
    """Refuses to replace a file that is read-only, or that has other names."""
    if not old.st_mode & 0o222 or not os.access(path, os.W_OK):
        raise NotSaved("the file is read-only")
    if old.st_nlink > 1:
        raise NotSaved(f"the file has {old.st_nlink} names (hard links), and a new file would have this one alone")


def compare(path: str, expected: Optional[str]) -> None:
    """Raises `BookChanged` if the book has another content than the expected one."""
    before = stamp_of(path)
    present = digest_of(read_book(path))
    if present != expected or stamp_of(path) != before:
        raise BookChanged(present)


def write_beside(path: str, data: bytes, old: Optional[int]) -> str:
    """The name of a new file with these bytes, on the disk, with everything else of the old one. Nobody else may read it before that."""
    name = name_beside(path)
    with new_file(name, 0o600, syncs=True) as file:
        file.write(data)
        file.flush()
        new = file.fileno()
        if old is None:
            os.fchmod(new, 0o666 & ~UMASK)
        else:
            keep_owner(old, new)
            keep_attributes(old, new)
            os.fchmod(new, stat.S_IMODE(os.fstat(old).st_mode))
    return name


def put_in_place(new: str, path: str, expected: Optional[str]) -> None:
    """Gives a new file the book's name. The two files exchange their names, so that the file that is replaced can be looked at
    once more. What remains unseen is a program that has the old file open and writes it later. If the system cannot exchange names,
    some microseconds between the last look and the replacement remain, too."""
    if expected is None:
        try:
            if give_free_name(new, path):
                return
        except FileExistsError:
            raise BookChanged(digest_of(read_book(path))) from None
    compare(path, expected)
    own = stamp_of(new)
    try:
        is_exchanged = expected is not None and exchange(new, path)
    except FileNotFoundError:
        raise BookChanged(None) from None
    if not is_exchanged:
        replace(new, path)
        return
    try:
        present = digest_of(read_book(new))
    except BaseException:  # nobody knows what the file is that was replaced
        take_back(new, path, own)
        raise
    if present != expected:
        take_back(new, path, own)
        raise BookChanged(present)


def take_back(new: str, path: str, own: Optional[Stamp]) -> None:
    """Exchanges the names again. If yet another program replaced the book meanwhile, its file keeps the name."""
    try:
        exchange(new, path)
    except FileNotFoundError:  # it was removed meanwhile
        replace(new, path)
    now = stamp_of(new)
    if own and now and now.inode != own.inode:
        exchange(new, path)


def keep_owner(old: int, new: int) -> None:
    """Gives a new file the owner and the group of the old one."""
    before, after = os.fstat(old), os.fstat(new)
    if (before.st_uid, before.st_gid) == (after.st_uid, after.st_gid):
        return
    try:
        os.fchown(new, before.st_uid, before.st_gid)
    except OSError as error:
        raise NotSaved("the file belongs to another user or group, and a new file would not") from error


def keep_attributes(old: int, new: int) -> None:
    """Gives a new file the extended attributes of the old one, access lists among them."""
    if sys.platform != "linux":
        return
    try:
        before, after = attributes(old), attributes(new)
        for name in after.keys() - before.keys():
            os.removexattr(new, name)
        for name, value in before.items():
            if after.get(name) != value:
                os.setxattr(new, name, value)
    except OSError as error:
        raise NotSaved("the file has extended attributes that a new file cannot get") from error


def attributes(descriptor: int) -> dict[str, bytes]:
    """The extended attributes of a file. Some file systems have none."""
    if sys.platform != "linux":
        return {}
    try:
        return {name: os.getxattr(descriptor, name) for name in os.listxattr(descriptor)}
    except OSError as error:
        if error.errno != errno.ENOTSUP:
            raise
        return {}


def umask() -> int:
    """The rights that new files of this process do not get."""
    mask = os.umask(0o077)
    os.umask(mask)
    return mask


UMASK = umask()  # read before there are other threads
