"""Stores the MIDI files of a book in its folder: each is complete or not there, and one that has its bytes already stays.

The folder is opened once, and not if a symbolic link is in its place. All that follows is done in what was opened, and no link in it
is followed. So no file outside the archive is read, written or removed."""

from __future__ import annotations

import errno
import os
import re
import stat
import uuid
from collections.abc import Iterable, Iterator, Mapping
from contextlib import contextmanager, suppress
from typing import Optional

from abc2midi_live_clients.common.regular_file import open_regular
from abc2midi_live_clients.common.replaced_file import CREATING, RIGHTS, name_folder, replacing

from .disks import sync_file_system

MIDI_NAME = re.compile(r"(0|[1-9][0-9]{0,8})\.mid")
HALF_NAME = re.compile(r"\.(0|[1-9][0-9]{0,8})\.mid\.[0-9a-f]{8}\.new")
OPENING = os.O_RDONLY | os.O_NOFOLLOW | os.O_DIRECTORY | os.O_CLOEXEC


@contextmanager
def open_folder(path: str) -> Iterator[Optional[int]]:
    """The descriptor of a folder, or None if there is no folder. Raises OSError."""
    try:
        folder = os.open(path, OPENING)
    except FileNotFoundError:
        yield None
        return
    except OSError:
        if os.path.islink(path):
            raise OSError(errno.ELOOP, "its folder is a symbolic link", path) from None
        raise
    try:
        yield folder
    finally:
        os.close(folder)


def store_files(path: str, files: Mapping[int, bytes], syncs: bool = False) -> None:
    """Makes a folder have these files and no others of their form, on its disk if it `syncs`. Raises OSError; then the folder has some
    of them, or is not there if it was not there."""
    if files and store_new_folder(path, files, syncs):
        return
    if files:
        with suppress(FileExistsError):
            os.mkdir(path)
    with open_folder(path) as folder:
        if folder is None:
            return
        present = set(os.listdir(folder))
        remove_names(folder, filter(HALF_NAME.fullmatch, present))
        write_files(folder, present, files)
        remove_names(folder, others(present, files))
        if syncs:
            sync_file_system(folder)


def store_new_folder(path: str, files: Mapping[int, bytes], syncs: bool) -> bool:
    """Makes a folder that is not there. It gets its name when it has all files, in one step, which takes less time than a step for each
    file. Returns False if something has the name, or the other name, as a run leaves it that is killed. Raises OSError."""
    new = name_of_new(path)
    if os.path.lexists(path):
        return False
    try:
        os.mkdir(new)
    except FileExistsError:
        remove_new_folder(path)
        return False
    try:
        with open_folder(new) as folder:
            if folder is None:
                return False
            for number, data in files.items():
                write_file(folder, f"{number}.mid", data)
            name_folder(new, path)
            if syncs:
                sync_file_system(folder)
    except BaseException as error:
        remove_new_folder(path)
        if isinstance(error, OSError) and error.errno in (errno.EEXIST, errno.ENOTEMPTY, errno.ENOTDIR):  # something took the name
            return False
        raise
    return True


def name_of_new(path: str) -> str:
    """Returns the name of the folder of a book before it has all files. No book has a name with a point at its begin."""
    above, name = os.path.split(path)
    return os.path.join(above, f".{name}.new")


def write_file(folder: int, name: str, data: bytes) -> None:
    """Writes a new file. Raises OSError."""
    file = os.open(name, CREATING, RIGHTS, dir_fd=folder)
    try:
        written = os.write(file, data)
        while written < len(data):
            written += os.write(file, data[written:])
    finally:
        os.close(file)


def remove_new_folder(path: str) -> None:
    """Removes the folder that has the files of a book before it has its name. Files of others stay, with the folder."""
    new = name_of_new(path)
    with suppress(OSError), open_folder(new) as folder:
        if folder is not None:
            remove_names(folder, filter(MIDI_NAME.fullmatch, os.listdir(folder)))
            os.rmdir(new)


def write_files(folder: int, present: set[str], files: Mapping[int, bytes]) -> None:
    """Writes those files that a folder does not have with their bytes."""
    mark = uuid.uuid4().hex[:8]
    for number, data in files.items():
        name = f"{number}.mid"
        if name not in present or not has_bytes(folder, name, data):
            with replacing(name, f".{name}.{mark}.new", folder=folder) as file:
                file.write(data)


def others(present: set[str], files: Mapping[int, bytes]) -> Iterator[str]:
    """Yields the names of MIDI files that are none of these."""
    for name in present:
        own = MIDI_NAME.fullmatch(name)
        if own and int(own[1]) not in files:
            yield name


def has_bytes(folder: int, name: str, data: bytes) -> bool:
    """Returns whether a file has these bytes."""
    try:
        with open_regular(name, follows=False, folder=folder) as file:
            return file.read(len(data) + 1) == data
    except OSError:
        return False


def has_files(path: str, sizes: Mapping[int, int]) -> bool:
    """Returns whether a folder has files of these numbers, with these sizes. Raises OSError."""
    with open_folder(path) as folder:
        return not sizes or folder is not None and all(size_of_file(folder, f"{number}.mid") == size for number, size in sizes.items())


def size_of_file(folder: int, name: str) -> Optional[int]:
    """Returns the size of a regular file, or None if there is none."""
    try:
        found = os.stat(name, dir_fd=folder, follow_symlinks=False)
    except OSError:
        return None
    return found.st_size if stat.S_ISREG(found.st_mode) else None


def remove_halves(path: str) -> None:
    """Removes the files that a killed worker wrote by half."""
    remove_new_folder(path)
    with open_folder(path) as folder:
        if folder is not None:
            remove_names(folder, filter(HALF_NAME.fullmatch, os.listdir(folder)))


def remove_names(folder: int, names: Iterable[str]) -> None:
    """Removes files that may be gone already."""
    for name in names:
        with suppress(FileNotFoundError):
            os.unlink(name, dir_fd=folder)
