"""An archive that is one file `.zip`. A run works in a folder beside it, which is removed when the file is written."""

from __future__ import annotations

import errno
import os
import re
import shutil
import zipfile
from collections.abc import Iterator

from abc2midi_live_clients.common.replaced_file import replacing

from .catalogue import NAME
from .reading import as_os_error, is_zip

MEMBER = re.compile(r"([^/\\\0]+/)?[^/\\\0]+")  # a file of the folder, or of the folder of a book in it
DOTS = re.compile(r"\.*")


class NotAnArchive(OSError):
    """A file `.zip` that no run wrote."""


def is_zip_archive(path: str) -> bool:
    """Returns whether an archive is to be one file."""
    return is_zip(path) and not os.path.isdir(path)


def work_folder(path: str) -> str:
    """Returns the folder in which a run works on a file. A run that is stopped leaves it for the next one."""
    place, name = os.path.split(os.path.abspath(path))
    return os.path.join(place, f".{name}.archive")


def unpack(path: str, folder: str) -> None:
    """Unpacks a file into its folder, if it is there and no run left it unpacked. The catalogue comes last. Raises OSError."""
    if os.path.exists(os.path.join(folder, NAME)) or not os.path.lexists(path):
        return
    try:
        with zipfile.ZipFile(path) as packed:
            names = packed.namelist()
            if NAME not in names:
                raise NotAnArchive(errno.EINVAL, f"it has no {NAME}, so it is no archive of this program; name another file by --to", path)
            for name in sorted(names, key=lambda name: name == NAME):
                unpack_member(packed, name, folder)
    except Exception as error:
        raise as_os_error(error, path) from error


def unpack_member(packed: zipfile.ZipFile, name: str, folder: str) -> None:
    """Unpacks a file. Raises OSError."""
    parts = name.split("/")
    if not MEMBER.fullmatch(name) or any(map(DOTS.fullmatch, parts)):
        raise NotAnArchive(errno.EINVAL, f"it has a file {name!r}, so it is no archive of this program; name another file by --to", name)
    to = os.path.join(folder, name)
    os.makedirs(os.path.dirname(to), exist_ok=True)
    with packed.open(name) as file, replacing(to) as copy:
        shutil.copyfileobj(file, copy)


def pack(folder: str, path: str) -> None:
    """Writes the files of a folder into a file, which is then complete, and removes the folder. Raises OSError."""
    with replacing(path) as file:
        with zipfile.ZipFile(file, "w", zipfile.ZIP_DEFLATED, strict_timestamps=False) as packed:
            for name in files_below(folder):
                packed.write(os.path.join(folder, name), name)
    shutil.rmtree(folder)


def files_below(folder: str) -> Iterator[str]:
    """Yields the paths of the files of an archive, in order. Hidden ones are those of the runs."""
    for place, folders, files in os.walk(folder):
        folders.sort()
        below = os.path.relpath(place, folder)
        yield from (os.path.normpath(os.path.join(below, name)) for name in sorted(files) if not name.startswith("."))
