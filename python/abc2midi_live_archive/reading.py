"""Reads books: files that are there for good or not, and the members of archives."""

from __future__ import annotations

import errno
import tarfile
import zipfile
from collections.abc import Iterator
from typing import IO, NamedTuple, Optional, Union

from abc2midi_live.lines import MOST_BOOK_BYTES
from abc2midi_live_clients.common.regular_file import open_regular

TAR_ENDINGS = (".tar", ".tar.gz", ".tgz", ".tar.bz2", ".tbz2", ".tar.xz", ".txz")
NOTES = frozenset((tarfile.GNUTYPE_LONGNAME, tarfile.GNUTYPE_LONGLINK, tarfile.XHDTYPE, tarfile.XGLTYPE, tarfile.SOLARIS_XHDTYPE))
MOST_NOTE = 1 << 20  # bytes of an entry of a tar archive that has the name of another one


class NotABook(OSError):
    """What is there cannot be a book."""


class Member(NamedTuple):
    """A file of an archive: its name there, and its bytes or why it has none."""

    name: str
    data: Union[bytes, OSError]


def read_file(path: str, follows: bool = True) -> bytes:
    """Returns the bytes of a regular file. One that is a symbolic link is read if it `follows`. Raises OSError."""
    with open_regular(path, follows) as file:
        return read_some(file, path)


def read_some(file: IO[bytes], name: str) -> bytes:
    """Returns the bytes of an open file, if they are not too many for a book."""
    data = file.read(MOST_BOOK_BYTES + 1)
    refuse_large(len(data), name)
    return data


def refuse_large(size: int, name: str) -> None:
    """Raises NotABook if a file has more bytes than a book has."""
    if size > MOST_BOOK_BYTES:
        raise NotABook(errno.EFBIG, f"it has more than {MOST_BOOK_BYTES >> 20} MB", name)


def is_book(name: str) -> bool:
    """Returns whether a file of a folder or an archive is a book, by its name."""
    return name.lower().endswith(".abc")


def is_archive(path: str) -> bool:
    """Returns whether a source is an archive, by its name."""
    return is_zip(path) or is_tar(path)


def is_zip(path: str) -> bool:
    """Returns whether a source is a zip archive, by its name."""
    return path.lower().endswith(".zip")


def is_tar(path: str) -> bool:
    """Returns whether a source is a tar archive, by its name."""
    return path.lower().endswith(TAR_ENDINGS)


def member_names(path: str) -> list[str]:
    """Returns the names of the files in an archive, in its order. Raises OSError."""
    try:
        if is_zip(path):
            with zipfile.ZipFile(path) as archive:
                return archive.namelist()
        with tarfile.open(path, tarinfo=Entry) as tar:
            return [entry.name for entry in files_of_tar(tar)]
    except Exception as error:  # the libraries raise many kinds for what is broken, also ValueError and OverflowError
        raise as_os_error(error, path) from error


def read_members(path: str) -> Iterator[Member]:
    """Yields the books of an archive, in its order: a tar archive can only be read from its start on. Raises OSError."""
    try:
        yield from read_zip(path) if is_zip(path) else read_tar(path)
    except Exception as error:
        raise as_os_error(error, path) from error


def read_zip(path: str) -> Iterator[Member]:
    """Yields the books of a zip archive. A broken one has the error for its bytes."""
    with zipfile.ZipFile(path) as archive:
        for entry in archive.infolist():
            if is_book(entry.filename):
                yield Member(entry.filename, read_entry(archive, entry))


def read_entry(archive: zipfile.ZipFile, entry: zipfile.ZipInfo) -> Union[bytes, OSError]:
    """Returns the bytes of an entry of a zip archive, or why it has none."""
    try:
        refuse_large(entry.file_size, entry.filename)
        with archive.open(entry) as file:
            return read_some(file, entry.filename)
    except Exception as error:
        return as_os_error(error, entry.filename)


def read_tar(path: str) -> Iterator[Member]:
    """Yields the books of a tar archive. After a broken one there are no more."""
    with tarfile.open(path, tarinfo=Entry) as archive:
        for entry in files_of_tar(archive):
            if not is_book(entry.name):
                continue
            data: Union[bytes, OSError]
            try:
                refuse_large(entry.size, entry.name)
                file = archive.extractfile(entry)
                assert file, "a regular file has bytes"
                data = read_some(file, entry.name)
            except NotABook as error:
                data = error
            yield Member(entry.name, data)


class Entry(tarfile.TarInfo):
    """An entry of a tar archive. One whose size cannot be is refused: some versions of `tarfile` read such an archive for ever, or
    all of it into memory."""

    @classmethod
    def frombuf(cls, buf: Union[bytes, bytearray], encoding: Optional[str], errors: str) -> Entry:
        entry = super().frombuf(buf, encoding, errors)  # type: ignore[arg-type]
        if entry.size < 0 or entry.type in NOTES and entry.size > MOST_NOTE:
            raise tarfile.ReadError("an entry has a size that cannot be")
        return entry


def files_of_tar(archive: tarfile.TarFile) -> Iterator[tarfile.TarInfo]:
    """Yields the entries of the files in a tar archive. What is between them is skipped, without being read if it is not compressed."""
    last = -1
    for entry in archive:
        if entry.size < 0 or entry.offset <= last:  # a note may say this of the next entry
            raise tarfile.ReadError("an entry has a size that cannot be")
        last = entry.offset
        if entry.isreg():
            yield entry


def as_os_error(error: BaseException, name: str) -> OSError:
    """Returns an error of an archive as one of the system, with a sentence."""
    if isinstance(error, OSError) and error.strerror:
        return error
    return NotABook(errno.EINVAL, f"the archive is broken or cannot be opened: {str(error) or type(error).__name__}", name)
