"""Sources that somebody made to do harm, or that are broken: each ends with a line, and stops no other one."""

from __future__ import annotations

import io
import random
import signal
import tarfile
import zipfile
from pathlib import Path
from typing import Any
from unittest import mock

import setting
from abc2midi_live_archive import reading
from abc2midi_live_archive.reading import Member, read_members
from abc2midi_live_archive.sources import BadSource, Source, find_books
from books import TUNE

SECONDS = 600  # that reading a small archive may take on a busy machine


class HostileSources(setting.Runs):
    """Runs over a good book and one bad source."""

    def backend(self) -> list[str]:
        return ["--program", str(setting.program)]

    def assert_others_are_done(self, why: str, *sources: Any, stdin: bytes = b"") -> None:
        """Runs over a source that is bad for this reason, and a good book."""
        good = self.write("good.abc", TUNE % (1, b"Good"))
        ran = self.run_archive(*sources, good, stdin=stdin, status=1)
        self.assertRegex(ran.err, rf"^[^\n]*: cannot be read: {why}[^\n]*\n$")
        self.assert_as_fresh({"good": good.read_bytes()})

    def test_a_name_that_is_not_utf_8(self) -> None:
        path = self.folder / "names.zip"
        with zipfile.ZipFile(path, "w") as archive:
            archive.writestr("é.abc", b"")
        path.write_bytes(path.read_bytes().replace("é".encode(), b"\xff\xfe"))
        self.assert_others_are_done("the archive is broken or cannot be opened: ", path)

    def test_a_sparse_map_that_is_none(self) -> None:
        path = self.write("sparse.tar", tar_of({"a.abc": b"none"}, {"GNU.sparse.major": "1", "GNU.sparse.minor": "0"}))
        self.assert_others_are_done("the archive is broken or cannot be opened: ", path)

    def test_a_number_that_is_too_large(self) -> None:
        path = self.write("large.tar", tar_of({"a.abc": b"", "b.abc": b""}, {"size": "9" * 30}))
        self.assert_others_are_done("the archive is broken or cannot be opened: ", path)

    def test_a_number_that_leads_back(self) -> None:
        """Some versions of Python read such an archive for ever."""
        path = self.write("back.tar", tar_of({"a.abc": b"", "b.abc": b""}, {"size": "-2048"}))
        self.assert_others_are_done("the archive is broken or cannot be opened: an entry has a size that cannot be", path)

    def test_a_name_with_a_nul_byte(self) -> None:
        self.assert_others_are_done("no name has a NUL byte", "-", stdin=b"a\0b.abc\n")


def tar_of(files: dict[str, bytes], note: dict[str, str]) -> bytes:
    """A tar archive whose first entry has a note of its own."""
    written = io.BytesIO()
    with tarfile.open(fileobj=written, mode="w", format=tarfile.PAX_FORMAT) as archive:
        for name, data in files.items():
            entry = tarfile.TarInfo(name)
            entry.size = len(data)
            entry.pax_headers, note = note, {}
            archive.addfile(entry, io.BytesIO(data))
    return written.getvalue()


class BrokenArchives(setting.Room):
    """Archives that chance breaks, in this process: reading them raises nothing but what a source may, and ends."""

    def test_each_ends_with_books_or_a_reason(self) -> None:
        signal.signal(signal.SIGALRM, too_long)
        self.addCleanup(signal.alarm, 0)
        ends = {"bad": 0, "members": 0}
        for number in range(setting.archives):
            chance = random.Random(f"{setting.seed}/{number}")
            name, whole = chance.choice(whole_archives())
            path = self.write(name, broken(whole, chance))
            signal.alarm(SECONDS)
            with self.subTest(number):
                for source in find_books([str(path)], []):
                    ends["bad"] += isinstance(source, BadSource)
                    self.assertTrue(isinstance(source, Source) or source.why)
                try:
                    for member in read_members(str(path)):
                        ends["members"] += 1
                        self.assertIsInstance(member.data, (bytes, OSError))
                except OSError as error:
                    self.assertTrue(error.strerror)
            signal.alarm(0)
        self.assertGreater(min(ends.values()), setting.archives // 10, ends)


def too_long(*_: object) -> None:
    """Ends a test that does not end."""
    raise AssertionError("an archive took too long")


def whole_archives(kept: list[tuple[str, bytes]] = []) -> list[tuple[str, bytes]]:
    """Archives of several forms, that are made once, with their names."""
    if not kept:
        books = {f"{'long ' * 30 if number == 1 else ''}é{number}.abc": TUNE % (number, b"Tune") * 5 for number in range(4)}
        books["readme.txt"] = b"no book"
        for method in (zipfile.ZIP_STORED, zipfile.ZIP_DEFLATED, zipfile.ZIP_BZIP2, zipfile.ZIP_LZMA):
            zipped = io.BytesIO()
            with zipfile.ZipFile(zipped, "w", method) as archive:
                for name, data in books.items():
                    archive.writestr(name, data)
            kept.append(("some.zip", zipped.getvalue()))
        notes = {"GNU.sparse.major": "1", "GNU.sparse.minor": "0", "GNU.sparse.name": "s.abc", "GNU.sparse.realsize": "9"}
        plain = [tar_of(books, {}), tar_of(books, {"size": "512"}), tar_of({"s.abc": b"1\n0\n9\n".ljust(512, b"\0") + b"X:1\nK:C\nC", **books}, notes)]
        for form in (tarfile.GNU_FORMAT, tarfile.USTAR_FORMAT):
            written = io.BytesIO()
            with tarfile.open(fileobj=written, mode="w", format=form) as tar:
                for name, data in books.items():
                    entry = tarfile.TarInfo(name[-90:] if form == tarfile.USTAR_FORMAT else name)
                    entry.size = len(data)
                    tar.addfile(entry, io.BytesIO(data))
            plain.append(written.getvalue())
        kept += [("some.tar", data) for data in plain]
        kept += [(f"some.tar.{module.__name__}", module.compress(plain[0])) for module in map(__import__, ("gzip", "bz2", "lzma"))]
        kept[:] = [(name.replace("gzip", "gz").replace("lzma", "xz"), data) for name, data in kept]
    return kept


def broken(data: bytes, chance: random.Random) -> bytes:
    """Bytes with some changes: a byte, a bit, a digit, a piece that is repeated, moved or gone, or the end cut off. Most headers of a
    tar archive get the checksum of their new bytes, so that they are read."""
    changed = bytearray(data)
    for _ in range(chance.choice((1, 1, 2, 5, 20))):
        if not changed:
            break
        at, other = chance.randrange(len(changed)), chance.randrange(len(changed))
        size = chance.choice((1, 2, 8, 512))
        kind = chance.randrange(7)
        if kind == 0:
            changed[at] = chance.randrange(256)
        elif kind == 1:
            changed[at] ^= 1 << chance.randrange(8)
        elif kind == 2:
            changed[at] = chance.choice(b"0123456789-\xff\x80\n \0")
        elif kind == 3:
            changed[at : at + size] = changed[other : other + size]
        elif kind == 4:
            del changed[at : at + size]
        elif kind == 5:
            changed[at:at] = changed[other : other + size]
        else:
            del changed[max(at, len(changed) // 2) :]
    return with_checksums(changed) if chance.random() < 0.7 else bytes(changed)


def with_checksums(data: bytearray) -> bytes:
    """Bytes in which each block that looks like a header of a tar archive has its checksum."""
    for at in range(0, len(data) - 511, 512):
        if data[at + 257 : at + 262] == b"ustar":
            data[at + 148 : at + 156] = b" " * 8
            data[at + 148 : at + 156] = b"%06o\0 " % sum(data[at : at + 512])
    return bytes(data)


class Members(setting.Room):
    """What of an archive is read."""

    def test_members_that_are_no_books_are_not_unpacked(self) -> None:
        path = self.folder / "some.zip"
        with zipfile.ZipFile(path, "w") as archive:
            for name in ("a.txt", "b.abc", "c.zip"):
                archive.writestr(name, b"X:1\n")
        opened: list[str] = []
        whole = zipfile.ZipFile.open

        def noted(self: zipfile.ZipFile, name: zipfile.ZipInfo, *words: Any, **more: Any) -> Any:
            opened.append(name.filename)
            return whole(self, name, *words, **more)

        with mock.patch("zipfile.ZipFile.open", noted):
            self.assertEqual(list(read_members(str(path))), [Member("b.abc", b"X:1\n")])
        self.assertEqual(opened, ["b.abc"])

    def test_of_a_plain_tar_archive_no_more_is_read_than_its_books(self) -> None:
        path = self.folder / "some.tar"
        with tarfile.open(path, "w") as archive:
            for name, size in (("a.bin", 50 << 20), ("b.abc", 4)):
                entry = tarfile.TarInfo(name)
                entry.size = size
                archive.addfile(entry, io.BytesIO(bytes(size)))
        before = bytes_read()
        self.assertEqual(list(read_members(str(path))), [Member("b.abc", bytes(4))])
        self.assertLess(bytes_read() - before, 1 << 20)

    def test_a_book_that_is_said_to_be_too_large_is_not_unpacked(self) -> None:
        zipped, tarred = self.folder / "some.zip", self.folder / "some.tar"
        with zipfile.ZipFile(zipped, "w") as archive:
            archive.writestr("a.abc", b"123456")
        tarred.write_bytes(tar_of({"a.abc": b"123456"}, {}))
        unread = mock.patch.multiple("zipfile.ZipExtFile", read=None), mock.patch("tarfile.TarFile.extractfile", None)
        with mock.patch.object(reading, "MOST_BOOK_BYTES", 5), unread[0], unread[1]:
            for path in (zipped, tarred):
                ((name, data),) = read_members(str(path))
                self.assertEqual((name, isinstance(data, OSError) and data.strerror), ("a.abc", "it has more than 0 MB"))

    def test_no_entry_leads_back(self) -> None:
        for places in ([(0, 5), (0, 5)], [(512, 5), (0, 5)], [(0, -1)]):
            entries = []
            for offset, size in places:
                entry = tarfile.TarInfo("a.abc")
                entry.offset, entry.size = offset, size
                entries.append(entry)
            with self.subTest(places), self.assertRaisesRegex(tarfile.ReadError, "size that cannot be"):
                list(reading.files_of_tar(entries))  # type: ignore[arg-type]

    def test_a_name_of_an_entry_is_not_of_any_length(self) -> None:
        """A few bytes may say that a name has gigabytes."""
        name = tarfile.TarInfo("././@LongLink")
        name.type, name.size = tarfile.GNUTYPE_LONGNAME, 1 << 30
        path = self.write("long.tar", name.tobuf() + bytes(1024))
        with self.assertRaisesRegex(OSError, "size that cannot be"):
            list(read_members(str(path)))
        name.size = -512
        path.write_bytes(name.tobuf(tarfile.GNU_FORMAT) + bytes(1024))
        with self.assertRaisesRegex(OSError, "size that cannot be"):
            list(read_members(str(path)))


def bytes_read() -> int:
    """How many bytes this process has read."""
    return int(Path("/proc/self/io").read_text().split()[1])
