"""The parts of the archive that need no program: sources, names, cutting, what a MIDI file has, and storing."""

from __future__ import annotations

import csv
import io
import itertools
import os
import resource
import signal
import sqlite3
import stat
import tarfile
import threading
import time
import unittest
import zipfile
from collections.abc import Callable, Iterator
from contextlib import AbstractContextManager, closing, nullcontext
from pathlib import Path
from typing import Any, Optional
from unittest import mock

import setting
from abc2midi_live_archive import pool, reading, storing
from abc2midi_live_archive.allocator import choose_allocator
from abc2midi_live_archive.archive import Archive
from abc2midi_live_archive.catalogue import SECONDS_BETWEEN_COMMITS, BadCatalogue, Catalogue
from abc2midi_live_archive.compiling import excerpt
from abc2midi_live_archive.cutting import Part, cut_book
from abc2midi_live_archive.exports import export
from abc2midi_live_archive.limits import Limits
from abc2midi_live_archive.names import MOST_CHARACTERS, Names
from abc2midi_live_archive.planning import Manner, Planner, plan_books
from abc2midi_live_archive.progress import line
from abc2midi_live_archive.reading import Member, read_file, read_members
from abc2midi_live_archive.run import Run
from abc2midi_live_archive.sources import BadSource, Source, Trouble, find_books
from abc2midi_live_archive.units import Backend, Outcome, Remark, Result, TuneRow, Unit
from abc2midi_live_archive.workers import Done, Workers
from abc2midi_live_clients.common.clock import clock

SIGNALS = (signal.SIGINT, signal.SIGTERM, signal.SIGHUP)  # that end a run


class Sources(setting.Room):
    def found(self, *words: object, names: tuple[bytes, ...] = ()) -> list[tuple[str, Optional[str], str]]:
        """The books of sources: paths in the folder, members and names; and those that cannot be read, with the reason."""
        books = find_books(map(str, words), names)
        return [
            (os.path.relpath(book.path, self.folder), book.member, book.wanted)
            if isinstance(book, Source)
            else (os.path.relpath(book.name, self.folder), "bad", book.why)
            for book in books
        ]

    def test_a_folder_has_its_books_in_order(self) -> None:
        for name in ("b/reels.abc", "b/JIGS.ABC", "a.abc", "b/notes.txt", "b/c/reels.abc"):
            self.write(f"in/{name}", b"")
        wanted = [("in/a.abc", None, "a"), ("in/b/JIGS.ABC", None, "b_JIGS"), ("in/b/reels.abc", None, "b_reels")]
        self.assertEqual(self.found(self.folder / "in"), [*wanted, ("in/b/c/reels.abc", None, "b_c_reels")])

    def test_a_file_is_a_book_whatever_its_name_is(self) -> None:
        self.write("reels.txt", b"")
        self.assertEqual(self.found(self.folder / "reels.txt"), [("reels.txt", None, "reels.txt")])

    def test_links_in_folders_are_refused_unless_they_are_to_be_followed(self) -> None:
        self.write("outside/b/secret.abc", b"")
        self.write("in/a.abc", b"")
        (self.folder / "in/x.abc").symlink_to(self.folder / "outside/b/secret.abc")
        (self.folder / "in/link").symlink_to(self.folder / "outside")
        (self.folder / "outside/back").symlink_to(self.folder / "in")
        found = list(find_books([str(self.folder / "in")], []))
        self.assertEqual([(os.path.relpath(book.path, self.folder), book.follows) for book in found if isinstance(book, Source)], [("in/a.abc", False)])
        bad = {os.path.relpath(book.name, self.folder): (book.trouble, book.why) for book in found if isinstance(book, BadSource)}
        link = "it is a symbolic link; --follow-links follows it"
        folder = "a symbolic link to a folder; --follow-links follows it"
        self.assertEqual(bad, {"in/x.abc": (Trouble.UNREADABLE, link), "in/link": (Trouble.SKIPPED, folder)})
        followed = [os.path.relpath(book.path, self.folder) for book in find_books([str(self.folder / "in")], [], True) if isinstance(book, Source)]
        self.assertEqual(followed, ["in/a.abc", "in/x.abc", "in/link/b/secret.abc"])
        self.assertEqual(self.found(self.folder / "in/x.abc"), [("in/x.abc", None, "x")])
        self.assertEqual(read_file(str(self.folder / "in/x.abc")), b"")
        with self.assertRaisesRegex(OSError, "it is a symbolic link"):
            read_file(str(self.folder / "in/x.abc"), follows=False)

    def test_archives_in_archives_and_folders_are_named(self) -> None:
        self.write("in/a.abc", b"")
        self.write("in/b.tar.gz", b"")
        with zipfile.ZipFile(self.folder / "c.zip", "w") as archive:
            archive.writestr("d/e.zip", b"")
        found = list(find_books([str(self.folder / "in"), str(self.folder / "c.zip")], []))
        bad = [(os.path.relpath(book.name, self.folder), book.trouble) for book in found if isinstance(book, BadSource)]
        self.assertEqual(bad, [("in/b.tar.gz", Trouble.SKIPPED), ("c.zip:d/e.zip", Trouble.SKIPPED), ("c.zip", Trouble.EMPTY)])

    def test_names_come_from_standard_input(self) -> None:
        self.write("a.abc", b"")
        path = os.fsencode(self.folder / "a.abc")
        wanted = [("a.abc", None, "a"), ("gone.abc", None, "gone")]
        self.assertEqual(self.found("-", names=(path + b"\r\n", b"\n", os.fsencode(self.folder / "gone.abc"))), wanted)

    def test_archives_have_books(self) -> None:
        for path in self.archives():
            wanted = [(path.name, "x/one.abc", "x_one"), (path.name, "../two.abc", "two")]
            with self.subTest(path.name):
                self.assertEqual(self.found(path), wanted)
                self.assertEqual(list(read_members(str(path))), [Member("x/one.abc", b"X:1\n"), Member("../two.abc", b"X:2\n")])

    def archives(self) -> list[Path]:
        """A zip archive and a tar archive of two books, with a file that is none."""
        members = {"x/one.abc": b"X:1\n", "x/readme": b"", "../two.abc": b"X:2\n"}
        zipped, tarred = self.folder / "some.zip", self.folder / "some.tar.gz"
        with zipfile.ZipFile(zipped, "w", zipfile.ZIP_DEFLATED) as archive:
            for name, data in members.items():
                archive.writestr(name, data)
        with tarfile.open(tarred, "w:gz") as tar:
            for name, data in members.items():
                entry = tarfile.TarInfo(name)
                entry.size = len(data)
                tar.addfile(entry, io.BytesIO(data))
        return [zipped, tarred]

    def test_archives_that_cannot_be_read_are_bad_sources(self) -> None:
        for name in ("broken.zip", "broken.tar.gz", "empty.zip"):
            self.write(name, b"" if "empty" in name else b"this is no archive")
            with self.subTest(name):
                ((path, kind, why),) = self.found(self.folder / name)
                self.assertEqual((path, kind), (name, "bad"))
                self.assertIn("archive is broken", why)
        ((_, kind, why),) = self.found(self.folder / "gone.zip")
        self.assertEqual((kind, why), ("bad", "No such file or directory"))

    def test_a_broken_member_leaves_the_others(self) -> None:
        path = self.archives()[0]
        data = bytearray(path.read_bytes())
        data[data.index(b"x/one.abc") + len("x/one.abc")] ^= 0xFF  # the first byte that is compressed
        path.write_bytes(data)
        first, second = read_members(str(path))
        self.assertIsInstance(first.data, OSError)
        self.assertEqual(second, Member("../two.abc", b"X:2\n"))

    def test_what_is_no_book_is_not_read(self) -> None:
        os.mkfifo(self.folder / "pipe.abc")
        for name, why in (("pipe.abc", "not a regular file"), (".", "it is a folder"), ("gone.abc", "No such file")):
            with self.subTest(name), self.assertRaisesRegex(OSError, why):
                read_file(str(self.folder / name))
        self.write("big.abc", b"123456")
        with mock.patch.object(reading, "MOST_BOOK_BYTES", 5), self.assertRaisesRegex(OSError, "more than"):
            read_file(str(self.folder / "big.abc"))

    def test_a_folder_that_cannot_be_listed_is_a_bad_source(self) -> None:
        self.write("in/a.abc", b"")
        with mock.patch("os.scandir", side_effect=PermissionError(13, "Permission denied", "in")):
            self.assertEqual(list(find_books([str(self.folder / "in")], [])), [BadSource("in", "Permission denied")])


class TheNames(unittest.TestCase):
    def test_no_two_are_alike(self) -> None:
        names = Names({"jigs"})
        self.assertEqual([names.give(name) for name in ("reels", "reels", "jigs", "reels-2", "reels")], ["reels", "reels-2", "jigs-2", "reels-2-2", "reels-3"])

    def test_no_two_are_alike_where_capitals_or_accents_do_not_count(self) -> None:
        names = Names({"Jigs", "cafe\u0301"})
        given = [names.give(name) for name in ("Reels", "reels", "REELS", "jigs", "caf\u00e9", "STRASSE", "stra\u00dfe", "Catalogue.SQLite")]
        self.assertEqual(given, ["Reels", "reels-2", "REELS-3", "jigs-2", "caf\u00e9-2", "STRASSE", "stra\u00dfe-2", "Catalogue.SQLite-2"])

    def test_they_are_folders_of_the_archive(self) -> None:
        names = Names(())
        wanted = {"a/b": "a_b", "": "book", "..": "book-2", ".x ": "x", "é♪\udce9": "é_", "catalogue.sqlite": "catalogue.sqlite-2", "a\nb": "a_b-2"}
        given = {name: names.give(name) for name in wanted}
        wanted["é♪\udce9"] = given["é♪\udce9"]  # the letter stays, what is no letter becomes one that is safe
        self.assertEqual(given, wanted)
        self.assertRegex(given["é♪\udce9"], r"\Aé[_?]+\Z")

    def test_they_are_not_too_long(self) -> None:
        names = Names(())
        first, second = names.give("x" * 300), names.give("x" * 300)
        self.assertEqual((first, second), ("x" * MOST_CHARACTERS, "x" * MOST_CHARACTERS + "-2"))
        for name in ("\U00010400" * 300, "\u266a" * 300, "\uac00" * 300):
            with self.subTest(name[:1]):
                self.assertLess(len(os.fsencode(names.give(name))), 250)

    def test_they_end_in_no_blank_and_no_dot(self) -> None:
        """Also if their end is cut off: some file systems drop both."""
        for end in (" ", ".", " . ", ". b"):
            given = Names(()).give("x" * (MOST_CHARACTERS - 1) + end + "b" * 20)
            with self.subTest(end):
                self.assertEqual(given.rstrip(" ."), given)
                self.assertEqual(given[: MOST_CHARACTERS - 1], "x" * (MOST_CHARACTERS - 1))


class Cutting(unittest.TestCase):
    def cut(self, text: str, most: int) -> tuple[list[tuple[str, int, int]], list[int]]:
        """The parts of a text, with `/` for the ends of lines, and the tunes that are too long."""
        lines = [line.encode() for line in text.split("/")]
        cut = cut_book(lines, most)
        return [("/".join(line.decode() for line in part.lines), part.header, part.moved) for part in cut.parts], cut.too_long

    def test_a_book_that_fits_is_one_part(self) -> None:
        self.assertEqual(self.cut("M:3/K:C//X:1/K:C", 5), ([("M:3/K:C//X:1/K:C", 0, 0)], []))

    def test_each_part_has_the_file_header(self) -> None:
        book = "M:3//X:1/C/X:2/D//X:3/E"
        self.assertEqual(self.cut(book, 6), ([("M:3/X:1/C/X:2/D/", 1, 1), ("M:3/X:3/E", 1, 6)], []))
        self.assertEqual(self.cut(book, 4), ([("M:3/X:1/C", 1, 1), ("M:3/X:2/D/", 1, 3), ("M:3/X:3/E", 1, 6)], []))

    def test_a_header_without_a_blank_line_and_comments_before_it(self) -> None:
        self.assertEqual(self.cut("% a//M:3/X:1/C/X:2/D", 6), ([("% a//M:3/X:1/C", 3, 0), ("% a//M:3/X:2/D", 3, 2)], []))

    def test_free_text_before_the_first_tune_is_left_out(self) -> None:
        self.assertEqual(self.cut("M:3// \t\r/free/free/X:1/C", 4), ([("M:3/X:1/C", 1, 4)], []))

    def test_free_text_after_a_tune_that_is_too_long_with_it_is_left_out(self) -> None:
        self.assertEqual(self.cut("X:1/C//free/free/X:2/D", 4), ([("X:1/C", 0, 0), ("X:2/D", 0, 5)], []))

    def test_a_tune_that_is_too_long_is_left_out_and_named(self) -> None:
        self.assertEqual(self.cut("X:1/C/X:2/D/E/F/X:3/G", 3), ([("X:1/C", 0, 0), ("X:3/G", 0, 6)], [3]))
        self.assertEqual(self.cut("X:1/C/D/E", 3), ([("", 0, 0)], [1]))

    def test_a_book_without_tunes_is_its_header(self) -> None:
        self.assertEqual(self.cut("M:3/K:C//free/free", 3), ([("M:3/K:C", 2, 0)], []))

    def test_lines_of_a_part_are_lines_of_the_book(self) -> None:
        part = Part([], 1, 6)
        self.assertEqual([part.line_of_book(line) for line in (1, 2, 3)], [1, 8, 9])


class Storing(setting.Room):
    def test_a_folder_has_the_files_and_no_others_of_their_form(self) -> None:
        storing.store_files(str(self.to), {1: b"one", 2: b"two"})
        self.write("to/.3.mid.0123abcd.new", b"half")
        self.write("to/mine.txt", b"mine")
        before = setting.stamp(self.to / "1.mid")
        storing.store_files(str(self.to), {1: b"one", 4: b"four"})
        self.assertEqual(sorted(os.listdir(self.to)), ["1.mid", "4.mid", "mine.txt"])
        self.assertEqual(setting.stamp(self.to / "1.mid"), before)
        self.assertTrue(storing.has_files(str(self.to), {1: 3, 4: 4}))
        self.assertFalse(storing.has_files(str(self.to), {1: 3, 2: 3}))
        self.assertFalse(storing.has_files(str(self.to), {1: 3, 4: 5}))

    def test_a_new_folder_gets_its_name_when_it_has_all_files(self) -> None:
        new = self.folder / ".to.new"
        rename = os.rename

        def renamed(old: str, path: str) -> None:
            self.assertEqual((setting.tree(new), self.to.exists()), ({"1.mid": b"one", "2.mid": b"two"}, False))
            rename(old, path)

        with mock.patch("os.rename", renamed), mock.patch.object(storing, "sync_file_system") as synced:
            storing.store_files(str(self.to), {1: b"one", 2: b"two"}, True)
        self.assertEqual((setting.tree(self.to), new.exists(), synced.call_count), ({"1.mid": b"one", "2.mid": b"two"}, False, 1))
        self.assertEqual((self.to / "1.mid").stat().st_mode & 0o111, 0)

    def test_a_new_folder_that_cannot_be_completed_is_not_there(self) -> None:
        for error in (OSError(28, "No space left on device"), KeyboardInterrupt()):
            for name in ("os.write", "os.rename"):
                with self.subTest(name, error=error), mock.patch(name, side_effect=error), self.assertRaises(type(error)):
                    storing.store_files(str(self.to), {1: b"one"})
                self.assertEqual(os.listdir(self.folder), [])

    def test_a_write_of_some_bytes_goes_on(self) -> None:
        write = os.write
        with mock.patch("os.write", lambda file, data: write(file, data[:2])):
            storing.store_files(str(self.to), {1: b"12345"})
        self.assertEqual(setting.tree(self.to), {"1.mid": b"12345"})

    def test_what_a_killed_run_left_of_a_new_folder_goes(self) -> None:
        acts: list[Callable[[], object]] = [lambda: storing.store_files(str(self.to), {1: b"one"}), lambda: storing.remove_halves(str(self.to))]
        for act in acts:
            self.write(".to.new/1.mid", b"on")
            act()
            self.assertFalse((self.folder / ".to.new").exists())
        self.assertEqual(setting.tree(self.to), {"1.mid": b"one"})
        self.write(".to.new/mine.txt", b"mine")
        storing.remove_halves(str(self.to))
        self.assertEqual(os.listdir(self.folder / ".to.new"), ["mine.txt"])

    def test_a_folder_that_takes_the_name_meanwhile_gets_the_files(self) -> None:
        rename = os.rename

        def renamed(old: str, path: str) -> None:
            self.write("to/mine.txt", b"mine")
            rename(old, path)

        with mock.patch("os.rename", renamed):
            storing.store_files(str(self.to), {1: b"one"})
        self.assertEqual(sorted(os.listdir(self.to)), ["1.mid", "mine.txt"])
        self.assertFalse((self.folder / ".to.new").exists())

    def test_an_old_file_that_only_begins_as_the_new_one_is_replaced(self) -> None:
        for old in (b"12345", b"1234", b"12", b"124", b""):
            self.write("to/1.mid", old)
            with self.subTest(old):
                storing.store_files(str(self.to), {1: b"123"})
                self.assertEqual(setting.tree(self.to), {"1.mid": b"123"})

    def test_no_link_is_followed(self) -> None:
        """Neither instead of the folder nor instead of a file."""
        outside = self.write("outside/1.mid", b"one")
        self.to.symlink_to(outside.parent)
        for call in (storing.store_files, storing.has_files):
            with self.subTest(call.__name__), self.assertRaisesRegex(OSError, "symbolic link"):
                call(str(self.to), {1: b"two"})  # type: ignore[operator]
        self.to.unlink()
        self.to.mkdir()
        (self.to / "1.mid").symlink_to(outside)
        self.assertFalse(storing.has_files(str(self.to), {1: 3}))
        storing.store_files(str(self.to), {1: b"one"})
        self.assertFalse((self.to / "1.mid").is_symlink())
        self.assertEqual(setting.tree(self.folder), {"outside/1.mid": b"one", "to/1.mid": b"one"})

    def test_files_are_on_their_disk_if_that_is_asked_for(self) -> None:
        for syncs in (False, True):
            with self.subTest(syncs), mock.patch.object(storing, "sync_file_system", side_effect=OSError(5, "broken")) as synced:
                failure: AbstractContextManager[object] = nullcontext()
                if syncs:
                    failure = self.assertRaisesRegex(OSError, "broken")
                with failure:
                    storing.store_files(str(self.to), {1: b"one"}, syncs)
                self.assertEqual(synced.called, syncs)

    def test_no_files_need_no_folder(self) -> None:
        storing.store_files(str(self.to), {})
        self.assertFalse(self.to.exists())
        self.assertTrue(storing.has_files(str(self.to), {}))
        self.assertFalse(storing.has_files(str(self.to), {1: 1}))

    def test_a_write_that_fails_leaves_the_old_file_and_no_half(self) -> None:
        storing.store_files(str(self.to), {1: b"old"})
        failing = mock.patch("os.replace", side_effect=OSError(28, "No space left on device"))
        with failing, self.assertRaisesRegex(OSError, "No space"):
            storing.store_files(str(self.to), {1: b"new"})
        self.assertEqual(setting.tree(self.to), {"1.mid": b"old"})
        soft, hard = resource.getrlimit(resource.RLIMIT_FSIZE)
        self.addCleanup(resource.setrlimit, resource.RLIMIT_FSIZE, (soft, hard))
        resource.setrlimit(resource.RLIMIT_FSIZE, (10, hard))  # a file gets ten bytes, and no more
        with self.assertRaisesRegex(OSError, "too large"):
            storing.store_files(str(self.to), {1: b"new" * 10})
        self.assertEqual(setting.tree(self.to), {"1.mid": b"old"})


class TheCatalogue(setting.Room):
    def test_a_full_disk_is_reported_as_such(self) -> None:
        """The database may not grow, so its transaction ends by itself."""
        catalogue = Catalogue(str(self.folder / "catalogue.sqlite"))
        (pages,) = next(catalogue.ask("PRAGMA page_count"))
        catalogue.ask(f"PRAGMA max_page_count = {pages}")
        with self.assertRaisesRegex(BadCatalogue, "disk is full"):
            for number in range(1_000):
                catalogue.add(Source(f"book_{number}.abc", None, f"book_{number}"), f"book_{number}")
        self.assertFalse(catalogue.database.in_transaction)
        catalogue.close()

    def test_a_book_with_a_problem_is_compiled_by_the_next_run(self) -> None:
        """Also if it is as it was before: nothing else takes the problem back."""
        catalogue, source = Catalogue(str(self.folder / "catalogue.sqlite")), Source("a.abc", None, "a")
        catalogue.add(source, "a")
        catalogue.keep(1, Result(Outcome.COMPILED, digest="one"), "options")
        digests = [known.digest for known in [catalogue.find(source)] if known]
        catalogue.keep_problem(1, "why")
        digests += [known.digest for known in [catalogue.find(source)] if known]
        self.assertEqual(digests, ["one", None])
        catalogue.close()

    def test_a_change_that_is_interrupted_leaves_the_book_as_it_was(self) -> None:
        path, source = str(self.folder / "catalogue.sqlite"), Source("a.abc", None, "a")
        catalogue = Catalogue(path)
        catalogue.add(source, "a")
        remarks = tuple(Remark("fault", line, 1, "BadByte", None, "", 0) for line in (1, 2))
        catalogue.keep(1, Result(Outcome.COMPILED, digest="one", tunes=(TuneRow(7, "Air", 1),), remarks=remarks), "options")
        tables = "SELECT digest, number, title, (SELECT count(*) FROM remarks) FROM books JOIN tunes ON tunes.book = books.id"
        for at in range(5):  # the statements before the change is there
            with self.subTest(at):
                with mock.patch.object(catalogue, "ask", interrupted_after(at, catalogue.ask)), self.assertRaises(KeyboardInterrupt):
                    catalogue.keep(1, Result(Outcome.COMPILED, digest="two", tunes=(TuneRow(8, "Reel", 1),)), "options")
                self.assertEqual(list(catalogue.ask(tables)), [("one", 7, "Air", 2)])
        catalogue.close()
        with closing(sqlite3.connect(path)) as database:
            self.assertEqual(database.execute(tables).fetchall(), [("one", 7, "Air", 2)])

    def test_a_commit_that_is_interrupted_is_made_up_for_by_the_next(self) -> None:
        path = str(self.folder / "catalogue.sqlite")
        catalogue = Catalogue(path)
        for at in range(2):
            catalogue.add(Source(f"{at}.abc", None, f"{at}"), f"{at}")
            with mock.patch.object(catalogue, "ask", interrupted_after(at, catalogue.ask)), self.assertRaises(KeyboardInterrupt):
                catalogue.commit()
            catalogue.add(Source(f"{at}b.abc", None, f"{at}b"), f"{at}b")
            catalogue.commit()
            with closing(sqlite3.connect(path)) as database:
                self.assertEqual(database.execute("SELECT count(*) FROM books").fetchall(), [(2 * at + 2,)])
        catalogue.close()

    def test_files_reach_the_disk_before_the_catalogue_has_them(self) -> None:
        """And only if there are new ones. If they cannot, the catalogue does not have them."""
        path, source, calls = str(self.folder / "catalogue.sqlite"), Source("a.abc", None, "a"), []
        with closing(sqlite3.connect(path)) as reader:

            def sync() -> None:
                calls.append(reader.execute("SELECT count(*) FROM books WHERE digest IS NOT NULL").fetchone()[0])

            catalogue = Catalogue(path, sync)
            catalogue.add(source, "a")
            catalogue.commit()
            self.assertEqual(calls, [])
            catalogue.keep(1, Result(Outcome.COMPILED, digest="one"), "options")
            catalogue.commit()
            catalogue.commit()
            self.assertEqual(calls, [0])
            self.assertEqual(next(catalogue.ask("PRAGMA synchronous")), (2,))
            catalogue.keep(1, Result(Outcome.COMPILED, digest="two"), "options")
            with mock.patch.object(catalogue, "sync_files", side_effect=OSError(5, "broken")), self.assertRaisesRegex(OSError, "broken"):
                catalogue.commit()
            self.assertEqual(reader.execute("SELECT digest FROM books").fetchall(), [("one",)])
            catalogue.close()

    def test_a_slow_disk_has_few_commits(self) -> None:
        now = [0.0]

        def sync() -> None:
            now[0] += 0.3

        with mock.patch("time.monotonic", lambda: now[0]):  # that of the machine depends on its other work
            catalogue = Catalogue(str(self.folder / "catalogue.sqlite"), sync)
            catalogue.add(Source("a.abc", None, "a"), "a")
            catalogue.keep(1, Result(Outcome.COMPILED), "options")
            catalogue.commit()
            self.assertGreaterEqual(catalogue.pause, 1.2)
            catalogue.commit()
            self.assertEqual(catalogue.pause, SECONDS_BETWEEN_COMMITS)
            catalogue.close()

    def test_tables_are_in_order_and_for_all_readers(self) -> None:
        catalogue = Catalogue(str(self.folder / "catalogue.sqlite"))
        places = [(2, 3), (2, 1), (1, 5)]
        for book, name in enumerate(("b", "a"), 1):
            catalogue.add(Source(f"{name}.abc", None, name), name)
            remarks = tuple(Remark("fault", line, column, "BadByte", None, "", 0) for line, column in places)
            catalogue.keep(book, Result(Outcome.COMPILED, remarks=remarks), "options")
        export(catalogue, str(self.folder), "csv")
        catalogue.close()
        with open(self.folder / "remarks.csv", encoding="utf-8", newline="") as file:
            rows = [(row["book"], int(row["line"]), int(row["column"])) for row in csv.DictReader(file)]
        self.assertEqual(rows, [(book, *place) for book in "ab" for place in sorted(places)])
        mask = os.umask(0)
        os.umask(mask)
        self.assertEqual(stat.S_IMODE((self.folder / "remarks.csv").stat().st_mode), 0o666 & ~mask)


def interrupted_after(at: int, ask: Callable[..., Iterator[Any]]) -> Callable[..., Iterator[Any]]:
    """Asks as `ask` does, but the user types Ctrl-C while question number `at` is answered, from 0."""
    questions = itertools.count()

    def interrupted(*words: Any) -> Iterator[Any]:
        answer = ask(*words)
        if next(questions) == at:
            raise KeyboardInterrupt
        return answer

    return interrupted


class ThePool(unittest.TestCase):
    def test_a_signal_that_comes_just_before_a_wait_ends_it(self) -> None:
        """As one that comes in the middle of it to another thread: neither ends the wait of the system."""
        one = pool.Pool(1)

        def interrupt() -> None:
            time.sleep(0.2)
            signal.pthread_kill(threading.get_ident(), signal.SIGINT)
            time.sleep(30)
            one.ended.put(pool.Ended(Unit("book", "", b"", None, Backend(), False, None, {}), None))

        with self.assertRaises(KeyboardInterrupt):  # also one that comes before the wait
            threading.Thread(target=interrupt, daemon=True).start()
            one.first_ended()


class Planning(setting.Room):
    """The units of sources."""

    def setUp(self) -> None:
        super().setUp()
        self.archive = Archive(str(self.to))
        self.addCleanup(self.archive.release)
        self.catalogue = Catalogue(self.archive.inside("catalogue.sqlite"))
        self.addCleanup(self.catalogue.close)
        self.problems: dict[str, str] = {}

    def units(self, *sources: Source, syncs: bool = False) -> list[Unit]:
        """The units of sources; those that have none are problems."""
        manner = Manner(Backend(), False, False, "options", Limits(1 << 30, 5), syncs)
        planner = Planner(self.archive, self.catalogue, manner, self.problems.__setitem__)
        return list(planner.units(plan_books(sources, self.archive, self.catalogue)))

    def test_a_unit_has_what_its_source_and_the_command_say(self) -> None:
        for follows in (True, False):
            (unit,) = self.units(Source("/in/a.abc", None, "a", follows), syncs=follows)
            self.assertEqual((unit.book, unit.follows, unit.syncs, unit.limits), ("a", follows, follows, Limits(1 << 30, 5)))

    def test_books_that_an_archive_lost_are_problems(self) -> None:
        """Also those after a place at which it is broken."""
        sources = [Source("/in/some.tar", f"{name}.abc", name) for name in "abc"]

        def members(path: str) -> Iterator[Member]:
            yield Member("a.abc", b"")
            if "broken" in path:
                raise OSError(5, "broken")

        with mock.patch("abc2midi_live_archive.planning.read_members", members):
            self.assertEqual([unit.book for unit in self.units(*sources)], ["a"])
            self.assertEqual(self.problems, {"b": "it is not in the archive any more", "c": "it is not in the archive any more"})
            self.problems.clear()
            broken = [source._replace(path="/in/broken.tar", wanted=f"{source.wanted}-broken") for source in sources]
            self.assertEqual([unit.book for unit in self.units(*broken)], ["a-broken"])
            self.assertEqual(self.problems, {"b-broken": "broken", "c-broken": "broken"})


class Interrupted(Workers):
    """Workers over which the user types Ctrl-C, and what signals do while they stop."""

    def __init__(self, *books: str):
        super().__init__()
        self.under_way = {book: Unit(book, "", b"", None, Backend(), False, None, {}) for book in books}
        self.handlers: list[Any] = []

    def do(self, units: Iterator[Unit]) -> Iterator[Done]:
        raise KeyboardInterrupt

    def stop(self) -> None:
        self.handlers = [signal.getsignal(number) for number in SIGNALS]


class TheRun(setting.Room):
    def setUp(self) -> None:
        super().setUp()
        for number in SIGNALS:
            self.addCleanup(signal.signal, number, signal.getsignal(number))

    def test_a_run_that_is_interrupted_leaves_no_half_file(self) -> None:
        """In no folder of a book that its workers had. No signal ends the run before that."""
        for name in ("a/.1.mid.0123abcd.new", "a/1.mid", "b/.2.mid.0123abcd.new", "other/.3.mid.0123abcd.new"):
            self.write(f"to/{name}", b"")
        archive = Archive(str(self.to))
        self.addCleanup(archive.release)
        workers, manner = Interrupted("a", "gone", "b"), Manner(Backend(), False, False, "options", Limits(), False)
        with self.assertRaises(KeyboardInterrupt):
            Run(archive, mock.Mock(), manner, False, mock.Mock()).do([], workers)
        self.assertEqual(workers.handlers, [signal.SIG_IGN] * len(SIGNALS))
        self.assertEqual(sorted(setting.tree(self.to)), ["a/1.mid", "other/.3.mid.0123abcd.new"])


class Excerpts(unittest.TestCase):
    def test_a_line_and_the_place_in_it(self) -> None:
        self.assertEqual(excerpt(b"C&D\r", 2), ("C&D", 1))
        self.assertEqual(excerpt("é&D".encode(), 3), ("é&D", 1))
        self.assertEqual(excerpt("é&D".encode("latin-1"), 2), ("é&D", 1))
        self.assertEqual(excerpt("é".encode() + b"\xff&", 4), ("Ã©ÿ&", 3))

    def test_of_a_long_line_the_part_around_the_place(self) -> None:
        line = b"C" * 200 + b"&" + b"D" * 200
        text, mark = excerpt(line, 201)
        self.assertEqual((text, text[mark]), ("C" * 60 + "&" + "D" * 59, "&"))
        self.assertEqual(excerpt(line, 1), ("C" * 120, 0))
        self.assertEqual(excerpt(line, 401), ("D" * 120, 119))


class TheAllocator(unittest.TestCase):
    def chosen(self, there: str, **environment: str) -> Optional[str]:
        """What the workers are to load before other libraries, if this library is there."""
        with mock.patch.dict(os.environ, environment, clear=True), mock.patch("os.access", lambda path, _: path == there):
            choose_allocator()
            return os.environ.get("LD_PRELOAD")

    def test_large_pages_unless_the_environment_has_other_settings(self) -> None:
        with mock.patch.dict(os.environ, {"MALLOC_CONF": "thp:never"}, clear=True):
            choose_allocator()
            self.assertEqual((os.environ["MIMALLOC_LARGE_OS_PAGES"], os.environ["MALLOC_CONF"]), ("1", "thp:never"))
        with mock.patch.dict(os.environ, {"ABC2MIDI_LIVE_ALLOCATOR": "system"}, clear=True):
            choose_allocator()
            self.assertNotIn("MIMALLOC_LARGE_OS_PAGES", os.environ)

    def test_one_that_is_installed(self) -> None:
        library = "/usr/lib64/libjemalloc.so.2"
        self.assertEqual(self.chosen(library), library)
        self.assertEqual(self.chosen(library, LD_PRELOAD="/mine.so"), f"/mine.so:{library}")
        self.assertIsNone(self.chosen("/usr/lib64/other.so"))
        self.assertIsNone(self.chosen(library, ABC2MIDI_LIVE_ALLOCATOR="system"))

    def test_the_folder_of_debian_for_this_machine(self) -> None:
        for machine in ("x86_64", "aarch64"):  # the names that Debian has for 64-bit processors of Intel and ARM
            library = f"/usr/lib/{machine}-linux-gnu/libmimalloc.so.2"
            with mock.patch("os.uname", return_value=mock.Mock(machine=machine)):
                self.assertEqual(self.chosen(library), library)
            with mock.patch("os.uname", return_value=mock.Mock(machine="other")):
                self.assertIsNone(self.chosen(library))


class TheProgress(unittest.TestCase):
    def test_a_line_has_the_rate_and_the_time_left(self) -> None:
        self.assertEqual(line(100, 400, 5_000, 20.0), "100 of 400 books, 5000 tunes, 250 tunes a second, about 1:00 left")

    def test_times(self) -> None:
        self.assertEqual([clock(seconds) for seconds in (0, 59.6, 3_599, 7_265)], ["0:00", "1:00", "59:59", "2:01:05"])
