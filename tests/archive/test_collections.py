"""Collections: the books that a run takes, tunes of one number, books that are gone, what a run would do, and archives that are one file."""

from __future__ import annotations

import csv
import io
import os
import random
import shutil
import subprocess
import sys
import zipfile
from pathlib import Path
from unittest import mock

import setting
from abc2midi_live_archive import compiling
from abc2midi_live_archive.cutting import cut_book
from abc2midi_live_archive.units import Backend, TuneRow, Unit
from abc2midi_live_archive.units import Numbering as ByWhat
from books import TUNE

SAME = b"X:1\nT:%b\nK:%b\n%b|\n\n"


class Collections(setting.Runs):
    """Runs over the library, compared with the program."""

    def backend(self) -> list[str]:
        return ["--library", str(setting.library)]

    def books_by_name(self) -> dict[str, bytes]:
        """The books of the catalogue as they are now, by their names in the archive."""
        return {name: Path(source).read_bytes() for name, source in self.rows("SELECT name, source FROM books")}


class Numbering(Collections):
    """Files that are named for numbers, and for places."""

    BOOK = SAME % (b"One", b"C", b"C") + SAME % (b"Two", b"D", b"D") + SAME % (b"Three", b"G", b"E")

    def test_tunes_without_a_file_are_counted(self) -> None:
        book = self.write("airs.abc", self.BOOK)
        out = self.run_archive(book).out
        self.assertIn("1 book compiled, with 3 tunes, 1 file, 0 faults; 2 tunes without a file, since earlier ones have their numbers", out)
        self.assertEqual(self.rows("SELECT tunes, files, hidden FROM books"), [(3, 1, 2)])
        self.assertEqual(self.rows("SELECT place, number, file FROM tunes ORDER BY place"), [(1, 1, "airs/1.mid"), (2, 1, None), (3, 1, None)])
        book.write_bytes(SAME % (b"One", b"C", b"C") + TUNE % (2, b"Two"))
        self.assertNotIn("without a file", self.run_archive(book).out)

    def test_a_tune_that_is_too_long_is_not_one_of_them(self) -> None:
        book = self.write("airs.abc", b"X:1\nP:A5000\nK:C\nP:A\nC|\n\n" + TUNE % (1, b"Short"))
        self.assertNotIn("without a file", self.run_archive(book).out)
        self.assertEqual(self.rows("SELECT title, file FROM tunes ORDER BY place"), [("", None), ("Short", "airs/1.mid")])

    def test_by_place_each_has_one(self) -> None:
        book = self.write("airs.abc", self.BOOK)
        ran = self.run_archive(book, "--number-by", "place", "--changed")
        self.assertEqual(ran.out.splitlines()[0], "airs: written 1 2 3 removed; faults 0, before 0")
        self.assertNotIn("without a file", ran.out)
        wanted = {f"airs/{place}.mid": setting.fresh(SAME % tune).files["1.mid"] for place, tune in enumerate(((b"One", b"C", b"C"), (b"Two", b"D", b"D"), (b"Three", b"G", b"E")), 1)}
        self.assertEqual(setting.tree(self.to), wanted)
        self.assertEqual(self.rows("SELECT place, number, file FROM tunes ORDER BY place"), [(place, 1, f"airs/{place}.mid") for place in (1, 2, 3)])
        self.assertIn("1 as before", self.run_archive(book, "--number-by", "place").out)
        (self.to / "airs/3.mid").unlink()
        self.assertIn("1 book compiled", self.run_archive(book, "--number-by", "place").out)
        self.assertEqual(setting.tree(self.to), wanted)
        back = self.run_archive(book, "--changed")
        self.assertEqual(back.out.splitlines()[0], "airs: written removed 2 3; faults 0, before 0")
        self.assertEqual(list(setting.tree(self.to)), ["airs/1.mid"])

    def test_faults_of_numbers_stay_by_place(self) -> None:
        book = b"L:1/3\n\nX:x\nT:A\nK:C\nC|\n\nX:0\nK:C\n&|\n\nX:2\nK:C\nD|\n"
        self.run_archive(self.write("airs.abc", book), "--number-by", "place")
        self.assertEqual(self.rows("SELECT line, column, name FROM remarks ORDER BY 1, 2"), setting.fresh(book).faults)
        self.assertEqual(self.rows("SELECT number, file FROM tunes ORDER BY place"), [(0, "airs/1.mid"), (0, "airs/2.mid"), (2, "airs/3.mid")])
        self.assertEqual([name for _, _, name in setting.fresh(book).faults], ["BadUnit", "BadReference", "BadReference", "BadByte"])

    def test_places_go_on_through_the_parts_of_a_book(self) -> None:
        parts = 0
        for number in range(10):
            book = setting.random_book(number)
            unit = Unit("book", "", book, None, Backend(library=setting.library), False, None, {}, numbering=ByWhat.PLACE)
            with self.subTest(number), mock.patch.object(compiling, "cut_book", lambda lines: cut_book(lines, 20)):
                result = compiling.do_unit(unit)
                self.assertEqual({f"{place}.mid": data for place, data in (result.files or {}).items()}, setting.fresh(by_place(book)).files)
                self.assertEqual([TuneRow._make(tune).place for tune in result.tunes], list(range(1, len(result.tunes) + 1)))
            parts += result.parts
        self.assertGreater(parts, 15)

    def test_random_books_by_place(self) -> None:
        """Against the program over the same books with other `X:` lines. Faults, numbers and titles are those of the books as they are."""
        books = {f"book_{number}": setting.random_book(number) for number in range(setting.books)}
        for name, book in books.items():
            self.write(f"in/{name}.abc", book)
        self.run_archive(self.folder / "in")
        numbers = self.rows("SELECT name, number, title, line FROM tunes JOIN books ON books.id = book ORDER BY name, line")
        self.run_archive(self.folder / "in", "--number-by", "place")
        self.assertEqual(self.rows("SELECT name, number, title, line FROM tunes JOIN books ON books.id = book ORDER BY name, line"), numbers)
        wanted_files, wanted_faults = {}, []
        for name, book in books.items():
            wanted_files.update({f"{name}/{file}": data for file, data in setting.fresh(by_place(book)).files.items()})
            wanted_faults += [(name, *fault) for fault in setting.fresh(book).faults]
        self.assertEqual(setting.tree(self.to), wanted_files)
        question = "SELECT books.name, line, column, remarks.name FROM remarks JOIN books ON books.id = book WHERE kind = 'fault'"
        self.assertEqual(sorted(self.rows(question)), sorted(wanted_faults))


def by_place(book: bytes) -> bytes:
    """A book in which each tune has the number of its place."""
    lines, place = [], 0
    for line in book.split(b"\n"):
        is_number = line.startswith(b"X:")
        place += is_number
        lines.append(b"X:%d" % place if is_number else line)
    return b"\n".join(lines)


class Choices(Collections):
    """The books that a run takes."""

    def setUp(self) -> None:
        super().setUp()
        for name in ("reels.abc", "irish/reels.abc", "irish/jigs.abc", "irish/draft.abc", "old/draft-2.abc"):
            self.write(f"in/{name}", TUNE % (1, b"One"))

    def names(self) -> list[str]:
        """The names of the books of the archive."""
        return [name for (name,) in self.rows("SELECT name FROM books ORDER BY name")]

    def test_patterns(self) -> None:
        for words, wanted in {
            "--include irish/*": ["irish_draft", "irish_jigs", "irish_reels"],
            "--include reels.abc": ["irish_reels", "reels"],
            "--exclude draft*": ["irish_jigs", "irish_reels", "reels"],
            "--include irish/* --include old/* --exclude *draft.abc": ["irish_jigs", "irish_reels", "old_draft-2"],
            "--exclude irish/* --exclude */draft*": ["reels"],
            "--include REELS.abc --include reels.ab?": ["irish_reels", "reels"],
        }.items():
            with self.subTest(words):
                ran = self.run_archive(self.folder / "in", *words.split())
                self.assertEqual(self.names(), wanted)
                self.assertIn(f"{5 - len(wanted)} left out", ran.out)
                shutil.rmtree(self.to)

    def test_patterns_are_of_names_in_archives_and_of_paths_as_they_are_named(self) -> None:
        with zipfile.ZipFile(self.folder / "some.zip", "w") as zipped:
            for name in ("a/one.abc", "b/two.abc"):
                zipped.writestr(name, TUNE % (1, b"One"))
        self.run_archive(self.folder / "some.zip", self.folder / "in/old/draft-2.abc", "--include", "a/*", "--include", "*/old/*")
        self.assertEqual(self.names(), ["a_one", "draft-2.abc"[:-4]])

    def test_a_run_that_takes_no_book_fails(self) -> None:
        ran = self.run_archive(self.folder / "in", "--include", "none*", status=1)
        self.assertEqual(ran.err, "archive: --include and --exclude leave no book\n")
        self.assertIn("5 left out", ran.out)

    def test_names_that_end_with_nul(self) -> None:
        odd = self.write("in/odd\nname.abc", TUNE % (1, b"Odd"))
        names = b"\0".join(map(os.fsencode, (odd, self.folder / "in/reels.abc"))) + b"\0"
        self.run_archive("-0", "-", stdin=names)
        self.assertEqual(self.names(), ["odd_name", "reels"])
        self.assertIn("-0 is for names on standard input", self.run_archive("-0", self.folder / "in", status=2).err)


class Pruning(Collections):
    """Books that are gone."""

    def test_random_changes_against_a_fresh_archive(self) -> None:
        """Books are added, changed, renamed and deleted. `--changed` prints what differs, and `--prune` leaves what a new archive has."""
        chance, source = random.Random(setting.seed), self.folder / "in"
        number, counts = 0, [0, 0]
        before: dict[str, bytes] = {}
        for trial in range(8):
            present = sorted(source.glob("*.abc")) if source.is_dir() else []
            for path in chance.sample(present, min(len(present), 3)):
                what = chance.randrange(3)
                if what == 0:
                    path.unlink()
                elif what == 1:
                    path.rename(path.with_name(f"renamed_{trial}_{path.name}"))
                else:
                    path.write_bytes(setting.random_book(chance.randrange(100)))
            for _ in range(chance.randrange(1, 5)):
                self.write(f"in/book_{number}.abc", setting.random_book(number))
                number += 1
            ran = self.run_archive(source, "--changed", "--prune")
            after = {str(path): path.read_bytes() for path in source.glob("*.abc")}
            names = dict(self.rows("SELECT source, name FROM books"))
            with self.subTest(trial):
                self.assertEqual(names.keys(), after.keys())
                self.assert_as_fresh(self.books_by_name())
                wanted = [line for path in after for line in changed_line(names[path], before.get(path, b""), after[path])]
                self.assertEqual(sorted(line for line in ran.out.splitlines()[:-1] if "pruned" not in line), sorted(wanted))
                gone = len(before.keys() - after.keys())
                self.assertEqual((ran.out.count(": pruned, "), f"{gone} pruned" in ran.out), (gone, gone > 0))
            counts = [counts[0] + gone, counts[1] + len(wanted)]
            before = after
        self.assertGreater(min(counts), 4, counts)
        for table in ("tunes", "remarks", "losses"):
            self.assertEqual(self.rows(f"SELECT count(*) FROM {table} WHERE book NOT IN (SELECT id FROM books)"), [(0,)])

    def test_what_is_at_its_place_stays(self) -> None:
        """Books that are in no source, that patterns leave out, and of archives that are no source."""
        one, two = self.write("one.abc", TUNE % (1, b"One")), self.write("in/two.abc", TUNE % (1, b"Two"))
        zipped = self.folder / "some.zip"
        with zipfile.ZipFile(zipped, "w") as archive:
            archive.writestr("three.abc", TUNE % (1, b"Three"))
            archive.writestr("four.abc", TUNE % (1, b"Four"))
        self.run_archive(one, two, zipped)
        ran = self.run_archive(one, "--prune")
        self.assertNotIn("pruned", ran.out)
        ran = self.run_archive(one, self.folder / "in", "--prune", "--exclude", "two*")
        self.assertNotIn("pruned", ran.out)
        with zipfile.ZipFile(zipped, "w") as archive:
            archive.writestr("four.abc", TUNE % (1, b"Four"))
        self.assertNotIn("pruned", self.run_archive(one, "--prune").out)
        self.assertIn("three: pruned, with 1 file\n", self.run_archive(zipped, "--prune").out)
        zipped.unlink()
        self.assertIn("four: pruned, with 1 file\n", self.run_archive(one, "--prune").out)
        self.assertEqual(sorted(setting.tree(self.to)), ["one/1.mid", "two/1.mid"])

    def test_nothing_is_pruned_if_a_source_cannot_be_read(self) -> None:
        for name in ("one", "two"):
            self.write(f"in/{name}.abc", TUNE % (1, b"One"))
        self.run_archive(self.folder / "in")
        kept = setting.tree(self.to)
        (self.folder / "in").rename(self.folder / "away")
        ran = self.run_archive(self.folder / "in", "--prune", status=1)
        self.assertEqual(setting.tree(self.to), kept)
        ran = self.run_archive(self.folder / "in", self.folder / "away", "--prune", status=1)
        self.assertEqual(len(setting.tree(self.to)), 4)
        (self.folder / "in").mkdir()
        ran = self.run_archive(self.folder / "in", self.folder / "away", "--prune", status=1)
        self.assertIn("archive: nothing is pruned, since a source could not be read\n", ran.err)

    def test_files_of_others_stay(self) -> None:
        one, two = self.write("one.abc", TUNE % (1, b"One")), self.write("two.abc", TUNE % (1, b"Two"))
        self.run_archive(one, two)
        self.write("to/one/mine.txt", b"mine")
        one.unlink()
        self.run_archive(two, "--prune")
        self.assertEqual([path.name for path in (self.to / "one").iterdir()], ["mine.txt"])

    def test_a_link_instead_of_a_folder_is_no_way_out(self) -> None:
        one, two = self.write("one.abc", TUNE % (1, b"One")), self.write("two.abc", TUNE % (1, b"Two"))
        self.run_archive(one, two)
        one.unlink()
        shutil.rmtree(self.to / "one")
        outside = self.write("outside/1.mid", b"mine")
        (self.to / "one").symlink_to(outside.parent)
        ran = self.run_archive(two, "--prune", status=1)
        self.assertIn("one: cannot be pruned: its folder is a symbolic link\n", ran.err)
        self.assertEqual(outside.read_bytes(), b"mine")

    def test_a_name_that_is_no_text(self) -> None:
        """The catalogue has it otherwise than the disk."""
        odd = os.fsencode(self.folder) + b"/\xff.abc"
        with open(odd, "wb") as file:
            file.write(TUNE % (1, b"Odd"))
        two = self.write("two.abc", TUNE % (1, b"Two"))
        self.run_archive("-", stdin=odd + b"\n" + os.fsencode(two) + b"\n")
        self.assertNotIn("pruned", self.run_archive(two, "--prune").out)
        os.unlink(odd)
        self.assertIn("1 pruned", self.run_archive(two, "--prune").out)


def changed_line(name: str, before: bytes, after: bytes) -> list[str]:
    """The line of `--changed` for a book, by what the program makes of it before and after."""
    old, new = setting.fresh(before), setting.fresh(after)
    written = sorted(int(file[:-4]) for file, data in new.files.items() if old.files.get(file) != data)
    removed = sorted(int(file[:-4]) for file in old.files.keys() - new.files.keys())
    if not written and not removed and len(old.faults) == len(new.faults):
        return []
    numbers = " ".join(map(str, ["written", *written, "removed", *removed]))
    return [f"{name}: {numbers}; faults {len(new.faults)}, before {len(old.faults)}"]


class DryRuns(Collections):
    """What a run would do."""

    def snapshot(self) -> dict[str, tuple[int, int, bytes]]:
        """All files of the test's folder: their stamps and bytes."""
        return {str(path): (*setting.stamp(path), path.read_bytes()) for path in self.folder.rglob("*") if path.is_file()}

    def test_reasons(self) -> None:
        books = {name: self.write(f"in/{name}.abc", TUNE % (1, name.encode())) for name in ("same", "changed", "lost", "gone")}
        ran = self.run_archive(self.folder / "in", "--dry-run")
        self.assertEqual(sorted(ran.out.splitlines()[:-1]), [f"{name}: to compile: new" for name in sorted(books)])
        self.assertTrue(ran.out.endswith(f"{self.to}: 4 books to compile; nothing is written\n"))
        self.assertFalse(self.to.exists())
        self.run_archive(self.folder / "in")
        books["changed"].write_bytes(TUNE % (1, b"Other"))
        (self.to / "lost/1.mid").unlink()
        books["gone"].unlink()
        self.write("in/fresh.abc", TUNE % (1, b"Fresh"))
        before = self.snapshot()
        ran = self.run_archive(self.folder / "in", "--dry-run", "--prune")
        wanted = ["changed: to compile: changed", "fresh: to compile: new", "lost: to compile: a file is missing", "gone: to prune, with 1 file"]
        self.assertEqual(ran.out.splitlines(), [*wanted, f"{self.to}: 3 books to compile; 1 as before; 1 to prune; nothing is written"])
        self.assertEqual(self.snapshot(), before)
        real = self.run_archive(self.folder / "in", "--prune")
        self.assertIn("3 books compiled", real.out)
        self.assertIn("1 as before; 1 pruned", real.out)
        self.assertEqual(self.run_archive(self.folder / "in", "--dry-run").out, f"{self.to}: 0 books to compile; 4 as before; nothing is written\n")

    def test_other_options_and_problems(self) -> None:
        self.write("in/a.abc", TUNE % (1, b"A"))
        os.mkfifo(self.folder / "in/pipe.abc")
        self.run_archive(self.folder / "in", status=1)
        ran = self.run_archive(self.folder / "in", "--dry-run", "--number-by", "place", status=1)
        self.assertEqual(ran.out.splitlines()[0], "a: to compile: other options or another version")
        self.assertEqual(ran.err, "pipe: cannot be read: it is not a regular file\n")

    def test_it_has_nothing_to_write(self) -> None:
        for words in ("--report r.html", "--losses l.csv", "--catalogue csv", "--changed", "--strict"):
            with self.subTest(words):
                self.assertIn("--dry-run writes nothing", self.run_archive("x", "--dry-run", *words.split(), status=2).err)


class Zipped(Collections):
    """Archives that are one file."""

    def setUp(self) -> None:
        super().setUp()
        self.to = self.folder / "midi.zip"
        self.work = self.folder / ".midi.zip.archive"
        self.books = {f"book_{number}": setting.random_book(number) for number in range(10)}
        for name, book in self.books.items():
            self.write(f"in/{name}.abc", book)

    def assert_packed(self, books: dict[str, bytes]) -> None:
        """Compares the file with what the program makes of the books."""
        with zipfile.ZipFile(self.to) as packed:
            self.assertIsNone(packed.testzip())
            found = {name: packed.read(name) for name in packed.namelist()}
        self.assertIn("catalogue.sqlite", found)
        wanted = {f"{name}/{file}": data for name, book in books.items() for file, data in setting.fresh(book).files.items()}
        self.assertEqual({name: data for name, data in found.items() if name.endswith(".mid")}, wanted)
        self.assertFalse(self.work.exists())

    def test_a_file_has_what_a_folder_has(self) -> None:
        self.run_archive(self.folder / "in", "--catalogue", "csv")
        self.assert_packed(self.books)
        with zipfile.ZipFile(self.to) as packed:
            rows = list(csv.DictReader(io.StringIO(packed.read("tunes.csv").decode())))
            names = packed.namelist()
        self.assertEqual(sorted(row["file"] for row in rows if row["file"]), sorted(name for name in names if name.endswith(".mid")))

    def test_a_later_run_compiles_what_changed(self) -> None:
        self.run_archive(self.folder / "in")
        self.books["book_3"] = TUNE % (5, b"Five")
        self.write("in/book_3.abc", self.books["book_3"])
        del self.books["book_4"]
        (self.folder / "in/book_4.abc").unlink()
        self.assertIn("book_3: to compile: changed\n", self.run_archive(self.folder / "in", "--dry-run").out)
        self.assertFalse(self.work.exists())
        ran = self.run_archive(self.folder / "in", "--prune", "--changed")
        self.assertIn("1 book compiled", ran.out)
        self.assertIn("8 as before; 1 pruned", ran.out)
        self.assert_packed(self.books)

    def test_a_file_that_is_no_archive_is_refused(self) -> None:
        for name, data in (("other.zip", zip_of({"mine.txt": b"mine"})), ("broken.zip", b"no archive"), ("bad.zip", zip_of({"catalogue.sqlite": b"", "../x": b""}))):
            self.to = self.write(name, data)
            ran = self.run_archive(self.folder / "in", status=1)
            with self.subTest(name):
                self.assertRegex(ran.err, rf"^archive: .*{'x' if name == 'bad.zip' else name}: (it has no catalogue.sqlite|the archive is broken|it has a file '../x'), ?.*\n$|^archive: .*\n$")
                self.assertEqual(self.to.read_bytes(), data)
                self.assertFalse((self.folder / "x").exists())

    def test_a_run_that_is_killed_is_resumed(self) -> None:
        """The file stays as it was, and the next run begins with what the killed one made."""
        self.run_archive(self.folder / "in")
        before = self.to.read_bytes()
        self.write("in/more.abc", TUNE % (1, b"More"))
        script = "import abc2midi_live_archive.command as c, os, sys; c.pack = lambda *_: os._exit(9); sys.exit(c.main())"
        words = self.words(self.folder / "in")
        killed = subprocess.run([sys.executable, "-B", "-c", script, *words[3:]], env={**os.environ, "PYTHONPATH": str(setting.TOP / "python")}, capture_output=True)
        self.assertEqual((killed.returncode, self.to.read_bytes() == before, self.work.exists()), (9, True, True), killed)
        self.assertIn("11 as before", self.run_archive(self.folder / "in").out)
        self.assert_packed({**self.books, "more": TUNE % (1, b"More")})


def zip_of(files: dict[str, bytes]) -> bytes:
    """A zip archive."""
    made = io.BytesIO()
    with zipfile.ZipFile(made, "w") as archive:
        for name, data in files.items():
            archive.writestr(name, data)
    return made.getvalue()
