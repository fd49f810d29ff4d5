"""What a run does with books, whichever way they are compiled: one suite, which the tests of each way take over."""

from __future__ import annotations

import csv
import hashlib
import io
import json
import os
import re
import shutil
import tarfile
import zipfile
from pathlib import Path

import setting

EXAMPLES = sorted((setting.TOP / "examples").glob("*.abc"))
TUNE = b"X:%d\nT:%b\nM:3/4\nK:D\nCDE|\n\n"


class Books(setting.Runs):
    """The suite. A subclass says what compiles."""

    def test_a_folder_of_books(self) -> None:
        books = {path.stem: path.read_bytes() for path in EXAMPLES}
        ran = self.run_archive(setting.TOP / "examples")
        self.assert_as_fresh(books)
        self.assertRegex(ran.out, rf"^{re.escape(str(self.to))}: 2 books compiled, with 8 tunes, 8 files, 2 faults; \d+:\d\d\n$")

    def test_random_books(self) -> None:
        books = {f"book_{number}": setting.random_book(number) for number in range(setting.books)}
        for name, book in books.items():
            self.write(f"in/{name}.abc", book)
        self.run_archive(self.folder / "in")
        self.assert_as_fresh(books)

    def test_archives_lists_and_two_books_of_one_name(self) -> None:
        books = [setting.random_book(number) for number in range(4)]
        self.write("a/reels.abc", books[0])
        with zipfile.ZipFile(self.folder / "some.zip", "w") as zipped:
            zipped.writestr("reels.abc", books[1])
        with tarfile.open(self.folder / "some.tgz", "w:gz") as tar:
            entry = tarfile.TarInfo("b/reels.abc")
            entry.size = len(books[2])
            tar.addfile(entry, io.BytesIO(books[2]))
        listed = self.write("c/reels.abc", books[3])
        sources = [self.folder / "a", self.folder / "some.zip", self.folder / "some.tgz", "-"]
        self.run_archive(*sources, stdin=os.fsencode(listed) + b"\n")
        self.assert_as_fresh({"reels": books[0], "reels-2": books[1], "b_reels": books[2], "reels-3": books[3]})
        again = self.run_archive(*sources, stdin=os.fsencode(listed) + b"\n")
        self.assertIn("4 as before", again.out)

    def test_the_catalogue(self) -> None:
        self.write("airs.abc", TUNE % (7, b"\xc3\x84ir") + TUNE % (7, b"Caf\xe9") + b"X:2\nK:Am\nC&|[\n")
        self.run_archive(self.folder / "airs.abc")
        file = (self.to / "airs/7.mid").read_bytes()
        digest = hashlib.sha256(file).hexdigest()
        tunes = self.rows("SELECT number, title, line, file, key, meter, size, sha256, ticks, notes FROM tunes ORDER BY line")
        self.assertEqual(tunes[0], (7, "Äir", 1, "airs/7.mid", "D", "3/4", len(file), digest, 720, 3))
        self.assertEqual(tunes[1], (7, "Café", 7, None, None, None, None, None, None, None))
        self.assertEqual((*tunes[2][:6], *tunes[2][8:]), (2, "", 13, "airs/2.mid", "Am", None, 240, 1))
        remarks = self.rows("SELECT kind, line, column, name, excerpt FROM remarks ORDER BY line, column")
        self.assertEqual(remarks, [("fault", 15, 2, "BadByte", "C&|["), ("fault", 15, 4, "Unclosed", "C&|[")])
        wanted = ("airs", str(self.folder / "airs.abc"), 15, 1, 3, 2, 2, 0, 1, None)
        asked = "SELECT name, source, lines, parts, tunes, files, faults, hints, hidden, problem FROM books"
        self.assertEqual(self.rows(asked), [wanted])
        self.assertEqual(self.rows("SELECT count(*) FROM meanings WHERE name IN ('BadByte', 'Unclosed')"), [(2,)])

    def test_hints_are_found_if_they_are_asked_for(self) -> None:
        book = self.write("airs.abc", TUNE % (7, b"One") + TUNE % (7, b"Two"))
        self.run_archive(book)
        self.assertEqual(self.rows("SELECT name FROM remarks"), [])
        ran = self.run_archive(book, "--hints")
        self.assertEqual(self.rows("SELECT kind, line, column, name, excerpt FROM remarks"), [("hint", 7, 1, "SameNumber", "X:7")])
        self.assertIn("1 hint", ran.out)
        self.assertIn("1 as before", self.run_archive(book, "--hints").out)

    def test_tables(self) -> None:
        self.write("airs.abc", TUNE % (1, b'A "quoted", title') + b"X:2\nK:C\n&\n")
        self.run_archive(self.folder / "airs.abc", "--catalogue", "csv", "--catalogue", "jsonl")
        for table, count in (("books", 1), ("tunes", 2), ("remarks", 1)):
            rows = list(csv.DictReader(io.StringIO((self.to / f"{table}.csv").read_text("utf-8"))))
            objects = [json.loads(line) for line in (self.to / f"{table}.jsonl").read_text("utf-8").splitlines()]
            texts = [{name: "" if value is None else str(value) for name, value in row.items()} for row in objects]
            self.assertEqual((len(rows), rows), (count, texts))
        self.assertEqual((objects[0]["book"], objects[0]["line"], objects[0]["name"]), ("airs", 9, "BadByte"))

    def test_the_report(self) -> None:
        self.write("airs.abc", TUNE % (1, b"<Air>") + TUNE % (2, b"Two") + b"X:3\nC:Ann <Ann>\nR:Jig\nK:Bm\n<&|\n")
        page = self.folder / "report.html"
        self.run_archive(self.folder / "airs.abc", self.folder / "gone.abc", "--report", page, status=1)
        text = page.read_text("utf-8")
        for wanted in (
            "<dt>books</dt><dd>2</dd>",
            "<dt>tunes</dt><dd>3</dd>",
            'title="jig: 1"',
            'title="D major: 2"',
            'title="B minor: 1"',
            'title="3/4: 2"',
            'title="free: 1"',
            'title="Ann &lt;Ann&gt;: 1"',
            'title="0 s to 15 s: 3"',
            "1 piece of music that several tunes have, 2 in all",
            "<li>&lt;Air&gt; <span class='soft'>airs:1</span>; Two <span class='soft'>airs:7</span></li>",
            '<a class="row" href="#fault-BadByte" title="BadByte: 1 in 1 book">',
            f'<a href="file://{self.folder}/airs.abc#L17">airs:17:2</a> <code>&lt;<mark>&amp;</mark>|</code>',
            "<span>cannot be read: No such file or directory</span>",
        ):
            self.assertIn(wanted, text)
        for unwanted in ("Since the run of", "What sounds", "<Air>"):
            self.assertNotIn(unwanted, text)
        ran = self.run_archive(self.folder / "airs.abc", "--report", self.folder / "no/such.html", status=1)
        self.assertIn("No such file", ran.err)
        self.assertIn("1 as before", ran.out)

    def test_the_report_has_what_grew_since_the_last_run(self) -> None:
        page, book = self.folder / "report.html", self.write("in/airs.abc", TUNE % (1, b"One"))
        self.run_archive(book)
        self.write("in/more.abc", TUNE % (1, b"Two") + TUNE % (2, b"Three") + b"X:3\nK:C\n&\n")
        self.run_archive(self.folder / "in", "--report", page)
        grown = r"Since the run of \d{4}-\d\d-\d\d \d\d:\d\d UTC: \+1 books, \+3 tunes, \+3 MIDI files, \+1 faults\."
        self.assertRegex(page.read_text("utf-8"), grown)
        self.run_archive(self.folder / "in", "--report", page)
        self.assertIn("+0 books, +0 tunes, +0 MIDI files, +0 faults", page.read_text("utf-8"))

    def test_a_folder_without_books(self) -> None:
        self.write("in/reels.txt", TUNE % (1, b"One"))
        ran = self.run_archive(self.folder / "in", status=1)
        self.assertEqual(ran.err, f"{self.folder}/in: has no book: in folders and archives the names of books end in .abc\n")
        self.assertIn("0 books compiled", ran.out)
        self.assertEqual(self.run_archive("-", status=1).err, "archive: there is no book\n")

    def test_bad_books_leave_the_others(self) -> None:
        good = setting.random_book(1)
        latin, binary = "X:1\nT:Café\nK:C\nC é|\n".encode("latin-1"), bytes(range(256)) * 50
        long_line = b"X:1\nK:C\nC|\n" + b"C" * 65_536 + b"\nD|\n"
        books = {"good": good, "latin": latin, "binary": binary, "empty": b"", "long_line": long_line}
        for name, book in books.items():
            self.write(f"in/{name}.abc", book)
        os.mkfifo(self.folder / "in/pipe.abc")
        self.write("broken.zip", b"no archive")
        ran = self.run_archive(self.folder / "in", self.folder / "gone.abc", self.folder / "broken.zip", status=1)
        lines = setting.without_progress(ran.err.encode()).decode().splitlines()
        problems = {Path(line.split(":")[0]).name for line in lines}
        self.assertEqual(problems, {"pipe.abc", "gone.abc", "broken.zip"}, ran.err)
        self.assertIn("5 books compiled", ran.out)
        self.assertIn("2 with a problem", ran.out)
        where = "SELECT name, line, column FROM remarks WHERE name = 'BadLine'"
        self.assertEqual(self.rows(where), [("BadLine", 4, 65_536)])
        books["long_line"] = long_line.replace(b"C" * 65_536, b"%")
        wanted = {f"{name}/{file}": data for name, book in books.items() for file, data in setting.fresh(book).files.items()}
        self.assertEqual(setting.tree(self.to), wanted)
        self.assertEqual(self.rows("SELECT problem FROM books WHERE name = 'gone'"), [("cannot be read: No such file or directory",)])
        self.write("gone.abc", good)
        (self.folder / "in/pipe.abc").unlink()
        self.assertIn("1 book compiled", self.run_archive(self.folder / "gone.abc").out)
        self.assertEqual(self.rows("SELECT problem FROM books WHERE name = 'gone'"), [(None,)])

    def test_a_book_that_changed_or_lost_a_file_is_compiled_again(self) -> None:
        book = self.write("airs.abc", TUNE % (1, b"One") + TUNE % (2, b"Two"))
        other = self.write("other.abc", TUNE % (1, b"Other"))
        first = self.run_archive(book, other, "--changed")
        self.assertEqual(sorted(first.out.splitlines()[:-1]), ["airs: written 1 2 removed; faults 0, before 0", "other: written 1 removed; faults 0, before 0"])
        kept = setting.stamp(self.to / "airs/1.mid")
        book.write_bytes(TUNE % (1, b"One") + TUNE % (3, b"Three") + b"&")
        second = self.run_archive(book, other, "--changed")
        self.assertEqual(second.out.splitlines()[:-1], ["airs: written 3 removed 2; faults 0, before 0"])
        self.assertIn("1 as before", second.out)
        self.assertEqual(setting.stamp(self.to / "airs/1.mid"), kept)
        (self.to / "airs/3.mid").unlink()
        third = self.run_archive(book, other, "--changed")
        self.assertEqual(len(third.out.splitlines()), 1)
        self.assertIn("1 book compiled", third.out)
        self.assert_as_fresh({"airs": book.read_bytes(), "other": other.read_bytes()})

    def test_a_file_of_another_size_is_written_again(self) -> None:
        """As one that lost its bytes when the power failed."""
        book = self.write("airs.abc", TUNE % (1, b"One") + TUNE % (2, b"Two"))
        self.run_archive(book)
        (self.to / "airs/1.mid").write_bytes(b"")
        self.assertIn("1 book compiled", self.run_archive(book).out)
        self.assert_as_fresh({"airs": book.read_bytes()})
        (self.to / "airs/2.mid").rename(self.folder / "outside")
        (self.to / "airs/2.mid").symlink_to(self.folder / "outside")
        self.assertIn("1 book compiled", self.run_archive(book).out)
        self.assertFalse((self.to / "airs/2.mid").is_symlink())
        self.assert_as_fresh({"airs": book.read_bytes()})

    def test_a_link_in_the_place_of_a_folder_is_refused(self) -> None:
        """What is outside is neither written nor removed."""
        book = self.write("airs.abc", TUNE % (1, b"One"))
        self.run_archive(book)
        shutil.rmtree(self.to / "airs")
        self.write("outside/9.mid", b"mine")
        (self.to / "airs").symlink_to(self.folder / "outside")
        choices: tuple[list[str], ...] = ([], ["--hints"])
        for words in choices:
            ran = self.run_archive(book, *words, status=1)
            self.assertIn("airs.abc: cannot be written: its folder is a symbolic link", ran.err)
        self.assertEqual(setting.tree(self.folder / "outside"), {"9.mid": b"mine"})

    def test_a_link_in_the_place_of_the_catalogue_is_refused(self) -> None:
        self.to.mkdir()
        (self.to / "catalogue.sqlite").symlink_to(self.folder / "outside")
        self.assertIn("catalogue.sqlite is a symbolic link", self.run_archive(EXAMPLES[0], status=1).err)
        self.assertFalse((self.folder / "outside").exists())

    def test_files_of_others_stay(self) -> None:
        self.write("to/airs/9.mid", b"mine")
        self.run_archive(self.write("airs.abc", TUNE % (1, b"One")))
        self.assertEqual(sorted(setting.tree(self.to)), ["airs-2/1.mid", "airs/9.mid"])
