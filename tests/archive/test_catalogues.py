"""The catalogue: those of earlier and later versions, the columns of a tune, and when a book was last seen."""

from __future__ import annotations

import hashlib
import sqlite3
from contextlib import closing
from datetime import datetime, timedelta, timezone

import setting
from abc2midi_live_archive.tables import VERSION
from abc2midi_live_archive.units import TuneRow
from books import TUNE

TABLES_1 = """
CREATE TABLE books (id INTEGER PRIMARY KEY, name TEXT NOT NULL UNIQUE, source TEXT NOT NULL UNIQUE, digest TEXT, options TEXT,
    size INTEGER NOT NULL DEFAULT 0, lines INTEGER NOT NULL DEFAULT 0, parts INTEGER NOT NULL DEFAULT 1, tunes INTEGER NOT NULL DEFAULT 0,
    files INTEGER NOT NULL DEFAULT 0, faults INTEGER NOT NULL DEFAULT 0, hints INTEGER NOT NULL DEFAULT 0,
    seconds REAL NOT NULL DEFAULT 0, problem TEXT);
CREATE TABLE tunes (book INTEGER NOT NULL REFERENCES books, number INTEGER NOT NULL, title TEXT NOT NULL, line INTEGER NOT NULL, key TEXT,
    meter TEXT, size INTEGER, sha256 TEXT, ticks INTEGER, notes INTEGER);
CREATE TABLE remarks (book INTEGER NOT NULL REFERENCES books, kind TEXT NOT NULL, line INTEGER NOT NULL, column INTEGER NOT NULL,
    name TEXT NOT NULL, sentence TEXT, excerpt TEXT NOT NULL, mark INTEGER NOT NULL);
CREATE TABLE meanings (name TEXT PRIMARY KEY, wrong TEXT NOT NULL, instead TEXT NOT NULL);
CREATE INDEX tunes_of_book ON tunes (book);
CREATE INDEX remarks_of_book ON remarks (book);
PRAGMA user_version = 1;
"""  # as the version 1 had them


class Catalogues(setting.Runs):
    def backend(self) -> list[str]:
        return ["--library", str(setting.library)]

    def test_one_of_the_first_version_is_brought_up(self) -> None:
        """Books keep their names and files, and `--changed` goes on from there."""
        one, two = self.write("airs.abc", TUNE % (1, b"One") + TUNE % (4, b"Four")), self.write("b/airs.abc", TUNE % (2, b"Two"))
        file = setting.fresh(TUNE % (1, b"One")).files["1.mid"]
        self.write("to/airs-9/1.mid", file)
        stamp = setting.stamp(self.to / "airs-9/1.mid")
        with closing(sqlite3.connect(self.to / "catalogue.sqlite")) as database:
            database.executescript(TABLES_1)
            database.execute("INSERT INTO books (id, name, source, digest, options, faults) VALUES (3, 'airs-9', ?, 'x', '1 1.0.0', 5)", (str(one),))
            for number, title, line, digest in ((7, "Old", 1, None), (1, "One", 5, hashlib.sha256(file).hexdigest())):
                database.execute("INSERT INTO tunes VALUES (3, ?, ?, ?, 'D', '3/4', 9, ?, 1, 1)", (number, title, line, digest))
            database.commit()
        before = (self.to / "catalogue.sqlite").read_bytes()
        ran = self.run_archive(one, two, "--dry-run")
        self.assertEqual(sorted(ran.out.splitlines()[:2]), ["airs-9: to compile: not completed", "airs: to compile: new"])
        self.assertEqual((self.to / "catalogue.sqlite").read_bytes(), before)
        ran = self.run_archive(one, two, "--changed")
        self.assertEqual(sorted(ran.out.splitlines()[:2]), ["airs-9: written 4 removed; faults 0, before 5", "airs: written 2 removed; faults 0, before 0"])
        self.assertEqual(setting.stamp(self.to / "airs-9/1.mid"), stamp)
        self.assert_as_fresh({"airs-9": one.read_bytes(), "airs": two.read_bytes()})
        self.assertEqual(self.rows("PRAGMA user_version"), [(VERSION,)])
        self.assertEqual(self.rows("SELECT title, reading FROM tunes WHERE book = 3 ORDER BY line"), [("One", "written"), ("Four", "written")])
        self.assertEqual([name for _, name, *_ in self.rows("PRAGMA table_info(tunes)")], ["book", *TuneRow._fields])
        self.assertIn("2 as before", self.run_archive(one, two).out)

    def test_one_of_a_later_version_is_refused(self) -> None:
        book = self.write("airs.abc", TUNE % (1, b"One"))
        self.run_archive(book)
        with closing(sqlite3.connect(self.to / "catalogue.sqlite")) as database:
            database.execute(f"PRAGMA user_version = {VERSION + 1}")
        for words in ((), ("--dry-run",)):
            ran = self.run_archive(book, *words, status=1)
            self.assertEqual(ran.err, f"archive: {self.to}/catalogue.sqlite has tables of version {VERSION + 1}, and this program writes version {VERSION}\n")

    def test_a_book_has_the_time_at_which_it_was_last_seen(self) -> None:
        one, two = self.write("in/one.abc", TUNE % (1, b"One")), self.write("in/two.abc", TUNE % (1, b"Two"))
        self.run_archive(self.folder / "in")
        (seen,) = set(self.rows("SELECT seen FROM books"))
        age = datetime.now(timezone.utc) - datetime.strptime(seen[0], "%Y-%m-%dT%H:%M:%SZ").replace(tzinfo=timezone.utc)
        self.assertLess(abs(age), timedelta(hours=12))  # a machine may set its clock meanwhile
        earlier = "2000-01-02T03:04:05Z"
        with closing(sqlite3.connect(self.to / "catalogue.sqlite")) as database:
            database.execute("UPDATE books SET seen = ?", (earlier,))
            database.commit()
        two.unlink()
        self.run_archive(one)
        second = dict(self.rows("SELECT name, seen FROM books"))
        self.assertEqual((second["two"], second["one"] > earlier), (earlier, True))

    def test_the_same_music_has_the_same_digest(self) -> None:
        """With another title, key, tempo and instrument. Other notes have another one."""
        header = b"T:%b\nM:4/4\nL:1/8\n"
        tunes = [
            b"X:1\n" + header % b"One" + b"K:C\nCDEF [V:2] G2|",
            b"X:2\n" + header % b"Two" + b"Q:1/4=90\nK:Am\nCDEF [V:2] G2|",
            b"X:3\n" + header % b"" + b"%%MIDI program 40\nK:C\nCD\n%%MIDI program 41\nEF [V:2] G2|",
            b"X:4\n" + header % b"One" + b"K:C\nCDEE [V:2] G2|",
            b"X:5\n" + header % b"One" + b"K:C\n!f!CDEF [V:2] G2|",
        ]
        self.run_archive(self.write("airs.abc", b"\n\n".join(tunes) + b"\n"))
        digests = [digest for (digest,) in self.rows("SELECT notes_digest FROM tunes ORDER BY number")]
        self.assertEqual((len(set(digests[:3])), len(set(digests))), (1, 3))
        self.assertEqual(len(set(self.rows("SELECT sha256 FROM tunes"))), 5)

    def test_the_columns_of_a_tune(self) -> None:
        text = b"X:5\nT:One\nT:Eins\nC:Ann\nR:jig\nM:6/8\nQ:3/8=60\nK:Ador\n{g}A3|\nw:la\nV:2\n\"Am\"A3|\n\nX:6\nK:none\n"
        self.run_archive(self.write("airs.abc", text))
        names = "place reading titles line last_line composer rhythm key_text tonic mode tempo_text unit has_lyrics has_chord_names has_grace_notes has_overlays"
        names += " file key meter tempo ticks seconds voices notes"
        wanted = (1, "written", "One\nEins", 1, 12, "Ann", "jig", "Ador", "A", "dorian", "3/8=60", "1/8", 1, 1, 1, 0, "airs/5.mid", "G", "6/8", 90.0, 720, 1.0, 2, 2)
        self.assertEqual(self.rows(f"SELECT {names.replace(' ', ', ')} FROM tunes WHERE number = 5"), [wanted])
        self.assertEqual(self.rows("SELECT titles, tonic, unit, voices, state FROM tunes WHERE number = 6"), [(None, None, "1/8", 0, None)])
