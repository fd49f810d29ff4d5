"""The server of the page, asked by plain requests."""

import hmac
import http.client
import io
import json
import os
import pwd
import random
import re
import signal
import socket
import stat
import subprocess
import sys
import unittest
import zipfile
from collections.abc import Callable
from pathlib import Path
from typing import Any, Union
from unittest import mock

import trial
from abc2midi_live_clients.common.faults import meanings
from abc2midi_live_clients.common.json_object import Json
from abc2midi_live_clients.hints import Finder
from abc2midi_live_clients.page import book_text, finding_rows, hint_process, request_handler, saving, shared_book
from served_page import BOOK, Page

BOOK_FAULTS = [[3, 5, 6, "BadByte"], [7, 4, 5, "LooseTie"]]


class Requests(Page):
    """What the server answers."""

    def test_files_of_the_page(self) -> None:
        for name, kind in (("", "text/html"), ("shell/page.css", "text/css"), ("shell/application.js", "text/javascript"), ("editor/text_sheet.js", "text/javascript")):
            status, headers, data = self.request(name)
            self.assertEqual((status, headers["Content-Type"].partition(";")[0], bool(data)), (200, kind, True))
            self.assertIn("default-src 'none'", headers["Content-Security-Policy"])
            self.assertEqual((headers["Referrer-Policy"], headers["Cross-Origin-Opener-Policy"]), ("no-referrer", "same-origin"))
            self.assertNotIn(b"http", data)
        self.finish()

    def test_an_address_without_its_last_slash(self) -> None:
        """It goes to the page, which would not find its files from there."""
        status, headers, data = self.request("", path=f"/{self.token}")
        self.assertEqual((status, headers["Location"], data), (308, f"/{self.token}/", b""))
        self.assertEqual(self.request("", {}, path=f"/{self.token}")[0], 404)
        self.finish()

    def test_a_book(self) -> None:
        book = self.book()
        self.assertEqual(book["lines"], BOOK.decode().split("\n"))
        self.assertEqual(book["faults"], BOOK_FAULTS)
        self.assertEqual(book["tunes"], [[0, 1, "Kesh", True], [5, 2, "", True]])
        pairs = {fault.name: [fault.wrong, fault.instead] for fault in meanings()}
        self.assertEqual((book["name"], book["version"], book["sentences"]), ("book.abc", 0, pairs))

    def test_edits(self) -> None:
        made = self.edit(3, 4, "GAB", "é&d")
        self.assertEqual((made["version"], made["written"], made["removed"]), (1, [1], []))
        self.assertEqual(made["faults"], {"at": 0, "out": 0, "put": [[4, 0, 1, "BadByte"], [4, 1, 2, "BadByte"]]})
        self.assertEqual(made["tunes"], {"at": 2, "out": 0, "put": []})
        made = self.edit(4, 5)
        self.assertEqual((made["written"], made["faults"]), ([1], {"at": 1, "out": 0, "put": []}))
        gone = self.edit(5, 7)
        self.assertEqual((gone["written"], gone["removed"], gone["tunes"]), ([], [2], {"at": 1, "out": 0, "put": []}))
        self.assertEqual(self.book()["lines"], ["X:1", "T:Kesh", "K:G", "GAB", "", "CDE -", ""])
        self.assertEqual(self.path.read_bytes(), BOOK)
        self.finish()

    def test_edits_that_are_refused(self) -> None:
        state = self.ask("state")
        run, version = state["run"], state["version"]
        for start, stop, lines in ((0, 10, []), (3, 2, []), (-1, 0, []), (0, 9, []), (True, 1, []), (0, 1, [1]), (0, 1, "C"), (0, 1, ["a\nb"])):
            asked = {"run": run, "version": version, "start": start, "stop": stop, "lines": lines}
            self.assertEqual(self.ask("edit", asked)["status"], 400, (start, stop, lines))
        for window in (["x"], {}, 1, "", "a b", "x" * 65, "é"):
            for name in ("edit", "save-in-utf-8"):
                asked = {"run": run, "version": version, "window": window, "start": 0, "stop": 1, "lines": ["C"]}
                self.assertEqual(self.ask(name, asked)["status"], 400, (name, window))
        self.edit(0, 0, "% new")
        stale = self.ask("edit", {"run": run, "version": 0, "start": 0, "stop": 0, "lines": ["C"]})
        self.assertEqual((stale["status"], [change["edit"]["lines"] for change in stale["changes"]]), (409, [["% new"]]))
        other = self.ask("edit", {"run": "other", "version": 1, "start": 0, "stop": 0, "lines": ["C"]})
        self.assertEqual((other["status"], other["run"]), (409, run))
        for data in (b"", b"[]", b"{", b"\xff", b"[" * 100_000, b'{"run": 1}'):
            self.assertIn(self.request("edit", data)[0], (400, 409), data[:9])
        self.assertEqual(self.book()["lines"], ["% new", *BOOK.decode().split("\n")])

    def test_a_half_that_is_no_line_feed(self) -> None:
        """It would make a command of what comes after it."""
        self.edit(3, 4, "a\udc0aquit")
        self.assertEqual(self.book()["lines"][3], "a?quit")
        self.assertEqual(self.edit(3, 4, "G")["written"], [1])
        self.finish()

    def test_midi_files(self) -> None:
        files = trial.fresh(BOOK).files
        for number in (1, 2):
            status, headers, data = self.request(f"midi/{number}")
            self.assertEqual((status, headers["Content-Type"], data), (200, "audio/midi", files[f"{number}.mid"]))
            self.assertEqual(headers["Content-Disposition"], "attachment")
        for name in ("midi/3", "midi/0000000001", "midi/-1", "midi/", "midi/1/", "midi/../shell/application.js", "../shared_book.py", "%2e%2e/watch", "index.html"):
            self.assertEqual(self.request(name)[0], 404, name)
        self.assertEqual(self.request("midi/000000001")[2], files["1.mid"])

    def test_all_midi_files(self) -> None:
        """They are in a .zip, and have names for people. A tune without a file has none there."""
        self.edit(9, 9, "X:2", "T:No file", "K:C", "C", "", "X:12", "T:A/B: *Frère*", "K:D", "D")
        status, headers, data = self.request("midi.zip")
        self.assertEqual((status, headers["Content-Type"]), (200, "application/zip"))
        files = trial.fresh("\n".join(self.book()["lines"]).encode()).files
        with zipfile.ZipFile(io.BytesIO(data)) as archive:
            self.assertEqual(archive.namelist(), ["1 Kesh.mid", "2.mid", "12 A B Frère.mid"])
            self.assertEqual([archive.read(name) for name in archive.namelist()], [files[f"{number}.mid"] for number in (1, 2, 12)])

    def test_windows(self) -> None:
        with self.window() as news:
            self.assertEqual(next(news)["state"]["windows"], 1)
            made = self.edit(0, 1, "X:7")
            told = [next(news), next(news)]
            self.assertEqual([one["change"] for one in told if "change" in one], [made])
            self.assertEqual([one["state"]["unsaved"] for one in told if "state" in one], [True])
            self.save()
            self.assertEqual(next(news)["state"]["unsaved"], False)
            self.finish()

    def test_a_window_that_left(self) -> None:
        """It is not counted any more when the next one comes."""
        with self.window() as news:
            self.assertEqual(next(news)["state"]["windows"], 1)
        with self.window() as news:
            while next(news)["state"]["windows"] != 1:
                pass
            self.finish()

    def test_a_terminal_shows_what_to_do_with_the_address(self) -> None:
        self.finish()
        terminal, other = os.openpty()
        words = [sys.executable, str(trial.clients / "page"), str(self.path), "--port", "0", "--no-hints", "--library", trial.library]
        with os.fdopen(terminal, "rb") as shown, os.fdopen(other, "wb") as stream:
            self.server = subprocess.Popen(words, stdout=stream, stderr=subprocess.PIPE)
            self.limit(self.server)
            self.assertRegex(shown.readline(), rb"^http://127\.0\.0\.1:\d+/[\w-]{32}/\r\n$")
            assert self.server.stderr
            self.assertEqual(self.server.stderr.readline(), b"page: open this address in a browser of this machine; Ctrl-C ends the page\n")
            self.server.terminate()
            self.assertEqual((self.server.communicate(timeout=trial.SECONDS)[1], self.server.returncode), (b"", 0))

    def test_the_terminal_is_closed(self) -> None:
        self.finish()
        trial.hear_of_the_terminal(self)
        self.start(str(self.path))
        self.finish(signal.SIGHUP)

    def test_the_end_with_text_that_is_not_saved(self) -> None:
        """The server prints where the text is, but not if nobody can read that."""
        self.edit(0, 0, "%")
        self.assertTrue(self.ask("state")["unsaved"])
        self.finish(signal.SIGINT)
        self.start(str(self.path))
        self.edit(0, 0, "%")
        self.save()
        self.finish(signal.SIGINT)
        self.start(str(self.path))
        self.edit(0, 0, "%")
        assert self.server.stderr
        self.server.stderr.close()
        self.server.terminate()
        self.assertEqual((self.server.wait(trial.SECONDS), os.listdir(self.files)), (0, []))

    def test_hints(self) -> None:
        """They are found when nobody edits for a moment, and move with edits; `--no-hints` turns them off."""
        self.edit(0, 0, "%")
        self.assertEqual((self.book()["hintRows"], self.ask("hints")["rows"]), ([], []))
        self.finish()
        self.path.write_bytes(b"X:1\nK:C\n\"\xc3\xa9\"C&C\n\nX:1\nK:C\n")
        self.start(str(self.path), hints=True)
        self.told(lambda state: state["hints"])
        hints = self.ask("hints")
        self.assertEqual([row[:4] for row in hints["rows"]], [[2, 4, 5, "Overlay"], [4, 0, 3, "SameNumber"]])
        self.assertEqual(hints["rows"][1][4], "Number 1 is used at line 1, so this tune has no file; write another number.")
        self.assertEqual((hints["version"], self.book()["hintRows"]), (0, hints["rows"]))
        self.edit(0, 3)
        book = self.book()
        if book["hints"] == 1:  # no others are found yet
            self.assertEqual([row[0] for row in book["hintRows"]], [1])
        self.told(lambda state: state["hints"] == 2)
        self.assertEqual(self.ask("hints"), {"version": 1, "hints": 2, "rows": []})
        self.edit(3, 3, "C&D")
        self.told(lambda state: state["hints"] == 3)
        self.assertEqual(self.book()["hintRows"], self.ask("hints")["rows"])
        self.finish()

    def test_more_windows_than_a_browser_has_connections(self) -> None:
        with self.window("1"), self.window("2"), self.window("3"), self.window("4") as news:
            while next(news)["state"]["windows"] < 4:
                pass
            full = self.ask("events/0/5")
            self.assertEqual((full["status"], full["full"]), (503, True))
            self.assertEqual(self.ask("news/0/5")["state"]["windows"], 5)
            made = self.edit(0, 1, "X:7")
            told = self.ask("news/0/5")
            self.assertEqual((told["changes"], told["room"], told["state"]["windows"]), ([made], False, 5))
            self.assertEqual(self.ask("news/1/5")["changes"], [])
        self.told(lambda _: self.ask("news/1/5")["room"])
        with self.window("5") as news:
            self.assertLess(next(news)["state"]["windows"], 5)
            self.finish()

    def test_random_edits(self) -> None:
        """What a window makes of the answers is what a fresh run gives."""
        chance = random.Random(trial.seed)
        book = self.book()
        lines, faults, tunes = book["lines"], book["faults"], book["tunes"]
        for number in range(trial.changes):
            start = chance.randrange(len(lines) + 1)
            stop = min(len(lines), start + chance.choice([0, 1, 1, 2, 5]))
            put = [trial.random_line(chance) for _ in range(chance.choice([0, 1, 1, 3]))] + chance.choice([[], [f"X:{number % 9}"]])
            if not put and stop - start == len(lines):
                continue
            change = self.edit(start, stop, *put)
            lines[start:stop] = put
            faults, tunes = (followed(rows, change[name], start, stop, len(put)) for rows, name in ((faults, "faults"), (tunes, "tunes")))
        book = self.book()
        self.assertEqual((book["lines"], book["faults"], book["tunes"]), (lines, faults, tunes))
        fresh = trial.fresh("\n".join(lines).encode())
        self.assertEqual([(line + 1, name) for line, _, _, name in faults], [(line, name) for line, _, name in fresh.faults])
        self.assertEqual({f"{number}.mid" for _, number, _, has_file in tunes if has_file}, set(fresh.files))
        for name, data in fresh.files.items():
            self.assertEqual(self.request(f"midi/{name[:-4]}")[2], data)


class Files(Page):
    """The book on disk: saving it, and what other programs do to it."""

    def test_saves(self) -> None:
        self.path.chmod(0o640)
        link = self.folder / "link"
        link.symlink_to(self.path)
        self.edit(4, 5, "% é 𝄞")
        state = self.save()
        self.assertEqual((self.path.read_bytes(), state["unsaved"]), (BOOK.replace(b"\n\n", "\n% é 𝄞\n".encode()), False))
        self.assertEqual((self.path.stat().st_mode & 0o777, sorted(os.listdir(self.folder))), (0o640, ["book.abc", "files", "link", "state"]))
        self.edit(0, 0, "%")
        self.path.write_bytes(b"another's")
        asked = self.save()
        self.assertEqual((asked["status"], asked["ask"]), (409, saving.digest(b"another's")))
        self.path.write_bytes(b"once more")
        asked = self.save(over=asked["ask"])
        self.assertEqual((asked["status"], self.path.read_bytes()), (409, b"once more"))
        self.assertEqual(self.save(over=asked["ask"])["unsaved"], False)
        self.path.unlink()
        self.assertEqual((self.save()["ask"], self.path.exists()), (None, False))
        self.save(over=None)
        self.assertEqual(self.path.read_bytes()[:6], b"%\nX:1\n")
        os.rename(self.folder / "book.abc", self.folder / "away")
        self.path.mkdir()
        self.assertEqual((self.save(over=None)["status"], os.listdir(self.path)), (500, []))

    def test_saves_that_are_refused(self) -> None:
        """A file that is read-only, or that has another name, stays as it is."""
        self.edit(0, 0, "%")
        self.path.chmod(0o444)
        self.assertEqual(self.save(), {"error": "the file is read-only", "status": 500})
        self.path.chmod(0o644)
        os.link(self.path, self.folder / "other name")
        self.assertIn("2 names (hard links)", self.save()["error"])
        self.assertEqual((self.path.read_bytes(), self.path.stat().st_nlink), (BOOK, 2))
        (self.folder / "other name").unlink()
        self.assertFalse(self.save()["unsaved"])
        self.finish()

    def test_a_long_name(self) -> None:
        self.finish()
        path = self.folder / ("n" * 245 + ".abc")
        path.write_bytes(BOOK)
        self.start(str(path))
        self.edit(0, 0, "%")
        self.save()
        self.assertEqual(path.read_bytes(), b"%\n" + BOOK)
        self.finish()

    def test_a_book_that_is_not_there_and_none_at_all(self) -> None:
        self.finish()
        path = self.folder / "new.abc"
        self.start(str(path))
        state = self.book()
        self.assertEqual((state["lines"], state["saved"], state["unsaved"]), ([""], None, False))
        self.edit(0, 1, "X:1", "K:C", "C", "")
        self.assertFalse(self.save()["unsaved"])
        self.assertEqual(path.read_bytes(), b"X:1\nK:C\nC\n")
        self.finish(new=path)
        self.start()
        self.assertEqual((self.book()["name"], self.edit(0, 1, "X:1")["written"], self.save()["status"]), ("", [1], 400))
        self.finish()

    def test_bytes_that_nobody_edits_stay(self) -> None:
        for book in (b"\xef\xbb\xbfX:1\r\nT:\xe9\r\nK:C\r\nC\r\n", b"X:1\nT:\xe9\nK:C\r\nC\x00\x1b\rD", b"X:1\rK:C\rC", b"X:1\r\nK:C\nC\r\nD", b"\n", b"", b"\r\n"):
            self.finish()
            self.path.write_bytes(book)
            self.start(str(self.path))
            lines = self.book()["lines"]
            for line in lines:
                self.assertIsNone(re.search("[\r\x00]", line))
            self.edit(0, 0, "%")
            self.edit(0, 1)
            self.edit(0, len(lines), *lines)
            self.save()
            self.assertEqual(self.path.read_bytes().replace(b"\r", b""), book.replace(b"\r", b""))
            if b"K:C\nC\r" not in book:
                self.assertEqual(self.path.read_bytes(), book)

    def test_a_book_in_latin1(self) -> None:
        """Its letters are letters in the text, the titles and the hints' places; a save in UTF-8 changes their bytes alone."""
        self.finish()
        book = b"X:1\nT:Fr\xe8re\nK:C\nC \xe9\xe8 -\n"
        self.path.write_bytes(book)
        self.start(str(self.path))
        whole = self.book()
        self.assertEqual((whole["lines"], whole["tunes"], whole["letters"]), (["X:1", "T:Frère", "K:C", "C éè -", ""], [[0, 1, "Frère", True]], "windows-1252"))
        faults: list[list[Any]] = [[3, 2, 3, "BadByte"], [3, 3, 4, "BadByte"], [3, 5, 6, "LooseTie"]]
        self.assertEqual(whole["faults"], faults)
        self.edit(0, 0, "% été")
        self.save()
        self.assertEqual(self.path.read_bytes(), b"% \xe9t\xe9\n" + book)
        self.assertEqual(self.request("text")[2], self.path.read_bytes())
        state = self.ask("state")
        saved = self.ask("save-in-utf-8", {"run": state["run"], "version": state["version"], "window": "other"})
        self.assertEqual((saved["letters"], saved["unsaved"]), ("utf-8", False))
        changes = self.ask(f"changes/{state['version']}")["changes"]
        edits = [(change["window"], change["edit"]) for change in changes]
        self.assertIn(("other", {"start": 0, "stop": 1, "lines": ["% été"]}), edits)
        self.assertEqual(self.path.read_bytes(), "% été\nX:1\nT:Frère\nK:C\nC éè -\n".encode())
        self.assertEqual((self.book()["lines"], self.book()["faults"]), (["% été", *whole["lines"]], [[line + 1, *row] for line, *row in faults]))
        self.finish()

    def test_ends_of_lines(self) -> None:
        self.finish()
        self.path.write_bytes(b"X:1\r\nK:C\r\nC")
        self.start(str(self.path))
        self.edit(3, 3, "D", "")
        self.edit(0, 0, "% words")
        self.save()
        self.assertEqual(self.path.read_bytes(), b"% words\r\nX:1\r\nK:C\r\nC\r\nD\r\n")
        self.edit(4, 6)
        self.save()
        self.assertEqual(self.path.read_bytes(), b"% words\r\nX:1\r\nK:C\r\nC")

    def test_lines_of_mixed_ends(self) -> None:
        """The line before the last one changes only if it was the last one, or becomes it."""
        self.finish()
        self.path.write_bytes(b"X:1\r\nK:C\nC")
        self.start(str(self.path))
        trials: list[tuple[tuple[Any, ...], bytes]] = [
            ((2, 3, "CD"), b"X:1\r\nK:C\nCD"),
            ((2, 3, "CD", "E"), b"X:1\r\nK:C\nCD\r\nE"),
            ((4, 4, "F"), b"X:1\r\nK:C\nCD\r\nE\r\nF"),
            ((2, 5), b"X:1\r\nK:C"),
            ((1, 2), b"X:1"),
        ]
        for edit, book in trials:
            self.edit(*edit)
            self.save()
            self.assertEqual(self.path.read_bytes(), book)
            self.assertEqual(self.book()["lines"], book.decode().replace("\r", "").split("\n"))
        self.finish()

    def test_another_program_writes_the_book(self) -> None:
        """Its changes become edits, the last ones first, as few lines as changed."""
        with self.window() as news:
            next(news)
            changed = BOOK.replace(b"Kesh", b"The Kesh").replace(b"CDE -", b"CDE\nF")
            self.path.write_bytes(changed)
            edits = [next(news) for _ in range(3)]
            made = [new["change"] for new in edits if "change" in new]
            self.assertEqual([tuple(one["edit"].values()) for one in made], [(7, 8, ["CDE", "F"]), (1, 2, ["T:The Kesh"])])
            self.assertEqual([one["window"] for one in made], [None, None])
            book = self.book()
            self.assertEqual(("\n".join(book["lines"]).encode(), book["version"], book["unsaved"]), (changed, 2, False))
            self.assertEqual(book["disk"], saving.digest(changed))
            self.assertEqual((book["faults"], book["tunes"][0][2]), ([[3, 5, 6, "BadByte"]], "The Kesh"))
            rows = BOOK_FAULTS
            for one in made:
                start, stop, lines = one["edit"].values()
                rows = followed(rows, one["faults"], start, stop, len(lines))
            self.assertEqual(rows, book["faults"])
            self.save()
            self.assertEqual(self.path.read_bytes(), changed)
            self.finish()

    def test_ends_of_lines_that_another_program_changes(self) -> None:
        for written in (b"\xef\xbb\xbfX:1\r\nK:C\r\nC\r\n", b"X:1\nK:C\nC\n", b"X:2\r\nK:C\r\n", b"X:3\nK:C"):
            self.path.write_bytes(written)
            lines = written.replace(b"\xef\xbb\xbf", b"").replace(b"\r", b"").decode().split("\n")
            saved = saving.digest(written)
            state = self.told(lambda state: state["saved"] == saved)
            self.assertEqual((state["mark"], state["returns"]), (written.startswith(b"\xef"), b"\r" in written))
            self.assertEqual(self.book()["lines"], lines)
            self.edit(1, 2, "K:D")
            self.save()
            self.assertEqual(self.path.read_bytes(), written.replace(b"K:C", b"K:D"))
        self.assertEqual([row[1] for row in self.book()["tunes"]], [3])
        self.finish()

    def test_another_program_writes_the_book_while_text_is_unsaved(self) -> None:
        """Nothing changes till the user says which one to take."""
        self.edit(0, 0, "% mine")
        self.path.write_bytes(b"X:9\nK:C\nC\n")
        state = self.told(lambda state: state["disk"] != state["saved"])
        self.assertEqual((state["version"], state["unsaved"], state["disk"]), (1, True, saving.digest(b"X:9\nK:C\nC\n")))
        self.assertEqual(self.save()["ask"], state["disk"])
        asked = {"run": state["run"], "version": 1, "over": "another"}
        self.assertEqual((self.ask("load", asked)["status"], self.book()["lines"][0]), (409, "% mine"))
        loaded = self.ask("load", {**asked, "over": state["disk"]})
        self.assertEqual((loaded["unsaved"], loaded["disk"], self.book()["lines"]), (False, loaded["saved"], ["X:9", "K:C", "C", ""]))
        self.assertEqual((loaded["changes"][-1]["version"], {change["window"] for change in loaded["changes"]}), (loaded["version"], {None}))
        again = self.ask("load", {**asked, "version": loaded["version"], "over": loaded["disk"]})
        self.assertEqual((again["changes"], again["version"]), ([], loaded["version"]))
        self.edit(0, 0, "% mine")
        self.path.write_bytes(b"another")
        self.told(lambda state: state["disk"] != state["saved"])
        self.edit(0, 1)
        self.told(lambda state: state["disk"] == state["saved"])
        self.assertEqual(self.book()["lines"], ["another"])
        self.finish()

    def test_a_book_that_is_gone(self) -> None:
        away = self.folder / "away"
        self.path.rename(away)
        state = self.told(lambda state: state["disk"] is None)
        self.assertEqual((state["unsaved"], self.book()["lines"]), (True, BOOK.decode().split("\n")))
        away.rename(self.path)
        self.assertFalse(self.told(lambda state: state["disk"] == state["saved"])["unsaved"])
        self.path.unlink()
        gone = self.save()
        self.assertEqual((gone["status"], gone["error"], gone["ask"]), (409, "the book is not on the disk any more", None))
        self.told(lambda state: state["disk"] is None)
        state = self.ask("state")
        gone = self.ask("load", {"run": state["run"], "version": state["version"], "over": saving.digest(BOOK)})
        self.assertEqual((gone["status"], gone["error"]), (409, "the book is not on the disk any more"))
        self.assertFalse(self.save(over=None)["unsaved"])
        self.assertEqual(self.path.read_bytes(), BOOK)
        self.finish()

    def test_a_book_in_a_folder_that_is_missing(self) -> None:
        missing = self.folder / "missing"
        words = [sys.executable, str(trial.clients / "page"), str(missing / "book.abc"), "--library", trial.library]
        ran = subprocess.run(words, capture_output=True, text=True, timeout=trial.SECONDS)
        said = f"page: {missing}: there is no such folder; make it first, or correct the name of the book\n"
        self.assertEqual((ran.returncode, ran.stdout, ran.stderr), (1, "", said))
        self.finish()

    def test_no_file_has_the_name_of_the_book(self) -> None:
        """The server goes on, says why, and saves nothing there."""
        Act = Callable[[Path], None]
        kinds: list[tuple[Act, Act]] = [(os.mkfifo, os.unlink), (os.mkdir, os.rmdir), (lambda path: os.symlink("elsewhere", path), os.unlink)]
        for make, remove in kinds:
            self.path.unlink()
            make(self.path)
            self.edit(0, 0, "%")
            self.assertEqual(self.save()["status"], 500)
            self.assertIn("not a regular file", self.save(over=None)["error"])
            self.assertFalse(stat.S_ISREG(os.lstat(self.path).st_mode))
            remove(self.path)
            self.save(over=None)
        os.unlink(self.path)
        os.mkfifo(self.path)
        self.assertTrue(self.told(lambda state: state["trouble"])["trouble"])
        self.finish()


class Strangers(Page):
    """Whoever may not ask, and whatever is no request."""

    def test_whoever_may_not(self) -> None:
        own = f"127.0.0.1:{self.port}"
        for path in ("/", "//", "/book", f"/{self.token[:-1]}/book", f"/{self.token}x/book", f"/{self.token.swapcase()}/book", f"book/{self.token}/"):
            self.assertEqual(self.request("", path=path)[0], 403, path)
        for host in ("evil.example", f"evil.example:{self.port}", "127.0.0.1", "", f"{own}.evil.example", f"127.0.0.2:{self.port}", f"localhost:{self.port}", f"[::1]:{self.port}"):
            self.assertEqual(self.request("book", headers={"Host": host})[0], 403, host)
        for origin in ("http://evil.example", "null", f"https://{own}", f"http://127.0.0.1:{self.port + 1}", f"http://{own}.evil.example"):
            self.assertEqual(self.request("edit", {}, {"Origin": origin})[0], 403, origin)
        self.assertEqual(self.request("edit", {}, {"Origin": f"http://localhost:{self.port}"})[0], 403)
        self.assertEqual(self.request("book", headers={"Host": own, "Origin": f"http://{own}"})[0], 200)
        self.assertIn(b" 403 ", self.raw(f"GET /{self.token}/book HTTP/1.0\r\n\r\n".encode()))
        twice = f"GET /{self.token}/book HTTP/1.1\r\nHost: {own}\r\nHost: evil\r\n\r\n"
        self.assertIn(b" 403 ", self.raw(twice.encode()))
        with socket.socket() as other:
            self.assertNotEqual(other.connect_ex(("127.0.0.2", self.port)), 0)

    def test_started_again(self) -> None:
        """A token is one start's, and the port is the book's. A key that others may read, or that is none, is not used."""
        self.finish()
        self.start(str(self.path), port=None)
        key, token, port = self.key(), self.token, self.port
        kept = self.kept_key()
        self.assertEqual((oct(kept.stat().st_mode & 0o777), kept.read_text()), ("0o600", key))
        self.finish()
        self.start(str(self.path), port=None)
        self.assertEqual((self.key(), self.port), (key, port))
        self.assertNotEqual(self.token, token)
        self.assertEqual(self.request("", path=f"/{token}/book")[0], 403)
        kept.chmod(0o644)
        self.finish()
        self.start(str(self.path))
        self.assertNotEqual(self.key(), key)
        kept.chmod(0o600)
        for other in (b"\xff" * 64, b"0" * 63, b""):
            kept.write_bytes(other)
            self.finish()
            self.start(str(self.path))
            self.assertRegex(self.key(), "^[0-9a-f]{64}$")
        self.finish()
        self.start(str(self.folder / "other.abc"))
        self.assertNotEqual(self.key(), key)
        self.finish(new=self.folder / "other.abc")

    def test_proofs(self) -> None:
        """A page that has the key gets the token of this start, and nobody else does."""
        run, nonce, asked = self.ask("state")["run"], "00" * 16, {}
        for name, key, port in (("own", self.key(), self.port), ("other", "11" * 32, self.port), ("relayed", self.key(), self.port + 1)):
            words = (f"{who} {port} {run} {nonce}".encode() for who in ("server", "page"))
            asked[name] = [hmac.new(bytes.fromhex(key), word, "sha256").hexdigest() for word in words]
        status, headers, data = self.request("", path=f"/proof/{nonce}")
        self.assertEqual((status, json.loads(data)), (200, {"run": run, "proof": asked["own"][0]}))
        self.assertEqual(headers["Connection"], "close")
        found = [self.request("", path=f"/proof/{nonce}/{page}") for page in (asked["own"][1], asked["own"][0], asked["other"][1], asked["relayed"][1])]
        self.assertEqual([status for status, _, _ in found], [200, 403, 403, 403])
        self.assertEqual(json.loads(found[0][2]), {"token": self.token})
        for path in ("/proof/", "/proof/00", f"/proof/{nonce}/", f"/proof/{nonce.replace('0', 'g')}", f"/proof/{nonce}/{asked['own'][1]}0"):
            self.assertEqual(self.request("", path=path)[0], 403, path)
        self.assertEqual(self.request("", path=f"/proof/{nonce}", headers={"Host": f"evil:{self.port}"})[0], 403)
        self.assertEqual(self.request("", {}, path=f"/proof/{nonce}")[0], 403)
        self.finish()

    def test_a_port_that_is_taken(self) -> None:
        """That is said, and another one is taken; one that was named is not replaced."""
        self.finish()
        self.start(str(self.path), port=None)
        port = self.port
        self.finish()
        with socket.create_server(("127.0.0.1", port)):
            self.start(str(self.path), port=None)
            self.assertNotEqual(self.port, port)
            self.server.send_signal(signal.SIGTERM)
            said = self.server.communicate(timeout=trial.SECONDS)[1].decode()
            before = ", perhaps by a page that you started before"
            self.assertEqual(said, f"page: port {port} of this book is taken{before}; this page is at port {self.port}\n")
            words = [sys.executable, str(trial.clients / "page"), "--library", trial.library, "--port", str(port)]
            again = subprocess.run(words, capture_output=True, timeout=trial.SECONDS)
            remedy = "; name another one by --port, or leave out --port"
            self.assertEqual(again.stderr.decode(), f"page: port {port}: Address already in use{before}{remedy}\n")
            self.assertEqual(again.returncode, 1)

    def test_no_port(self) -> None:
        for port in ("65536", "-1", "x"):
            words = [sys.executable, str(trial.clients / "page"), "--library", trial.library, f"--port={port}"]
            said = subprocess.run(words, capture_output=True, timeout=trial.SECONDS)
            self.assertEqual((said.returncode, said.stderr.endswith(b"write a number from 0 to 65535\n")), (2, True))
        self.finish()

    def test_no_library(self) -> None:
        missing = self.folder / "missing"
        words = [sys.executable, str(trial.clients / "page"), "--library", str(missing)]
        said = subprocess.run(words, capture_output=True, text=True, timeout=trial.SECONDS)
        self.assertEqual((said.returncode, said.stderr.startswith(f"page: {missing}: cannot open"), said.stderr.count("\n")), (127, True, 1))
        self.finish()

    def test_what_is_no_book(self) -> None:
        """A pipe is no book, and a folder is none that a desktop opens."""
        pipe = self.folder / "pipe"
        os.mkfifo(pipe)
        start = [sys.executable, str(trial.clients / "page"), "--library", trial.library]
        refused: list[tuple[list[Union[str, Path]], int, str]]
        refused = [([pipe], 1, f"{pipe}: it is not a regular file"), (["--open", self.folder], 2, "--open needs a book; this is a folder")]
        for words, status, why in refused:
            said = subprocess.run([*start, *words], capture_output=True, text=True, timeout=trial.SECONDS)
            self.assertEqual((said.returncode, said.stderr), (status, f"page: {why}\n"))
        self.finish()

    def test_the_home(self) -> None:
        """The key is in the user's home, and the tests have another one."""
        self.finish()
        self.assertNotEqual(Path.home(), Path(pwd.getpwuid(os.getuid()).pw_dir))
        words = [sys.executable, str(trial.clients / "page"), "--library", trial.library]
        server = subprocess.Popen(words, stdout=subprocess.PIPE)
        self.limit(server)
        assert server.stdout
        server.stdout.readline()
        kept = Path.home() / ".local/state/abc2midi_live/keys"
        self.assertEqual(oct(kept.stat().st_mode & 0o777), "0o700")
        self.assertTrue(os.listdir(kept))
        server.terminate()
        self.assertEqual(server.wait(trial.SECONDS), 0)

    def test_answers_to_no_requests(self) -> None:
        """They close the connection and have the safe headers, as all answers have."""
        host = f"Host: 127.0.0.1:{self.port}"
        for data in (b"\x00\xff\n", b"GET\r\n\r\n", f"PUT /{self.token}/book HTTP/1.1\r\n{host}\r\n\r\n".encode(), b"GET / HTTP/9\r\n\r\n",
                     b"GET /" + b"a" * 70_000 + b" HTTP/1.1\r\n\r\n", b"GET / HTTP/1.1\r\n" + b"A: b\r\n" * 200 + b"\r\n"):  # fmt: skip
            head, _, body = self.raw(data).partition(b"\r\n\r\n")
            self.assertRegex(head, rb"^HTTP/1.1 [45]\d\d ", data[:9])
            for header in (b"Content-Security-Policy: default-src 'none'", b"X-Content-Type-Options: nosniff", b"Cache-Control: no-store", b"Connection: close"):
                self.assertIn(header, head, data[:9])
            self.assertTrue(json.loads(body)["error"])
        status, headers, data = self.request("", path="/another/", headers={"Sec-Fetch-Dest": "document"})
        self.assertEqual((status, headers["Content-Type"]), (403, "text/plain; charset=utf-8"))
        self.assertIn(b"the one that the server printed", data)
        self.finish()

    def test_a_body_that_nobody_reads(self) -> None:
        """What is in it is taken for no request."""
        inner = f"GET /{self.token}/state HTTP/1.1\r\nHost: 127.0.0.1:{self.port}\r\n\r\n"
        for header in (f"Content-Length: {len(inner)}", "Transfer-Encoding: chunked"):
            head = f"GET /{self.token}/state HTTP/1.1\r\nHost: 127.0.0.1:{self.port}\r\n{header}\r\n\r\n"
            answer = self.raw((head + inner).encode())
            self.assertEqual((answer.count(b"HTTP/1.1 "), answer.count(b"Connection: close")), (1, 1))
        self.finish()

    def test_edits_of_one_connection(self) -> None:
        """It stays open after an edit, for the next one, unless the sender ends it or the edit is refused."""
        run = self.ask("state")["run"]

        def request(version: int, *headers: str) -> bytes:
            body = json.dumps({"run": run, "version": version, "start": 0, "stop": 1, "lines": [f"X:{version + 1}"]})
            lines = (f"POST /{self.token}/edit HTTP/1.1", f"Host: 127.0.0.1:{self.port}", f"Content-Length: {len(body)}", *headers, "", body)
            return "\r\n".join(lines).encode()

        answers = self.raw(request(0) + request(1) + request(2, "Connection: close") + request(3))
        self.assertEqual((answers.count(b"HTTP/1.1 200 "), answers.count(b"Connection: close")), (3, 1))
        answers = self.raw(request(0) + request(3))
        self.assertEqual((answers.count(b"HTTP/1.1 "), answers.count(b"HTTP/1.1 409 ")), (1, 1))
        self.assertEqual(self.book()["lines"][0], "X:3")
        self.finish()

    def test_a_name_with_controls(self) -> None:
        self.finish()
        self.start(str(self.folder / "a\x1b[31m\nb\u202e.abc"))
        self.assertEqual(self.book()["name"], "a?[31m?b?.abc")
        self.finish(new=self.folder / "a?[31m?b?.abc")
        words = [sys.executable, str(trial.clients / "page"), str(self.folder / "\x1b[31m" / "book"), "--library", str(self.folder / "\x1b[31m")]
        said = subprocess.run(words, capture_output=True, timeout=trial.SECONDS, env={**os.environ, "XDG_STATE_HOME": str(self.folder)}).stderr
        self.assertEqual((said.count(b"\x1b"), said.count(b"?[31m"), said.count(b"\n")), (0, 1, 1))

    def test_idle_connections(self) -> None:
        """They use up no descriptors, and the server goes on."""
        self.finish()
        self.start(str(self.path), descriptors=300)
        idle = []
        for _ in range(600):
            connection = socket.create_connection(("127.0.0.1", self.port), trial.SECONDS)
            self.addCleanup(connection.close)
            idle.append(connection)
        self.assertEqual(self.edit(0, 1, "X:3")["written"], [3])
        self.assertLess(len(os.listdir(f"/proc/{self.server.pid}/fd")), 250)
        slow = idle[-1]
        slow.sendall(b"GET / HTTP/1.1\r\n")
        self.assertEqual(slow.recv(100), b"")
        self.finish()

    def test_bodies(self) -> None:
        head = f"POST /{self.token}/edit HTTP/1.1\r\nHost: 127.0.0.1:{self.port}\r\n"
        for more, status in (
            ("Content-Length: 33554433\r\n\r\n", 413),
            ("Content-Length: 99999999999999999999\r\n\r\n", 411),
            ("Content-Length: -1\r\n\r\n", 411),
            ("\r\n", 411),
            ("Transfer-Encoding: chunked\r\n\r\n2\r\n{}\r\n0\r\n\r\n", 411),
            ("Content-Length: 9\r\n\r\n{}", 400),
        ):
            self.assertIn(f" {status} ".encode(), self.raw((head + more).encode()).partition(b"\r\n")[0], more)
        for cut in (head[:3], head[:40], head, head + "Content-Le"):
            self.raw(cut.encode())
        self.assertEqual(self.request("edit/", {})[0], 404)
        self.assertEqual(self.edit(0, 1, "X:3")["written"], [3])
        self.finish()


class Packets(unittest.TestCase):
    """What is sent together."""

    def test_an_answer_and_its_headers(self) -> None:
        """They are sent together. Else other threads run between the two, and a key waits for them."""
        ends = socket.socketpair(socket.AF_UNIX, socket.SOCK_SEQPACKET)
        server = mock.Mock(hosts={"here"}, token="token")
        server.files.cached.return_value = None
        server.files.by_name = {"shell/page.css": (b"body {}", "text/css")}
        ends[0].sendall(b"GET /token/shell/page.css HTTP/1.1\r\nHost: here\r\nConnection: close\r\n\r\n")
        with mock.patch.object(request_handler.Request, "disable_nagle_algorithm", False):  # these sockets have none
            request_handler.Request(ends[1], ("", 0), server)
        packet = ends[0].recv(65536)
        self.assertEqual((packet[:15], packet.partition(b"\r\n\r\n")[2]), (b"HTTP/1.1 200 OK", b"body {}"))
        for end in ends:
            end.close()


class Faults(trial.Folder):
    """Faults as windows see them."""

    def test_places(self) -> None:
        """A line is made ready to be shown once, for all its faults; a byte of a line in Latin-1 is a letter of its own."""
        path = self.folder / "book.abc"
        path.write_bytes(b"X:1\nK:C\n" + "é𝄞&\x1bC\n".encode() + b"&" * 1000 + b"\n[]2 C0 \"\n\xff\xbf&")
        book = shared_book.SharedBook(str(path), trial.library)
        self.addCleanup(book.close)
        with mock.patch.object(book_text.Text, "shown", autospec=True, side_effect=book_text.Text.shown) as shown:
            found = [row[:3] for row in finding_rows.shown_rows(book.text, book.rows.faults)]
        self.assertEqual(shown.call_count, 4)
        self.assertEqual(found[:4], [[2, 0, 1], [2, 1, 3], [2, 3, 4], [2, 4, 5]])
        self.assertEqual(found[4:1004], [[3, n, n + 1] for n in range(1000)])
        self.assertEqual(found[1004:], [[4, 0, 3], [4, 4, 6], [4, 7, 8], [5, 0, 1], [5, 1, 2], [5, 2, 3]])

    def test_a_mark_ends_with_the_token(self) -> None:
        """Faults and hints end with the token of the library that they are at, a field before its comment, and a note before that of
        the next one. Those about a line end with it."""
        lines = ["X:1", "M:9/0% or so", "K:C", "CE- [C-E]D [K:Q]C |^f''0C", "%%MIDI program 999 % none", "K:HP% pipes"]
        path = self.folder / "book.abc"
        path.write_text("\n".join(lines) + "\n")
        book = shared_book.SharedBook(str(path), trial.library)
        self.addCleanup(book.close)
        hints = hint_process.hint_rows(Finder(trial.library), hint_process.Question(book.text, *book.rows))
        marked = [(lines[line][start:end], name) for line, start, end, name, *_ in [*finding_rows.shown_rows(book.text, book.rows.faults), *hints]]
        faults = [("M:9/0", "BadMeter"), ("[K:Q]", "BadKey"), ("^f''0", "BadLength"), (lines[4], "BadProgram"), ("K:HP", "BadKey")]
        self.assertEqual(marked, [*faults, ("[C-E]", "TieToOtherKey"), ("K:HP", "BagpipeKey")])


def followed(rows: list[Any], change: Json, start: int, stop: int, count: int) -> list[Any]:
    """The rows of a window after a change."""
    moved = [row if row[0] < start else [row[0] + count - (stop - start), *row[1:]] for row in rows if not start <= row[0] < stop]
    moved[change["at"] : change["at"] + change["out"]] = change["put"]
    return moved
