"""The page opened on a desktop: by a stand-in for the browser, which notes what it is given."""

from __future__ import annotations

import os
import re
import stat
import subprocess
import sys
import threading
import time
import unittest
import urllib.request
from http.server import BaseHTTPRequestHandler, HTTPServer
from pathlib import Path
from types import SimpleNamespace
from typing import cast
from unittest import mock
from urllib.parse import unquote, urlsplit

import trial
from abc2midi_live_clients.page.address_file import AddressFile
from abc2midi_live_clients.page.server import SECONDS_ALONE, Server

START = """import sys
from abc2midi_live_clients.page import address_file, command, server
address_file.SECONDS_TO_ANSWER = {seconds}
server.SECONDS_ALONE = {alone}
sys.exit(command.main())
"""


class Opening(trial.Folder):
    def setUp(self) -> None:
        super().setUp()
        self.book = self.folder / "a book & more.abc"
        self.book.write_bytes(b"X:1\nK:C\nC\n")
        self.session = self.folder / "session"
        self.session.mkdir(mode=0o755)
        browser = self.folder / "browser"
        browser.write_text(f'#!/bin/sh\nprintf "%s\\n" "$1" >>"{self.folder}/opened"\n')
        browser.chmod(0o755)
        self.environment = {
            **os.environ,
            "BROWSER": f"{browser} %s",
            "XDG_RUNTIME_DIR": str(self.session),
            "XDG_STATE_HOME": str(self.folder / "state"),
            "PYTHONPATH": str(trial.PACKAGES),
        }

    def start(self, alone: float = 60) -> subprocess.Popen[str]:
        """Starts the page as a desktop does."""
        words = [sys.executable, "-c", START.format(alone=alone, seconds=trial.SECONDS), str(self.book), "--open", "--no-hints"]
        words += ["--port", "0", "--library", trial.library]
        page = subprocess.Popen(words, env=self.environment, stdout=subprocess.PIPE, stderr=subprocess.PIPE, text=True)
        self.limit(page)
        return page

    def opened(self, count: int) -> list[str]:
        """What the browser was given so far, at least `count` times."""
        file = self.folder / "opened"
        for _ in range(trial.SECONDS * 10):
            lines = file.read_text().splitlines() if file.is_file() else []
            if len(lines) >= count:
                return lines
            time.sleep(0.1)
        self.fail("the browser was not started")

    def test_the_browser_gets_a_private_file_that_leads_to_the_page(self) -> None:
        page = self.start()
        assert page.stdout
        address = page.stdout.readline().strip()
        (given,) = self.opened(1)
        token = address.rstrip("/").rpartition("/")[2]
        self.assertNotIn(token, given)
        note = Path(unquote(urlsplit(given).path))
        self.assertEqual(stat.S_IMODE(note.stat().st_mode), 0o600)
        self.assertEqual(stat.S_IMODE(note.parent.stat().st_mode), 0o700)
        found = re.search(r'content="0; url=([^"]+)"', note.read_text())
        assert found
        self.assertEqual(found[1], address)
        self.assertIn("a book &amp; more.abc", note.read_text())
        with urllib.request.urlopen(found[1]) as answer:
            self.assertEqual(answer.status, 200)
        words = Path(f"/proc/{page.pid}/cmdline").read_bytes()
        self.assertNotIn(token.encode(), words)
        page.terminate()
        page.wait(trial.SECONDS)
        self.assertFalse(note.exists())

    def test_a_book_that_is_open_gets_another_window_of_its_page(self) -> None:
        page = self.start()
        first = self.opened(1)
        again = self.start()
        self.assertEqual(again.wait(trial.SECONDS), 0)
        self.assertEqual(self.opened(2), [*first, *first])
        self.assertIsNone(page.poll())
        page.kill()
        page.wait(trial.SECONDS)
        self.start()  # the note of a page that was killed leads nowhere
        self.opened(3)

    def test_a_name_that_is_no_utf_8(self) -> None:
        """The page opens, and shows the name as far as it can be shown."""
        self.book = Path(os.fsdecode(os.fsencode(self.folder) + b"/Fr\xe8re.abc"))
        self.book.write_bytes(b"X:1\nK:C\nC\n")
        page = self.start()
        (given,) = self.opened(1)
        self.assertIn(".abc</title>", Path(unquote(urlsplit(given).path)).read_text())
        self.assertIsNone(page.poll())

    def test_another_program_at_the_port(self) -> None:
        """It answers everything by 200, and gets no token: the book gets a page of its own."""
        asked: list[str] = []

        class Taker(BaseHTTPRequestHandler):
            def do_GET(self) -> None:
                asked.append(self.path)
                self.send_response(200)
                self.end_headers()
                self.wfile.write(b'{"run": "0", "proof": "0"}')

            def log_message(self, *_: object) -> None:
                pass

        with HTTPServer(("127.0.0.1", 0), Taker) as taker, mock.patch.dict(os.environ, {"XDG_RUNTIME_DIR": str(self.session)}):
            threading.Thread(target=taker.serve_forever, daemon=True).start()
            AddressFile(str(self.book)).write(f"http://127.0.0.1:{taker.server_port}/{'t' * 32}/")
            page = self.start()
            assert page.stdout
            self.assertRegex(page.stdout.readline(), "^http://127")
            taker.shutdown()
        self.assertEqual([path for path in asked if "t" * 32 in path], [])
        self.assertEqual(len(asked), 1)

    def test_it_ends_without_a_window(self) -> None:
        page = self.start(alone=1)
        self.assertEqual(page.wait(trial.SECONDS), 0, page.stderr and page.stderr.read())


class Alone(unittest.TestCase):
    """When a page that was opened on a desktop ends by itself."""

    def is_left(self, windows: int, is_unsaved: bool, ends_alone: bool = True) -> bool:
        """Whether it ends a long time after its start."""
        book = SimpleNamespace(windows=SimpleNamespace(count=lambda: windows), now=lambda: {"unsaved": is_unsaved})
        server = SimpleNamespace(ends_alone=ends_alone, book=book, seen=0.0)
        with mock.patch("time.monotonic", return_value=10.0 * SECONDS_ALONE):
            return Server.is_left(cast(Server, server))

    def test_it_waits_for_windows_and_for_a_save(self) -> None:
        found = [self.is_left(0, False), self.is_left(1, False), self.is_left(0, True), self.is_left(0, False, ends_alone=False)]
        self.assertEqual(found, [True, False, False, False])


class Notes(trial.Folder):
    """The files that lead to the pages of a book."""

    def test_a_later_start_has_the_note(self) -> None:
        """The end of an earlier one leaves it there."""
        with mock.patch.dict(os.environ, {"XDG_RUNTIME_DIR": str(self.files)}):
            first, second = AddressFile("book.abc"), AddressFile("book.abc")
        first.write("http://127.0.0.1:1/first/")
        second.write("http://127.0.0.1:1/second/")
        first.remove()
        self.assertIn("/second/", second.path.read_text())
        second.remove()
        self.assertFalse(second.path.exists())
