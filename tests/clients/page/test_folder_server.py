"""A folder of tune books: what is listed and found, and who may open what."""

import http.client
import json
import os
import re
import signal
import socket
import subprocess
import sys
import tempfile
import time
import unittest
import urllib.parse
from contextlib import suppress
from email.message import Message
from pathlib import Path
from typing import Any
from unittest import mock

import heard_page
import served_page
import trial
from abc2midi_live_clients.page import book_folder
from abc2midi_live_clients.page.book_folder import books_in, content_of, search
from abc2midi_live_clients.page.folder_server import OpenBooks, PrintedLines
from abc2midi_live_clients.page.refused import Refused

REELS = b"X:1\nT:Kesh\nK:G\nGABc|\n\nX:2\nT:Other <b>\nK:C\nCDE|\n"
LATIN = "X:1\nT:Frère Jacques\nK:F\nFGAF|\n".encode("latin-1")


def fill(folder: Path) -> None:
    """Puts two books into a folder, and what is no book."""
    (folder / "reels.abc").write_bytes(REELS)
    (folder / "Latin & é.abc").write_bytes(LATIN)
    (folder / "notes.txt").write_bytes(b"kesh")
    (folder / ".hidden.abc").write_bytes(REELS)
    (folder / "folder.abc").mkdir()
    os.mkfifo(folder / "pipe.abc")
    (folder / "link.abc").symlink_to(folder.parent / "secret.abc")
    (folder.parent / "secret.abc").write_bytes(b"X:1\nT:Kesh secret\nK:C\n")


def kill(number: int) -> None:
    """Kills a process if it is there."""
    with suppress(ProcessLookupError):
        os.kill(number, signal.SIGKILL)


class Books(trial.Folder):
    """What is read of a folder."""

    def setUp(self) -> None:
        super().setUp()
        self.books = self.folder / "books"
        self.books.mkdir()
        fill(self.books)

    def test_a_list(self) -> None:
        """No links, folders, pipes and hidden files."""
        self.assertEqual([(book.name, book.size) for book in books_in(self.books)], [("Latin & é.abc", len(LATIN)), ("reels.abc", len(REELS))])
        with self.assertRaises(FileNotFoundError):
            books_in(self.books / "none")

    def test_a_search(self) -> None:
        """All words are in the line; capitals do not count; letters of Latin-1 are found."""
        self.assertEqual(search(self.books, "kESH"), ([("reels.abc", 2, "T:Kesh", "Kesh")], []))
        self.assertEqual(search(self.books, "frère JACQUES")[0], [("Latin & é.abc", 2, "T:Frère Jacques", "Frère Jacques")])
        self.assertEqual([(each.line, each.title) for each in search(self.books, "cde")[0]], [(9, "Other <b>")])
        self.assertEqual((search(self.books, "kesh other"), search(self.books, " ")), (([], []), ([], [])))

    def test_limits(self) -> None:
        """Books that are too large or vanish are named, and a search ends."""
        with mock.patch.object(book_folder, "MOST_BYTES", len(LATIN)):
            self.assertEqual(search(self.books, "T:"), ([("Latin & é.abc", 2, "T:Frère Jacques", "Frère Jacques")], ["reels.abc"]))
        with mock.patch.object(book_folder, "MOST_FOUND", 1):
            self.assertEqual(len(search(self.books, "T:")[0]), 1)
        listed = books_in(self.books)
        (self.books / "reels.abc").unlink()
        with mock.patch.object(book_folder, "books_in", return_value=listed):
            self.assertEqual(search(self.books, "kesh"), ([], ["reels.abc"]))

    def test_no_link_is_followed(self) -> None:
        """Also if a book becomes a link after it was listed, or a pipe."""
        for name in ("link.abc", "pipe.abc", "folder.abc"):
            with self.assertRaises(OSError):
                content_of(self.books / name)


class Printed(trial.Folder):
    """What the server of a book prints."""

    def test_more_than_a_pipe_has_room_for(self) -> None:
        """It is not held up, and its last lines are kept."""
        script = "import sys\nfor n in range(20_000): print('line', n, file=sys.stderr)\nsys.stderr.write('y' * 99_999)"
        server = subprocess.Popen([sys.executable, "-c", script], stdout=subprocess.PIPE, stderr=subprocess.PIPE, text=True)
        self.addCleanup(server.kill)
        printed = PrintedLines(server)
        self.assertEqual(server.wait(trial.SECONDS), 0)
        server.communicate()
        self.assertIn("line 19999\nyyy", printed.text())
        self.assertNotIn("line 19000\n", printed.text())

    def test_the_server_of_a_book(self) -> None:
        books = OpenBooks(self.folder, [])
        self.addCleanup(books.close)
        with mock.patch.object(sys, "executable", "/bin/sh"), self.assertRaisesRegex(Refused, "cannot be opened: .*option"):
            books.address("book.abc")
        self.assertTrue(books.printed["book.abc"].lines)


class Served(served_page.Page):
    """The server of a folder, as a process of its own."""

    def setUp(self) -> None:
        trial.Folder.setUp(self)
        self.books = self.folder / "books"
        self.books.mkdir()
        fill(self.books)
        self.write_starter()
        self.start(str(self.books))

    def opened(self, name: str) -> tuple[int, str]:
        """The status of the answer to a book's link, and where that leads."""
        status, headers, _ = self.request(f"open/{name}")
        return status, headers.get("Location", "")

    def book_at(self, address: str) -> dict[str, Any]:
        """The book of a page at an address."""
        found = re.fullmatch(r"http://127\.0\.0\.1:(\d+)(/[\w-]{32}/)", address)
        assert found, address
        connection = http.client.HTTPConnection("127.0.0.1", int(found[1]), timeout=trial.SECONDS)
        connection.request("GET", f"{found[2]}book")
        answer: dict[str, Any] = json.loads(connection.getresponse().read())
        connection.close()
        return answer

    def page(self, query: str = "") -> tuple[Message, str]:
        """The headers and the text of the page."""
        status, headers, data = self.request(query)
        self.assertEqual(status, 200)
        return headers, data.decode()

    def test_a_list_and_a_search(self) -> None:
        headers, text = self.page()
        self.assertEqual(re.findall('href="(open/[^"]*)"', text), ["open/Latin%20%26%20%C3%A9.abc", "open/reels.abc"])
        self.assertNotIn("script-src", headers["Content-Security-Policy"])
        self.assertIn("form-action 'self'", headers["Content-Security-Policy"])
        found = self.page("?q=other")[1]
        self.assertIn("<td>Other &lt;b&gt;</td><td>7</td>", found)
        self.assertIn('value="&quot;&gt;&lt;script&gt;"', self.page("?q=%22%3E%3Cscript%3E")[1])

    def test_books_open(self) -> None:
        """Each has a server of its own, which stays the same, and ends with that of the folder."""
        first, second = self.opened("reels.abc"), self.opened("Latin%20%26%20%C3%A9.abc")
        self.assertEqual((first[0], second[0], self.opened("reels.abc")), (303, 303, first))
        self.assertEqual((self.book_at(first[1])["name"], self.book_at(second[1])["name"]), ("reels.abc", "Latin & é.abc"))
        self.server.send_signal(signal.SIGTERM)
        words = self.server.communicate(timeout=trial.SECONDS)
        self.assertEqual((words, self.server.returncode, os.listdir(self.files)), ((b"", b""), 0, []))
        for _, address in (first, second):
            with self.assertRaises(OSError):
                self.book_at(address)

    def test_a_server_that_is_killed(self) -> None:
        """Those of its books end by themselves."""
        addresses = [self.opened(name)[1] for name in ("reels.abc", "Latin%20%26%20%C3%A9.abc")]
        children = Path(f"/proc/{self.server.pid}/task").glob("*/children")
        servers = [int(number) for file in children for number in file.read_text().split()]
        self.assertEqual(len(servers), 2)
        for number in servers:
            self.addCleanup(kill, number)
        self.server.kill()
        until = time.monotonic() + trial.SECONDS
        for address in addresses:
            while self.is_served(address):
                self.assertLess(time.monotonic(), until)
                time.sleep(0.05)

    def is_served(self, address: str) -> bool:
        """Returns whether the server of a book takes connections."""
        place = urllib.parse.urlsplit(address)
        try:
            socket.create_connection((place.hostname or "", place.port or 0), trial.SECONDS).close()
        except OSError:
            return False
        return True

    def test_what_does_not_open(self) -> None:
        """Names that the list does not have: paths, links, what vanished."""
        (self.books / "gone.abc").write_bytes(REELS)
        self.page()
        (self.books / "gone.abc").unlink()
        names = ["../secret.abc", "..%2Fsecret.abc", "link.abc", "pipe.abc", "folder.abc", ".hidden.abc", "notes.txt", "gone.abc", "", "%00", "%FF"]
        for name in [*names, str(self.books / "reels.abc"), str(self.books / "reels.abc").replace("/", "%2F")]:
            self.assertEqual(self.opened(name), (404, ""), name)

    def test_who_may_ask(self) -> None:
        """Those with the token alone, by this host's name."""
        for path in ("/", "/x/", f"/{self.token[:-1]}/open/reels.abc", "/proof/" + "0" * 32):
            self.assertEqual(self.request("", path=path)[0], 403, path)
        self.assertEqual(self.request("", headers={"Host": "example.org"})[0], 403)
        self.assertEqual(self.request("open/reels.abc", headers={"Origin": "http://example.org"})[0], 403)
        self.assertEqual(self.request("open/reels.abc", {})[0], 404)

    def test_a_folder_that_vanishes(self) -> None:
        self.books.rename(self.folder / "others")
        self.assertEqual(self.request("")[0], 503)

    def test_a_book_that_cannot_be_read(self) -> None:
        """The answer has the reason."""
        if os.geteuid() == 0:
            self.skipTest("root may read all files")
        (self.books / "closed.abc").touch(mode=0)
        status, _, data = self.request("open/closed.abc")
        self.assertEqual((status, b"Permission denied" in data), (503, True))


class Clicked(heard_page.HeardPage):
    """Someone who opens a book of a folder."""

    def start(self, *words: str, **more: object) -> None:
        books = Path(tempfile.mkdtemp(dir=self.folder))
        fill(books)
        super().start(str(books))

        self.addCleanup(self.end)

    def end(self) -> None:
        """Ends the server as someone would who stops the command, so that it ends those of the books."""
        self.server.terminate()
        self.server.wait(trial.SECONDS)

    def load(self) -> None:
        """The page is a list, and has no text."""
        self.driver.get(self.address)

    def test_a_search_and_a_click(self) -> None:
        self.driver.get(self.address)
        self.driver.find_element("name", "q").send_keys("other\n")
        self.wait(lambda: "T:Other" in self.driver.find_element("tag name", "body").text)
        self.driver.get(self.driver.find_element("link text", "T:Other <b>").get_attribute("href"))
        self.wait(lambda: self.run_script("return document.querySelectorAll('#list [role=option]').length") == 2)
        self.assertEqual(self.run_script("return document.getElementById('name').textContent"), "reels.abc")
        self.wait(lambda: self.text("place") == "Line 7, column 1")
        self.assertEqual(self.text("tune"), "2 Other <b>")

    def test_a_line_that_is_not_there(self) -> None:
        """The book opens at its last line."""
        self.driver.get(self.address)
        self.driver.get(self.driver.find_element("link text", "reels.abc").get_attribute("href") + "#line=99")
        self.wait(lambda: self.run_script("return document.getElementById('place')?.textContent") == "Line 10, column 1")

    def test_names_and_contrasts(self) -> None:
        for query in ("", "?q=K:"):
            self.driver.get(self.address + query)
            self.assert_named(("search", "Search in all books"), ("searchbox", "Search in all books"), ("button", "Search"), ("link", "reels.abc"))

    def test_columns(self) -> None:
        """On a phone no heading is broken, and nothing scrolls aside."""
        self.size(390, 844)
        self.driver.get(self.address + "?q=K:")
        self.assertEqual(self.run_script("return [...document.querySelectorAll('th')].filter((one) => one.clientHeight > 40).map((one) => one.textContent)"), [])
        self.assertEqual(self.run_script("return document.documentElement.scrollWidth"), 390)
