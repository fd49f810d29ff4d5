"""Serves the list of the books of a folder. Each book that is opened has a server of its own, as if it were started alone."""

import subprocess
import sys
import threading
import time
import urllib.parse
from collections import deque
from contextlib import suppress
from html import escape
from pathlib import Path
from typing import Optional

import abc2midi_live
import abc2midi_live_clients

from .book_folder import Book, Found, books_in, search
from .guarded_server import GuardedServer
from .refused import Refused
from .request_handler import Request

MOST_OPEN = 20  # books at the same time
MOST_PRINTED, MOST_OF_A_LINE = 200, 2_000  # lines of a server, characters
SECONDS_TO_BEGIN, SECONDS_TO_END = 60, 5  # of the server of a book
KIND = "text/html; charset=utf-8"
POLICY = "default-src 'none'; style-src 'self'; img-src data:; form-action 'self'; base-uri 'none'; frame-ancestors 'none'"
STYLE = Path(__file__).resolve().parent / "folder.css"
PAGE = """<!doctype html>
<html lang="en">
  <head>
    <meta charset="utf-8">
    <meta name="viewport" content="width=device-width, initial-scale=1">
    <meta name="color-scheme" content="light dark">
    <title>{name}</title>
    <link rel="icon" href="data:,">
    <link rel="stylesheet" href="folder.css">
  </head>
  <body>
    <h1>{name}</h1>
    <form role="search" action="./" aria-label="Search in all books">
      <input name="q" type="search" value="{words}" aria-label="Search in all books" placeholder="Search in all books" autocomplete="off">
      <button>Search</button>
    </form>
    {content}
  </body>
</html>
"""


class PrintedLines:
    """The last lines that a process prints on standard error. They are read as they come: a full pipe would hold it up."""

    def __init__(self, process: "subprocess.Popen[str]"):
        assert process.stderr
        self.stream, process.stderr = process.stderr, None
        self.lines: deque[str] = deque(maxlen=MOST_PRINTED)
        self.reader = threading.Thread(target=self.read, daemon=True)
        self.reader.start()

    def read(self) -> None:
        """Reads till the process ends."""
        with self.stream:
            for line in iter(lambda: self.stream.readline(MOST_OF_A_LINE), ""):
                self.lines.append(line)

    def text(self) -> str:
        """The lines, after the end of the process."""
        self.reader.join(SECONDS_TO_END)
        return "".join(self.lines)


class OpenBooks:
    """The servers of books, by the names of the books."""

    def __init__(self, folder: Path, options: list[str]):
        self.folder, self.options = folder, options
        self.lock = threading.Lock()
        self.servers: dict[str, subprocess.Popen[str]] = {}
        self.printed: dict[str, PrintedLines] = {}
        self.addresses: dict[str, str] = {}

    def address(self, name: str) -> str:
        """The address of the page of a book, whose server is started if it does not run. Raises Refused."""
        with self.lock:
            server = self.servers.get(name)
            if server is None or server.poll() is not None:
                running = sum(each.poll() is None for each in self.servers.values())
                if running >= MOST_OPEN:
                    raise Refused(503, f"At most {MOST_OPEN} books are open at the same time. End this command, and start it again.")
                self.servers[name], self.addresses[name] = self.begun(name)
            return self.addresses[name]

    def begun(self, name: str) -> "tuple[subprocess.Popen[str], str]":
        """Starts the server of a book, which ends with this process, and returns it with its address."""
        folders = [str(Path(file).resolve().parent.parent) for file in (abc2midi_live.__file__, abc2midi_live_clients.__file__)]
        start = f"import sys; sys.path[:0] = {folders!r}; from abc2midi_live_clients.page.command import main_of_a_folder; sys.exit(main_of_a_folder())"
        words = [sys.executable, "-I", "-B", "-c", start, *self.options, "--", str(self.folder / name)]
        try:
            server = subprocess.Popen(words, stdin=subprocess.PIPE, stdout=subprocess.PIPE, stderr=subprocess.PIPE, text=True, errors="replace")
        except OSError as error:
            raise Refused(503, f"{name} cannot be opened: {error.strerror}.") from error
        printed = self.printed[name] = PrintedLines(server)
        limit = threading.Timer(SECONDS_TO_BEGIN, server.kill)
        limit.start()
        assert server.stdout
        address = server.stdout.readline().strip()
        limit.cancel()
        if not address:
            server.communicate()
            raise Refused(503, f"{name} cannot be opened: {(printed.text().strip().splitlines() or ['its server ended'])[-1]}")
        return server, address

    def close(self) -> None:
        """Ends the servers, and passes on what they print."""
        with self.lock:
            for server in self.servers.values():
                server.terminate()
            for name, server in self.servers.items():
                try:
                    server.communicate(timeout=SECONDS_TO_END)
                except subprocess.TimeoutExpired:
                    server.kill()
                    server.communicate()
                with suppress(OSError):
                    sys.stderr.write(self.printed[name].text())


class FolderRequest(Request):
    """One request after another to the server of a folder. A name is one of those that the folder has now, and no path."""

    server: "FolderServer"  # type: ignore[assignment]

    def needs_no_token(self) -> bool:
        """No request is answered without a token."""
        return False

    def get(self, name: Optional[str]) -> None:
        """Answers by the list, by what a search finds, by the style, or by the address of a book."""
        path, _, query = (name or "").partition("?")
        if name is None:
            self.send(b"", "text/plain", {"Location": f"/{self.server.token}/"}, 308)
        elif path == "":
            words = urllib.parse.parse_qs(query, max_num_fields=4).get("q", [""])[0]
            self.send(self.page(words).encode("utf-8", "replace"), KIND, {"Content-Security-Policy": POLICY})
        elif path == STYLE.name:
            self.send(STYLE.read_bytes(), "text/css; charset=utf-8")
        elif path.startswith("open/"):
            self.open(urllib.parse.unquote(path[len("open/") :], errors="surrogateescape"))
        else:
            raise Refused(404, "There is nothing of that name.")

    def post(self, name: Optional[str]) -> None:
        """Refuses what would change something."""
        raise Refused(404, "There is nothing of that name.")

    def open(self, name: str) -> None:
        """Leads to the page of a book."""
        if name not in {book.name for book in self.books()}:
            raise Refused(404, "There is no book of that name in this folder.")
        self.send(b"", "text/plain", {"Location": self.server.open_books.address(name)}, 303)

    def books(self) -> list[Book]:
        """The books of the folder. Raises Refused if it is not there."""
        try:
            return books_in(self.server.folder)
        except OSError as error:
            raise Refused(503, f"The folder cannot be read: {error.strerror}.") from error

    def page(self, words: str) -> str:
        """The page: the list, or what is found."""
        books = self.books()
        if words.strip():
            found, unread = search(self.server.folder, words)
            content = found_html(found, unread)
        else:
            content = list_html(books)
        return PAGE.format(name=escape(self.server.folder.name), words=escape(words), content=content)


class FolderServer(GuardedServer):
    """The server of a folder, which ends the servers of its books with it."""

    def __init__(self, port: int, folder: Path, options: list[str], interrupted: threading.Event):
        self.folder = folder.resolve()
        self.interrupted = interrupted
        self.open_books = OpenBooks(self.folder, options)  # first: a server whose port is taken is closed at once
        super().__init__(port, FolderRequest)

    def service_actions(self) -> None:
        """Ends the server if the client is to end."""
        super().service_actions()
        if self.interrupted.is_set():
            raise KeyboardInterrupt

    def server_close(self) -> None:
        """Ends the server, and those of the books."""
        super().server_close()
        self.open_books.close()


def link(name: str, words: str, line: Optional[int] = None) -> str:
    """A link that opens a book in a window of its own, at a line if one is named."""
    place = "" if line is None else f"#line={line}"
    return f'<a href="open/{urllib.parse.quote(name, safe="", errors="surrogateescape")}{place}" target="_blank" rel="noopener">{escape(words)}</a>'


def list_html(books: list[Book]) -> str:
    """The books as a table."""
    if not books:
        return "<p>This folder has no books: no files whose names end in .abc.</p>"
    rows = [
        f"<tr><td>{link(book.name, book.name)}</td><td>{size_of(book.size)}</td><td>{time.strftime('%Y-%m-%d %H:%M', time.localtime(book.written))}</td></tr>"
        for book in books
    ]
    head = "<tr><th>Book</th><th>Size</th><th>Changed</th></tr>"
    return f"<table><thead>{head}</thead><tbody>{''.join(rows)}</tbody></table>"


def found_html(found: list[Found], unread: list[str]) -> str:
    """What a search found, as a table, and which books it did not read."""
    rows = [
        f"<tr><td>{link(each.book, each.book, each.line)}</td><td>{escape(each.title)}</td><td>{each.line}</td><td><code>{link(each.book, each.text, each.line)}</code></td></tr>"
        for each in found
    ]
    head = "<tr><th>Book</th><th>Tune</th><th>Line</th><th>Text</th></tr>"
    table = f"<table><thead>{head}</thead><tbody>{''.join(rows)}</tbody></table>" if rows else "<p>Nothing found.</p>"
    note = f"<p>Not searched: {escape(', '.join(unread))}.</p>" if unread else ""
    return f'{table}{note}<p><a href="./">All books</a></p>'


def size_of(size: int) -> str:
    """A size in words."""
    return f"{size} bytes" if size < 1000 else f"{size / 1000:.0f} kB" if size < 1_000_000 else f"{size / 1_000_000:.1f} MB"
