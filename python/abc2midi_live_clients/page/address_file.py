"""Opens the page in the browser of the desktop, for someone who has no terminal.

The address of a page has its token. So no command line has it: the browser is given the name of a file that only its owner may
read, and this file leads to the address."""

import hmac
import http.client
import json
import os
import re
import secrets
import webbrowser
from contextlib import suppress
from html import escape
from pathlib import Path
from typing import Optional

from ..common.replaced_file import replacing
from ..common.terminal_text import printable
from .book_keys import book_key, proof
from .saving import digest

ADDRESS = re.compile(r"http://127\.0\.0\.1:(\d{1,5})(/[\w-]{32}/)")
MOST_BYTES = 1 << 16  # of an answer that is looked at
SECONDS_TO_ANSWER = 2  # for a page that may be there
NOTE = """<!DOCTYPE html>
<meta charset="utf-8">
<meta name="referrer" content="no-referrer">
<meta http-equiv="refresh" content="0; url={address}">
<title>{name}</title>
<p><a href="{address}">The page of {name}</a></p>
"""


class AddressFile:
    """The file that leads to the page of a book, while the page is served."""

    def __init__(self, book: str):
        self.book = os.path.realpath(book) if book else None
        self.name = printable(os.path.basename(book))
        self.written = ""  # the address that this process noted
        self.path = notes_folder() / f"page-{digest(os.fsencode(os.path.realpath(book)))[:32]}.html"

    def write(self, address: str) -> None:
        """Notes the address of a page that is now served. Raises OSError."""
        self.path.parent.mkdir(mode=0o700, parents=True, exist_ok=True)
        with replacing(str(self.path), rights=0o600) as file:
            file.write(NOTE.format(address=address, name=escape(self.name)).encode())
        self.written = address

    def address(self) -> Optional[str]:
        """Returns the address of the page of this book that is served already, or None."""
        with suppress(OSError, http.client.HTTPException, UnicodeDecodeError):
            found = ADDRESS.search(self.path.read_text(encoding="utf-8"))
            if found and self.is_served(int(found[1]), found[2]):
                return found[0]
        return None

    def is_served(self, port: int, path: str) -> bool:
        """Returns whether the page of this book is there. Another program that has the port now gets no token: it has to prove first that
        it has the book's key."""
        nonce = secrets.token_hex(16)
        with suppress(ValueError, TypeError, KeyError):
            answer = json.loads(answer_of(port, f"/proof/{nonce}"))
            wanted = proof(book_key(self.book), "server", port, str(answer["run"]), nonce)
            return hmac.compare_digest(wanted.encode(), str(answer["proof"]).encode()) and bool(answer_of(port, path))
        return False

    def remove(self) -> None:
        """Removes the note, if it is still the one that this process wrote."""
        with suppress(OSError, UnicodeDecodeError):
            if self.written and self.written in self.path.read_text(encoding="utf-8"):
                self.path.unlink()

    def open(self) -> bool:
        """Opens the page in the browser of the desktop. Returns whether a browser took it."""
        return webbrowser.open(self.path.as_uri(), new=2)


def notes_folder() -> Path:
    """Returns the folder of the notes: that of the session if there is one, which ends with it, else one in the user's cache."""
    session = os.environ.get("XDG_RUNTIME_DIR")
    if session and os.path.isdir(session):
        return Path(session) / "abc2midi_live"
    return Path(os.environ.get("XDG_CACHE_HOME") or Path.home() / ".cache") / "abc2midi_live"


def answer_of(port: int, path: str) -> bytes:
    """Returns what is answered at a port; nothing if it is not found there."""
    connection = http.client.HTTPConnection("127.0.0.1", port, timeout=SECONDS_TO_ANSWER)
    try:
        connection.request("GET", path)
        answer = connection.getresponse()
        return answer.read(MOST_BYTES) if answer.status == 200 else b""
    finally:
        connection.close()
