"""The server of one book."""

import argparse
import threading
import time

from ..common.faults import sentence_pairs
from .book_keys import book_key, proof
from .guarded_server import GuardedServer
from .midi_tune import MidiReader
from .request_handler import Request
from .score.pdf import PdfMaker
from .score.scorer import Scorer
from .served_files import ServedFiles
from .shared_book import SharedBook
from .sound_font import find_font

SECONDS_ALONE = 60  # without a window, after which a page that was opened on a desktop ends

interrupted = threading.Event()  # the client is to end


class Server(GuardedServer):
    """The server of one book."""

    def __init__(self, port: int, book: SharedBook, words: argparse.Namespace):
        self.scorer, self.pdfs, self.midi_files = Scorer(), PdfMaker(), MidiReader()  # first: a server whose port is taken is closed at once
        super().__init__(port, Request)
        self.book = book
        self.ends_alone: bool = words.open
        self.is_plain: bool = words.plain_sounds
        self.font = None if words.plain_sounds else find_font(words.sound_font)
        self.seen = time.monotonic()  # when there was a window last, or text that is not saved
        self.key = book_key(book.path)
        self.sentences = sentence_pairs()
        self.files = ServedFiles(self.key)

    def proof(self, who: str, nonce: str) -> str:
        """The proof that the server, or the page, has the book's key."""
        return proof(self.key, who, self.server_port, self.book.run, nonce)

    def server_close(self) -> None:
        """Ends the server, and what draws scores, makes PDFs and reads MIDI files for it."""
        super().server_close()
        self.scorer.close()
        self.pdfs.close()
        self.midi_files.close()

    def is_left(self) -> bool:
        """Returns whether a page that was opened on a desktop had no window for a while, with all of its text saved."""
        if not self.ends_alone or self.book.windows.count() or self.book.now()["unsaved"]:
            self.seen = time.monotonic()
        return time.monotonic() - self.seen > SECONDS_ALONE

    def service_actions(self) -> None:
        """Ends the server if the client is to end, and the connections of strangers that take too long."""
        if interrupted.is_set() or self.is_left():
            raise KeyboardInterrupt
        super().service_actions()
        self.book.remind()
