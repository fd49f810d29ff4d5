"""Serves a page in the browser over a tune book: type a line, see its faults, hear the tune."""

import argparse
import errno
import gc
import os
import sys
import threading
import time
import zlib
from contextlib import suppress
from pathlib import Path
from typing import Any

from abc2midi_live import LibraryMissing

from ..common.options import add_version_option
from ..common.signals import when_the_parent_ends, when_told_to_end
from ..common.terminal_text import printable
from .address_file import AddressFile
from .folder_server import FolderServer
from .hint_keeper import HintKeeper
from .refused import Refused
from .server import Server, interrupted
from .shared_book import SharedBook
from .sound_font import BadFont

SECONDS_BETWEEN_LOOKS = 0.5  # at the book on disk
PERHAPS = ", perhaps by a page that you started before"
FIRST_PORT, PORTS, TRIES, MOST_PORT = 20_000, 12_000, 20, 65_535


def port_number(text: str) -> int:
    """The number of a port. Raises ArgumentTypeError if there is none of that number."""
    if not text.isdecimal() or int(text) > MOST_PORT:
        raise argparse.ArgumentTypeError(f"write a number from 0 to {MOST_PORT}")
    return int(text)


def arguments() -> argparse.Namespace:
    """The arguments of the command line."""
    parser = argparse.ArgumentParser(
        description=__doc__,
        epilog="It prints an address. Open it in a browser of this machine. Ctrl-C ends the page.",
    )
    what = "the tune book, or a folder of tune books; a book that is missing is made by the first save; without BOOK the text is empty"
    parser.add_argument("book", metavar="BOOK", nargs="?", help=what)
    parser.add_argument("--port", metavar="N", type=port_number, help="the port; without it the port depends on the book's name")
    parser.add_argument("--no-hints", action="store_true", help="show no hints")
    opening = "open the page in the browser; it ends a minute after its last window, if everything in it is saved"
    parser.add_argument("--open", action="store_true", help=opening)
    sound = parser.add_mutually_exclusive_group()
    sound.add_argument("--sound-font", metavar="FILE", help="play with the instruments of this SoundFont instead of an installed one")
    sound.add_argument("--plain-sounds", action="store_true", help="play with plain sounds, also if a SoundFont is installed")
    parser.add_argument("--library", metavar="FILE", help="compile by this C library instead of the installed or built one")
    add_version_option(parser)
    return parser.parse_args()


def serving(words: argparse.Namespace, book: SharedBook) -> Server:
    """The server on its port. If none is named, the port depends on the book, so that the browser finds the text that it kept.
    If another program has that one, the next free one is taken, with a message."""
    if words.port is not None:
        try:
            return Server(words.port, book, words)
        except OSError as error:
            if error.errno not in (errno.EADDRINUSE, errno.EACCES):
                raise
            why = f"{error.strerror}{PERHAPS if error.errno == errno.EADDRINUSE else ''}"
            raise OSError(f"port {words.port}: {why}; name another one by --port, or leave out --port") from None
    first = FIRST_PORT + zlib.crc32(os.fsencode(book.path or "")) % PORTS
    for port in [*range(first, first + TRIES), 0]:
        try:
            server = Server(port, book, words)
        except OSError:
            continue
        if port != first:
            tell(f"port {first} of this book is taken{PERHAPS}; this page is at port {server.server_port}")
        return server
    raise OSError("there is no free port")


def serve(server: Server) -> None:
    """Serves till Ctrl-C. Then it prints where text is that is not saved."""
    try:
        server.serve_forever(poll_interval=0.1)
    finally:
        if server.book.now()["unsaved"]:
            with suppress(OSError):  # the terminal was closed
                tell(f"the text is not saved; the browser keeps it, and offers it when the page is at port {server.server_port} again")


def tell(sentence: str) -> None:
    """Prints a sentence on standard error."""
    print(f"page: {printable(sentence)}", file=sys.stderr, flush=True)


def open_page(server: Server, note: AddressFile) -> None:
    """Opens the page in the browser of the desktop. A command for a browser may wait until it ends, so the page does not wait for it."""
    note.write(f"http://127.0.0.1:{server.server_port}/{server.token}/")
    threading.Thread(target=open_window, args=(note,), daemon=True).start()


def open_window(note: AddressFile) -> int:
    """Opens a window of a page in the browser of the desktop, and returns the exit status."""
    if note.open():
        return 0
    tell("the browser of this desktop is missing or failed; open the address by hand")
    return 1


def refuse_missing_folder(book: str) -> None:
    """Raises FileNotFoundError if no save can make the book, because its folder is missing."""
    folder = os.path.dirname(os.path.realpath(book))
    if not os.path.lexists(folder):
        raise FileNotFoundError(errno.ENOENT, "there is no such folder; make it first, or correct the name of the book", folder)


def serve_folder(words: argparse.Namespace) -> int:
    """Serves the list of the books of a folder till Ctrl-C; the exit status."""
    if words.open:
        tell("--open needs a book; this is a folder")
        return 2
    font = ["--sound-font", os.path.abspath(words.sound_font)] if words.sound_font else []
    flags = [*(["--no-hints"] if words.no_hints else []), *(["--plain-sounds"] if words.plain_sounds else [])]
    library = ["--library", os.path.abspath(words.library)] if words.library else []
    with FolderServer(words.port or 0, Path(words.book), [*font, *flags, *library], interrupted) as server:
        print(f"http://127.0.0.1:{server.server_port}/{server.token}/", flush=True)
        if sys.stdout.isatty():
            tell("open this address in a browser of this machine; Ctrl-C ends all pages")
        server.serve_forever(poll_interval=0.1)
    return 0


def keep_looking(book: SharedBook) -> None:
    """Looks at the book on disk, again and again."""
    while True:
        book.look()
        time.sleep(SECONDS_BETWEEN_LOOKS)


def interrupt(*_: Any) -> None:
    """Ends the client as Ctrl-C does, but between two requests: what is raised while Python lets go of a value is lost."""
    interrupted.set()


def main() -> int:
    """Serves the page till Ctrl-C; the exit status."""
    words = arguments()
    when_told_to_end(interrupt)
    book = keeper = None
    note = AddressFile(words.book or "")
    try:
        if words.book and os.path.isdir(words.book):
            return serve_folder(words)
        if words.open and note.address():
            return open_window(note)
        if words.book:
            refuse_missing_folder(words.book)
        book = SharedBook(words.book, words.library)
        gc.freeze()  # an edit does not wait until all lines and tunes were looked at
        with serving(words, book) as server:
            if book.is_new():
                tell(f"{words.book}: there is no such file; the page begins with an empty text, and the first save makes the file")
            threading.Thread(target=keep_looking, args=(book,), daemon=True).start()
            keeper = None if words.no_hints else HintKeeper(book)
            if keeper:
                threading.Thread(target=keeper.keep, daemon=True).start()
            print(f"http://127.0.0.1:{server.server_port}/{server.token}/", flush=True)
            if words.open:
                open_page(server, note)
            elif sys.stdout.isatty():
                tell("open this address in a browser of this machine; Ctrl-C ends the page")
            serve(server)
        return 0
    except KeyboardInterrupt:
        return 0
    except (OSError, LibraryMissing, Refused, BadFont) as error:
        tell(f"{error.filename}: {error.strerror}" if isinstance(error, OSError) and error.filename else str(error))
        return 127 if isinstance(error, LibraryMissing) else 1
    finally:
        note.remove()
        if keeper:
            keeper.close()
        if book:
            book.close()


def main_of_a_folder() -> int:
    """Serves a book of a folder, until the server of the folder ends; the exit status."""
    when_the_parent_ends(interrupt)
    return main()
