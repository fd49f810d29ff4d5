"""Copies of a book, in its folder, under names that a window gives."""

import os

from ..common.terminal_text import printable
from .saving import save_book

MOST_BYTES_OF_A_NAME = 255


class BadName(Exception):
    """No copy can have this name: a sentence says why."""


def copy_path(book: str, name: object) -> str:
    """The path of a copy of a book: in the book's folder, and not the book's own."""
    if not isinstance(name, str) or not name.strip():
        raise BadName("the copy needs a name")
    if "/" in name:
        raise BadName("a name has no slash: the copy goes into the folder of the book")
    if name.startswith("."):
        raise BadName("a name does not begin with a dot")
    if printable(name) != name:
        raise BadName("the name has characters that cannot be shown")
    if len(os.fsencode(name)) > MOST_BYTES_OF_A_NAME:
        raise BadName(f"a name has at most {MOST_BYTES_OF_A_NAME} bytes")
    path = os.path.join(os.path.dirname(book), name)
    if path == book or (os.path.exists(path) and os.path.exists(book) and os.path.samefile(path, book)):
        raise BadName("this is the book itself: save it")
    return path


def save_copy(path: str, data: bytes, asked: dict[str, object]) -> None:
    """Writes a copy. A file that is there already is replaced only if the window names its content."""
    over = asked.get("over")
    save_book(path, data, over if isinstance(over, str) else None)
