"""Names of the books in the archive of MIDI files: each one is a folder, and no two are alike."""

from __future__ import annotations

import re
import unicodedata
from collections.abc import Iterable

UNSAFE = re.compile(r"[^\w .,'()+&@=-]")  # in a name that people type in a shell and a browser
MOST_CHARACTERS = 80  # of a name: each takes at most three bytes here, and a file system has room for 255
OWN = frozenset(
    f"{name}.{ending}" for name in ("catalogue", "books", "tunes", "remarks") for ending in ("sqlite", "csv", "jsonl")
)


def stored(text: str) -> str:
    """Returns a text that a file and a database can hold: a byte that is no character becomes `\\xNN`."""
    return text.encode("utf-8", "surrogateescape").decode("utf-8", "backslashreplace")


class Names:
    """Gives names to books: the wanted one, or that with a number if it is taken."""

    def __init__(self, taken: Iterable[str]):
        self.taken = {alike(name) for name in taken}
        self.last: dict[str, int] = {}  # the number that a name was given last

    def give(self, wanted: str) -> str:
        """Returns a name that was not taken, and takes it."""
        plain = plain_name(wanted)
        name, number = plain, self.last.get(alike(plain), 1)
        while alike(name) in OWN or alike(name) in self.taken:
            number += 1
            name = f"{plain}-{number}"
        self.last[alike(plain)] = number
        self.taken.add(alike(name))
        return name


def alike(name: str) -> str:
    """Returns what two names have in common that are one on some file systems: capitals and accents do not count there."""
    return unicodedata.normalize("NFC", unicodedata.normalize("NFC", name).casefold())


def plain_name(wanted: str) -> str:
    """Returns a name for a folder that is much like the wanted one."""
    plain = UNSAFE.sub("_", wanted.encode("utf-8", "replace").decode("utf-8"))
    plain = "".join(character if ord(character) < 0x10000 else "_" for character in plain)
    return plain.strip(" .")[:MOST_CHARACTERS].rstrip(" .") or "book"
