"""The text of a tune book: bytes on disk, lines in windows."""

from collections.abc import Sequence
from contextlib import suppress
from typing import NamedTuple

from abc2midi_live.edits import Edit, common_front, edits, merge_edits

from abc2midi_live.lines import MARK

from ..common.line_places import LinePlaces, text_of, windows_1252

MOST_EDITS = 20  # that one writing of another program becomes
# Halves of pairs show these bytes, since no text has halves. line_places.py, readable_lines.py and the page's book_blob.js know them.
CONTROLS = {byte: 0xDC00 + byte for byte in range(32) if byte not in b"\t\n"}
CHARACTERS = {half: byte for byte, half in CONTROLS.items()} | {0xDC00 + byte: byte for byte in range(128, 256)}


class Letters(NamedTuple):
    """How many lines have letters beyond ASCII in Windows-1252, and how many in UTF-8."""

    windows: int = 0
    utf8: int = 0

    @classmethod
    def of(cls, lines: Sequence[bytes]) -> "Letters":
        """Those of some lines."""
        wide = [is_utf8(line) for line in lines if not line.isascii()]
        return cls(wide.count(False), wide.count(True))

    def name(self) -> str:
        """The name of the encoding that the lines have."""
        if not self.windows:
            return "utf-8"
        return "both" if self.utf8 else "windows-1252"


class Text(NamedTuple):
    """The text of a book as bytes: a mark at its start, its lines, and whether they end in carriage returns. The last line is
    empty if the text ends with a line feed. A line that is not UTF-8 is read as Windows-1252, which has all letters of Latin-1."""

    mark: bytes
    lines: list[bytes]
    returns: bool
    letters: Letters = Letters()

    @classmethod
    def of(cls, data: bytes) -> "Text":
        """The text of a book."""
        mark = MARK if data.startswith(MARK) else b""
        lines = data[len(mark) :].split(b"\n")
        return cls(mark, lines, len(lines) > 1 and lines[0].endswith(b"\r"), Letters.of(lines))

    def data(self) -> bytes:
        """The bytes of the book."""
        return self.mark + b"\n".join(self.lines)

    def shown(self, line: bytes) -> str:
        """A line as windows see it: each control is a half of a pair."""
        return text_of(self.content(line)).translate(CONTROLS)

    def shown_lines(self) -> list[str]:
        """All lines as windows see them: at once if the text is UTF-8."""
        data = b"\n".join(self.lines)
        if not is_utf8(data):
            return [self.shown(line) for line in self.lines]
        plain = self.content(data.replace(b"\r\n", b"\n")) if self.returns else data
        return plain.decode().translate(CONTROLS).split("\n")

    def content(self, line: bytes) -> bytes:
        """A line without the carriage return that all lines have."""
        return line.removesuffix(b"\r") if self.returns else line

    def places(self, line: bytes) -> LinePlaces:
        """The places of a line as windows see it."""
        return LinePlaces(self.shown(line), is_utf8(line))

    def edit_of(self, start: int, stop: int, lines: Sequence[str]) -> Edit:
        """The edit that makes some lines those that a window shows. One that was there keeps its bytes. New ones are Windows-1252
        if the book is, or if one of the replaced lines is."""
        old = self.lines[start:stop]
        shown = [self.shown(line) for line in old]
        known = dict(zip(shown, map(self.content, old)))
        is_windows = self.letters.name() == "windows-1252" or not all(map(is_utf8, old))
        put = [known[line] if line in known else bytes_of(line, is_windows) for line in lines]
        front, back = common_front(shown, lines), common_front(shown[::-1], lines[::-1])
        put[:front] = map(self.content, old[:front])
        put[len(put) - back :] = map(self.content, old[len(old) - back :])
        return with_ends(self, Edit(start, stop, put))

    def edited(self, edit: Edit) -> "Text":
        """The text after an edit."""
        gone, come = Letters.of(self.lines[edit.start : edit.stop]), Letters.of(edit.lines)
        letters = Letters(self.letters.windows - gone.windows + come.windows, self.letters.utf8 - gone.utf8 + come.utf8)
        lines = self.lines.copy()
        lines[edit.start : edit.stop] = edit.lines
        return self._replace(lines=lines, letters=letters)

    def in_utf8(self) -> "Text":
        """The same letters in UTF-8."""
        lines = [text_of(line).encode() for line in self.lines]
        return self._replace(lines=lines, letters=Letters.of(lines))


def is_utf8(line: bytes) -> bool:
    """Whether bytes are UTF-8."""
    with suppress(UnicodeDecodeError):
        line.decode()
        return True
    return False


def bytes_of(text: str, is_windows: bool = False) -> bytes:
    """The bytes of a line that a window shows: in UTF-8; or in Windows-1252 if they are to be, and are read as the same letters."""
    plain = text.translate(CHARACTERS)
    return is_windows and windows_1252(plain) or plain.encode("utf-8", "replace")


def edits_of(old: Text, new: Text) -> list[Edit]:
    """Few edits that make one text of another, as windows see their lines."""
    if old.returns != new.returns:
        return [Edit(0, len(old.lines), new.lines)]
    return merge_edits(edits(old.lines, new.lines), old.lines, MOST_EDITS)


def with_ends(text: Text, edit: Edit) -> Edit:
    """An edit with the carriage returns of the book: the last line has none. So the one before the edit changes if it was the
    last one, or becomes it."""
    start, stop, lines = edit
    if not text.returns:
        return edit
    at_end = stop == len(text.lines)
    if at_end and start > 0 and (not lines or start == len(text.lines)):
        start -= 1
        lines = [text.lines[start].removesuffix(b"\r"), *lines]
    lines = [line + b"\r" for line in lines[:-1]] + [line + (b"" if at_end else b"\r") for line in lines[-1:]]
    return Edit(start, stop, lines)
