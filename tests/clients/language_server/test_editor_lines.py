"""The lines of a text as an editor counts them: a carriage return alone ends one, too."""

import re
import unittest
from typing import cast

from abc2midi_live_clients.language_server.document import Document
from abc2midi_live_clients.language_server.editor_lines import EditorLines
from abc2midi_live_clients.language_server.text_changes import Position

TEXTS = ["a\rb\nc\rd\re\nf", "a\r\nb\rc\r\nd", "\r\r\na\r", "a\rb", "a\nb\rc\r", "a\n\rb\n\r", "", "a\r\rb\r\n\r\n"]


class Places(unittest.TestCase):
    """Each place leads to a character, and back."""

    def test_each_place(self) -> None:
        for text in TEXTS:
            lines = EditorLines(text)
            starts = [match.end() for match in re.finditer("\r\n|\n|\r", text)]
            for line, start in enumerate([0, *starts]):
                content = re.split("\r\n|\n|\r", text)[line]
                for unit in range(len(content) + 1):
                    at, character = lines.place(Position(line, unit))
                    before = sum(len(one) + 1 for one in lines.texts[:at])
                    self.assertEqual(before + character, start + unit, (text, line, unit))
                    self.assertEqual(lines.position(at, character), (line, unit), (text, line, unit))

    def test_places_after_the_text(self) -> None:
        """They are its end."""
        for text in TEXTS:
            lines, count = EditorLines(text), len(re.split("\r\n|\n|\r", text))
            for more in range(4):
                self.assertEqual(lines.place(Position(count + more, 0)), (len(lines.texts) - 1, len(lines.texts[-1])), (text, more))

    def test_after_lines_were_replaced(self) -> None:
        """As if the text had been there from the start: before, in and after a line that has several of the editor."""
        for text in TEXTS:
            for start in range(text.count("\n") + 1):
                for put in ("x", "x\ry", "x\ny\rz"):
                    lines = EditorLines(text)
                    lines.replace(start, start + 1, put.split("\n"))
                    fresh = EditorLines("\n".join(lines.texts))
                    self.assertEqual((lines.texts, lines.parted), (fresh.texts, fresh.parted), (text, start, put))


class Blank(unittest.TestCase):
    """Where a tune ends."""

    def test_free_text_after_a_blank_line(self) -> None:
        """It is no part of the tune before it. Blanks and a carriage return make a line no less blank."""
        for blank in ("", " ", "\t \t", "\r", " \r"):
            book = cast(Document, type("Book", (), {"lines": ["X:1", "K:C", "C", blank, "free text", "", "X:2"]}))
            self.assertEqual(Document.blank_line(book, 1, 6), 3, repr(blank))
            self.assertEqual(Document.blank_line(book, 4, 5), 5)
