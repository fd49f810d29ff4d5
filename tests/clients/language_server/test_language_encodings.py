"""The units in which editors count, and the colours of a text."""

from typing import Any

import trial  # noqa: F401
from abc2midi_live_clients.language_server.semantic_tokens import TYPES
from language_editor import URI, Editor, span

WIDE = "X:1\nK:C\n\"é𝄞\"C&\n"


class Encodings(Editor):
    """Positions in the units that the editor offers first of those that are known."""

    def start(self, *offered: str) -> str:
        """Begins anew with an editor that offers encodings, and returns the chosen one."""
        self.abilities = {"general": {"positionEncodings": list(offered)}} if offered else {}
        super().setUp()
        name: str = self.capabilities["positionEncoding"]
        return name

    def test_the_choice(self) -> None:
        self.assertEqual(self.start(), "utf-16")
        self.assertEqual(self.start("utf-8", "utf-16"), "utf-8")
        self.assertEqual(self.start("utf-7", "utf-32", "utf-8"), "utf-32")
        self.assertEqual(self.start("utf-7"), "utf-16")

    def test_diagnostics_and_changes(self) -> None:
        """The `&` follows a quote, a letter of two bytes, a sign of four bytes and two units, a quote and a note."""
        for name, place in ("utf-8", 9), ("utf-16", 6), ("utf-32", 5):
            self.start(name)
            (fault,) = [each for each in self.open(WIDE) if each["code"] == "BadByte"]
            self.assertEqual(fault["range"], span(2, place, 2, place + 1), name)
            change = {"range": span(2, place, 2, place + 1), "text": "é-"}
            book = {"uri": URI, "version": 2}
            self.notify("textDocument/didChange", {"textDocument": book, "contentChanges": [change]})
            self.assertEqual(self.server.workspace.documents[URI].lines[2], "\"é𝄞\"Cé-")

    def test_inside_a_character(self) -> None:
        """A place inside the bytes of a character is that before it."""
        self.start("utf-8")
        self.open(WIDE)
        change = {"range": span(2, 5, 2, 7), "text": "x"}
        self.notify("textDocument/didChange", {"textDocument": {"uri": URI, "version": 2}, "contentChanges": [change]})
        self.assertEqual(self.server.workspace.documents[URI].lines[2], "\"éx\"C&")


class Colours(Editor):
    """Semantic tokens."""

    def colours(self, text: str, data: list[int]) -> list[tuple[str, str]]:
        """Each token with its text and its type."""
        lines, found, line, start = text.split("\n"), [], 0, 0
        for down, right, length, kind, _ in zip(*[iter(data)] * 5):
            line, start = line + down, right if down else start + right
            found.append((lines[line][start : start + length], TYPES[kind]))
        return found

    def test_a_book(self) -> None:
        text = "% a\nX:1\nT:é\nK:G\n|:C2-[CE]3|!f!z (3abc %%\nwords [K:D]D>E|1\n"
        self.open(text)
        data = self.of_book("semanticTokens/full")["data"]
        notes = [("C2", "variable"), ("-", "operator"), ("[", "operator"), ("C", "variable"), ("E", "variable"), ("]3", "operator")]
        found = self.colours(text, data)
        self.assertEqual(found[:4], [("% a", "comment"), ("X:1", "class"), ("T:é", "string"), ("K:G", "type")])
        self.assertEqual(found[4:11], [("|:", "keyword"), *notes])
        rest: list[tuple[str, str]] = [("|", "keyword"), ("!f!", "decorator"), ("z", "enumMember"), ("(3", "number")]
        self.assertEqual(found[11:19], [*rest, ("a", "variable"), ("b", "variable"), ("c", "variable"), ("%%", "comment")])
        self.assertEqual(found[-5:], [("D", "variable"), (">", "operator"), ("E", "variable"), ("|", "keyword"), ("1", "number")])

    def test_a_range(self) -> None:
        text = "X:1\nK:G\nC\nD\n"
        self.open(text)
        self.assertEqual(self.of_book("semanticTokens/range", range=span(1, 1, 2, 1))["data"][:2], [1, 0])
        self.assertEqual(len(self.of_book("semanticTokens/range", range=span(1, 1, 2, 1))["data"]), 10)
        legend: Any = self.capabilities["semanticTokensProvider"]["legend"]
        self.assertEqual(legend["tokenTypes"], TYPES)
