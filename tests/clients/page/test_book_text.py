"""The letters of the page's book: UTF-8, and Windows-1252 if a line is not UTF-8."""

import random
import unittest

import trial
from abc2midi_live_clients.page.book_text import Text


class Letters(unittest.TestCase):
    def test_windows_1252(self) -> None:
        """Its letters are shown as letters, quotes too; the bytes that it leaves out are controls. What is typed is Windows-1252 too, if
        that has it."""
        text = Text.of(b"X:1\r\nT:Fr\xe8re\r\nC:O\x92Carolan \x93x\x94 \x80\x9d\r\n")
        self.assertEqual([text.shown(line) for line in text.lines], ["X:1", "T:Frère", "C:O’Carolan “x” €\x9d", ""])
        self.assertEqual(text.letters.name(), "windows-1252")
        self.assertEqual(text.places(text.lines[2]).span(5, 6), [4, 5])
        for typed, written in (("T:é", b"T:\xe9\r"), ("T:é’", b"T:\xe9\x92\r"), ("T:Ω’", "T:Ω’\r".encode()), ("T:\x92", "T:\x92\r".encode()), ("T:Ã©", "T:Ã©\r".encode()), ("T:\udc01é", b"T:\x01\xe9\r")):
            now = text.edited(text.edit_of(1, 2, [typed]))
            self.assertEqual((now.lines[1], now.shown(now.lines[1])), (written, typed))

    def test_a_book_with_lines_of_both(self) -> None:
        """A new line is UTF-8, one instead of a Windows-1252 line Windows-1252, and one that was there keeps its bytes."""
        text = Text.of("T:é\n".encode() + b"T:\xe8\n")
        self.assertEqual(text.letters.name(), "both")
        self.assertEqual(text.edit_of(0, 0, ["à"]).lines, ["à".encode()])
        self.assertEqual(text.edit_of(0, 2, ["T:é", "T:ö"]).lines, ["T:é".encode(), b"T:\xf6"])
        whole = text.in_utf8()
        self.assertEqual((whole.data(), whole.letters.name()), ("T:é\nT:è\n".encode(), "utf-8"))

    def test_lines_that_stay_keep_their_bytes(self) -> None:
        """Of lines with the same letters each keeps its own bytes: those before the typed ones, after them, and between them."""
        latin1, utf8 = b"T:\xe9", "T:é".encode()
        text = Text.of(b"\n".join([latin1, utf8, latin1, b"C", utf8, b"\xe9"]))
        self.assertEqual(text.edit_of(0, 3, ["T:é", "T:é", "D"]).lines, [latin1, utf8, b"D"])
        self.assertEqual(text.edit_of(0, 3, ["D", "T:é", "T:é"]).lines, [b"D", utf8, latin1])
        self.assertEqual(text.edit_of(3, 6, ["D", "T:é", "E"]).lines, [b"D", utf8, b"E"])

    def test_the_name_follows_edits(self) -> None:
        text = Text.of(b"\xe9\n\xe8\n")
        for edit, name in (((0, 1, ["a"]), "windows-1252"), ((1, 2, ["€"]), "windows-1252"), ((1, 2, ["Ω"]), "utf-8"), ((0, 1, ["é"]), "utf-8")):
            text = text.edited(text.edit_of(*edit))
            self.assertEqual((text.letters.name(), text.letters), (name, Text.of(text.data()).letters))

    def test_places(self) -> None:
        """A letter of Windows-1252 is one byte, one of UTF-8 more."""
        text = Text.of(b"\xe9\xe8C-\n" + "éèC-".encode())
        self.assertEqual([text.places(text.lines[0]).span(4, 5), text.places(text.lines[1]).span(6, 7)], [[3, 4], [3, 4]])

    def test_a_fault_has_one_character_at_least(self) -> None:
        places = Text.of("é€C".encode()).places("é€C".encode())
        ends = [places.span(column, end) for column, end in ((1, 2), (1, 3), (1, 4), (3, 4), (3, 7), (6, 8))]
        self.assertEqual(ends, [[0, 1], [0, 1], [0, 2], [1, 2], [1, 3], [2, 3]])

    def test_edits_at_random(self) -> None:
        """Lines that nobody edits keep their bytes, and edited ones are shown as they were typed."""
        chance = random.Random(trial.seed)
        signs = [b"a", b"\xe9", "é".encode(), b"\xc3", b"\x80", "𝄞".encode(), b"\r", b"\x00"]
        for _ in range(300):
            text = Text.of(b"\n".join(b"".join(chance.choices(signs, k=chance.randrange(5))) for _ in range(6)))
            start = chance.randrange(6)
            stop = chance.randrange(start, 7)
            typed = ["".join(chance.choices(["b", "é", "ÿ", "𝄞", "\udc00"], k=3)) for _ in range(1 + chance.randrange(2))]
            now = text.edited(text.edit_of(start, stop, typed))
            shown = [text.shown(line) for line in text.lines]
            self.assertEqual([now.shown(line) for line in now.lines], shown[:start] + typed + shown[stop:])
            untouched = [(old, new) for old, new in zip(text.lines[: max(0, start - 1)], now.lines)]
            self.assertEqual([old for old, _ in untouched], [new for _, new in untouched])
            self.assertEqual(now.letters, Text.of(now.data()).letters)
            self.assertEqual(text.edited(text.edit_of(0, len(text.lines), shown)).data().replace(b"\r", b""), text.data().replace(b"\r", b""))
