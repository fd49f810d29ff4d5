"""The differences between two texts."""

import random
from unittest import mock

import setting
from abc2midi_live import edits as edits_module
from abc2midi_live.edits import Edit, edits, few_edits, merge_edits


def lines(text: str) -> list[bytes]:
    return [letter.encode() for letter in text]


class Edits(setting.Room):
    def check(self, old: list[bytes], new: list[bytes]) -> list[Edit]:
        """The edits of two texts, which must make the one of the other, and leave a line between any two."""
        found = edits(old, new)
        made = list(old)
        for edit in reversed(found):
            made[edit.start : edit.stop] = edit.lines
        self.assertEqual(made, new)
        self.assertTrue(all(a.stop < b.start for a, b in zip(found, found[1:])))
        self.assertTrue(all(edit.stop > edit.start or edit.lines for edit in found))
        return found

    def test_fewest_edits(self) -> None:
        self.assertEqual(self.check(lines("abc"), lines("abc")), [])
        self.assertEqual(self.check(lines("abcd"), lines("abXd")), [Edit(2, 3, [b"X"])])
        self.assertEqual(self.check(lines("abcd"), lines("ad")), [Edit(1, 3, [])])
        self.assertEqual(self.check(lines("ad"), lines("abcd")), [Edit(1, 1, lines("bc"))])
        self.assertEqual(self.check(lines("aaa"), lines("aaaa")), [Edit(3, 3, [b"a"])])
        self.assertEqual(self.check([], lines("ab")), [Edit(0, 0, lines("ab"))])
        self.assertEqual(self.check(lines("ab"), []), [Edit(0, 2, [])])
        self.assertEqual(self.check(lines("abcdef"), lines("Xbcdef")[:4] + lines("Yf")), [Edit(0, 1, [b"X"]), Edit(4, 5, [b"Y"])])

    def test_random_texts(self) -> None:
        chance = random.Random(setting.seed)
        for _ in range(400):
            old = [bytes([chance.choice(b"abcdefgh")]) for _ in range(chance.randrange(20))]
            new = list(old)
            for _ in range(chance.randrange(4)):
                at = chance.randrange(len(new) + 1)
                new[at : at + chance.randrange(3)] = [b"%d" % chance.randrange(9)] * chance.randrange(3)
            self.check(old, new)

    def test_a_large_text(self) -> None:
        old = [b"%d" % (n // 2 if n % 3 else n % 7) for n in range(20_000)]
        one = old[:10_000] + [b"a"] + old[10_001:]
        self.assertEqual(self.check(old, one), [Edit(10_000, 10_001, [b"a"])])
        self.assertEqual(len(self.check(old, [b"a", *one, b"b"])), 3)
        self.check(old, [line for line in old for _ in range(2)])

    def test_edits_that_are_merge_edits(self) -> None:
        """Those of one tune, and those nearest to each other where there are too many. Here `T` begins a tune."""
        old, new = ([b"X:" if line == b"T" else line for line in lines(text)] for text in ("aTcdefgTijkTmn", "ATcDeFgTIjkTmN"))
        found = self.check(old, new)
        self.assertEqual([edit.start for edit in found], [0, 3, 5, 8, 13])
        inside = Edit(3, 6, lines("DeF"))
        self.assertEqual(merge_edits(found, old, 9), [found[0], inside, *found[3:]])
        self.assertEqual(merge_edits(found, old, 3), [Edit(0, 6, new[:6]), *found[3:]])
        self.assertEqual(merge_edits(found, old, 2), [Edit(0, 9, new[:9]), found[4]])
        self.assertEqual(merge_edits(found, old, 1), [Edit(0, 14, new)])
        self.assertEqual(merge_edits([], old, 1), [])
        found = self.check(old, [line for line in old if line != b"X:"])
        self.assertEqual((len(found), merge_edits(found, old, 9)), (3, [Edit(1, 12, lines("cdefgijk"))]))

    def test_a_text_that_is_nearly_too_large(self) -> None:
        """Several edits, made one after another, could have too many lines on the way; one has not."""
        old, new = (
            [b"X:" if line == b"T" else line for line in lines(text)] for text in ("abTcdTefgh", "abXYTcdTZ")
        )
        self.assertEqual(len(few_edits(old, new)), 2)
        with mock.patch.object(edits_module, "MOST_LINES", 12):
            self.assertEqual(few_edits(old, new), [Edit(2, 10, new[2:])])
        with mock.patch.object(edits_module, "MOST_LINES", 13):
            self.assertEqual(len(few_edits(old, new)), 2)
