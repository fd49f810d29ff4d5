"""Transposition: in node, and by what a transposed text plays."""

import json
import random
from typing import Any, Optional

import page_in_node
import trial
from abc2midi_live.plays import Entry
from abc2midi_live_clients.common.options import open_library
from abc2midi_live_clients.common.session_book import SessionBook
from abc2midi_live_clients.page.book_text import Text
from abc2midi_live_clients.page.tokens_and_plays import Sight, view_of

SEMITONES = list(range(-12, 13))
TUNES = 30
TRICKY = {
    "flats": "X:1\nL:1/4\nK:Gb\n_G A =B c|^c _d =d e|__B B __b B|d- d|",
    "sharps": "X:1\nL:1/8\nK:C#\nC D E F|^F G =A B|^^c c ^^C c|",
    "modes": "X:1\nK:Ador\nABcd|^c d =c|[K:E phr]EFGA|[K:Bb Lydian]Bcde|[K:F#m]fgab|",
    "listed": "X:1\nK:D clef=bass =c ^g\nFGAB|cdef|\nK:E exp _b ^f\nABcd|efgB|[K:^f_b]fbFB|",
    "none": "X:1\nK:none\nCDEF|^G_A|[K:]Bc|\nK:bass\ncd|",
    "ties": "X:1\nK:D\n^G-|G2 G-|[^GB]-[GB]|G-[K:A]G|f-|=f-|f|",
    "chords": "X:1\nK:Bb\n[_B,DF_A]2[CE^G]|\"Bb7\"[B,2D]{^f}G {_ab}|[^F^FF]F|",
    "voices": "X:1\nV:1 transpose=-2\nV:2 octave=-1 clef=treble-8\nK:Eb\nV:1\nEFG_c|\nV:2\n[K:Ab]A=BcD|\nV:1\nc[K:F]B|\nV:2\nDE|\n[V:1]B [V:2]D|",
    "parts": "X:1\nP:AB\nK:G\nP:A\n^c\nP:B\nc|^d\nP:A\nd|",
    "octave": "%%propagate-accidentals octave\n\nX:1\nK:F\n^c C c|_e e' E|",
    "not": "X:1\n%%propagate-accidentals not\nK:E\n^c c =d d|[_ee]|",
    "repeats": "X:1\nM:3/8\nK:Em\n|:(3^D>EF|1G:|2[GB]-|[GB]||",
}


class Scripts(page_in_node.PageScripts):
    def test_scripts(self) -> None:
        self.assert_ok("tunes/page_transpose.mjs", 14)


class PlayedTexts(page_in_node.PageScripts):
    """Texts in a session over the library, which says what they play."""

    def setUp(self) -> None:
        super().setUp()
        self.session = open_library(trial.library)
        self.addCleanup(self.session.close)
        self.book = SessionBook(self.session)

    def load(self, lines: list[str]) -> dict[int, Any]:
        """Gives the session a text, and returns what each of its numbers plays."""
        self.book.replace(0, len(self.book.lines), [line.encode() for line in lines])
        return {tune.number: self.book.play(tune.number) for tune in self.book.tunes()}

    def rows(self, lines: list[str]) -> list[list[int]]:
        """The rows of the tokens of the text of the session."""
        text = Text.of("\n".join(lines).encode())
        rows: list[list[int]] = view_of(self.book, text, Sight(0, len(lines), None))["tokens"]
        return rows


class Heard(PlayedTexts):
    """After a text was transposed each of its tones is that much higher, at the same moments."""

    def transposed(self, texts: list[list[str]], part: Optional[Any] = None) -> list[list[Any]]:
        """What becomes of texts, by each number of semitones."""
        asked = []
        for lines in texts:
            self.load(lines)
            asked.append({"lines": lines, "rows": self.rows(lines), "range": part})
        return [json.loads(row) for row in self.node("tunes/page_transpose.mjs", json.dumps({"texts": asked, "semitones": SEMITONES}), ["--transpose"])]

    def assert_higher(self, texts: list[list[str]]) -> list[str]:
        """Each tone is higher by as many semitones. Returns why a note stayed as it was; the keys of those tunes are not compared."""
        stayed = []
        for lines, results in zip(texts, self.transposed(texts)):
            before = self.load(lines)
            for semitones, found in zip(SEMITONES, results):
                why = [left["why"] for left in found["left"] if "name of a chord" not in left["why"]]
                stayed += why[:1]
                with self.subTest(lines=lines, semitones=semitones, put=found["lines"]):
                    self.assertEqual(self.load(found["lines"]).keys(), before.keys())
                    for number, tracks in before.items():
                        self.assert_tracks(tracks, self.book.play(number), semitones, bool(why))
        return stayed

    def assert_tracks(self, before: Any, after: Any, semitones: int, isExempt: bool) -> None:
        """The tracks of a number have the same moments, and higher keys."""
        moments = [[(one.on, one.off, one.kind, one.velocity, one.line, None if isExempt else one.joined) for one in track] for track in before or ()]
        self.assertEqual([[(one.on, one.off, one.kind, one.velocity, one.line, None if isExempt else one.joined) for one in track] for track in after or ()], moments)
        if not isExempt:
            keys = [[None if one.key is None else one.key + semitones for one in track] for track in before or ()]
            self.assertEqual([[one.key for one in track] for track in after or ()], keys)

    def test_tricky_tunes(self) -> None:
        self.assertEqual(self.assert_higher([text.split("\n") for text in TRICKY.values()]), [])

    def test_examples(self) -> None:
        texts = [(trial.TOP / "examples" / name).read_text("utf-8").split("\n") for name in ("four_tunes.abc", "sounds.abc")]
        self.assertEqual(self.assert_higher(texts), [])

    def test_random_tunes(self) -> None:
        chance = random.Random(trial.seed)
        texts = [[line for line in trial.random_tune(chance, 1) if line != "K:X"] for _ in range(TUNES)] + [random_music(chance, 1) for _ in range(TUNES)]
        stayed = self.assert_higher(texts)
        self.assertLess(len(stayed), len(texts) * len(SEMITONES) / 4)

    def test_a_key_that_is_not_known(self) -> None:
        """Its notes stay, and it is named."""
        lines = ["X:1", "K:HP", "ABc|", "[K:D]f|"]
        before = self.load(lines)[1]
        for semitones, found in zip(SEMITONES, self.transposed([lines])[0]):
            keys = [[one.key for one in track] for track in self.load(found["lines"])[1]]
            self.assertEqual(keys[1][:3], [one.key for one in before[1]][:3])
            self.assertEqual([left["text"] for left in found["left"]], ["K:HP"])
            self.assertEqual(keys[1][-2], 78 + semitones)

    def test_a_part(self) -> None:
        """The bars of a part are higher, and nothing else."""
        lines = ["X:1", "L:1/4", "V:1", "V:2", "K:Ebm", "[V:1] E=GB^c|_d2 =e2|f=g ab|", "[V:2] EEEE|^CC cC|C4|"]
        before = self.load(lines)[1]
        for semitones, found in zip(SEMITONES, self.transposed([lines], {"start": {"line": 5, "column": 13}, "end": {"line": 6, "column": 10}})[0]):
            self.assertEqual(found["left"], [])
            after = self.load(found["lines"])[1]
            for old, new in zip(before, after):
                self.assertEqual([(one.on, one.off) for one in new], [(one.on, one.off) for one in old])
                keys = [None if one.key is None else one.key + semitones * self.is_inside(lines, one) for one in old]
                self.assertEqual([one.key for one in new], keys, (semitones, found["lines"]))

    def is_inside(self, lines: list[str], entry: Entry) -> bool:
        """Whether an entry is in the second bar of the first voice or what follows, up to the first bar of the second voice."""
        text = lines[entry.line - 1]
        return entry.from_column > text.index("|") if entry.line == 6 else entry.from_column <= text.index("|")


def random_music(chance: random.Random, number: int) -> list[str]:
    """A tune with many accidentals, in some key."""
    def note() -> str:
        return chance.choice(["", "", "^", "_", "="] * 6 + ["^^", "__"]) + chance.choice("CDEFGABcdefgab") + chance.choice(["", "", ",", "'", "2", "/"])

    def piece() -> str:
        kinds = [note(), note(), f"[{note()}{note()}]", f"{note()}-", "|", "|", f"{{{note()}}}", "z", f"[K:{key()}]", '"Am7"']
        return chance.choice(kinds)

    def key() -> str:
        return chance.choice(["C", "G", "Bb", "F#", "Ab", "E"]) + chance.choice(["", "m", " dor", "mix", " ^f", " exp _b ^c"])

    body = [" ".join(piece() for _ in range(12)) for _ in range(4)]
    return [f"X:{number}", "V:1", "V:2", f"K:{key().replace('F#mix', 'C')}", "[V:1] " + body[0], "[V:2] " + body[1], *body[2:], ""]
