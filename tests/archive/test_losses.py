"""What tunes lose: random tunes of pieces, of each of which the test knows what it loses, and runs with `--losses` and `--strict`."""

from __future__ import annotations

import csv
import json
import random
from collections import Counter
from typing import NamedTuple, Optional
from unittest import mock

import abc2midi_live
import setting
from abc2midi_live_archive.cutting import Part
from abc2midi_live_archive.tunes.losses import Losses, state_of
from books import TUNE


class Piece(NamedTuple):
    """A piece of a line of music, and what of it is lost: kinds, with their effects."""

    text: str
    lost: tuple[str, ...] = ()


EFFECTS = {
    "chord names": "silent", "grace notes": "silent", "decorations": "silent", "lyrics": "silent", "MIDI directives": "silent", "BadByte": "silent",
    "KeyRange": "silent", "EmptyChord": "silent", "overlays": "other", "jumps": "other", "LooseTie": "other", "BadLength": "other", "macros and symbols": "silent",
    "notes never played": "silent",
}  # fmt: skip
PIECES = (
    Piece("C D"), Piece("[CEG]2"), Piece("(3CDE"), Piece("z2"), Piece('"^slowly"C'), Piece('"fine"D'), Piece("!f!C"), Piece("C-C"), Piece("(CD)"), Piece("[K:G]C"), Piece("y"),
    Piece('"Am"C', ("chord names",)), Piece('"G7/B"C"D"E', ("chord names", "chord names")), Piece("{gab}C", ("grace notes",)), Piece("!trill!C", ("decorations",)),
    Piece(".C~D", ("decorations", "decorations")), Piece("TC", ("decorations",)), Piece("!D.C.!C", ("jumps",)), Piece("C & D", ("overlays",)), Piece("C + D", ("BadByte",)),
    Piece("C''''''''", ("KeyRange",)), Piece("[]", ("EmptyChord",)), Piece("z-", ("LooseTie",)), Piece("C0", ("BadLength",)), Piece('["A"CE]', ("chord names",)),
)  # fmt: skip
LINES = (
    Piece("w: la la", ("lyrics",)), Piece("% a comment"), Piece("N:a note"), Piece("%%MIDI gchord fzc", ("MIDI directives",)), Piece("%%MIDI program 5"), Piece("M:3/4"),
    Piece("s: !p!", ("decorations",)), Piece("U:T=!trill!", ("macros and symbols",)), Piece("W: words", ("lyrics",)), Piece("K:D"),
)  # fmt: skip


def random_tune(chance: random.Random, number: int) -> tuple[list[str], dict[str, list[int]]]:
    """The lines of a tune, and the lines, from 1 at its `X:`, at which it loses something, by the kind."""
    lines, lost = [f"X:{number}", "M:4/4", "L:1/8", "K:C"], dict[str, list[int]]()
    for _ in range(chance.randrange(1, 6)):
        is_music = chance.random() < 0.7
        pieces = [chance.choice(PIECES) for _ in range(chance.randrange(1, 5))] if is_music else [chance.choice(LINES)]
        if chance.random() < 0.4:
            pieces = [piece for piece in pieces if not piece.lost]
        lines.append(" | ".join(piece.text for piece in pieces) or "z")
        for kind in (kind for piece in pieces for kind in piece.lost):
            lost.setdefault(kind, []).append(len(lines))
    return lines, lost


class LossesOfTunes(setting.Room):
    def test_random_tunes_lose_what_their_pieces_lose(self) -> None:
        chance, states, kinds = random.Random(setting.seed), Counter[str](), set[str]()
        for trial in range(max(10, setting.books // 10)):
            tunes = [random_tune(chance, number) for number in range(1, 6)]
            text = [line.encode() for lines, _ in tunes for line in (*lines, "")]
            with abc2midi_live.open(library=setting.library) as session:
                session.insert(1, text)
                losses = Losses(session, Part(text), session.faults, "written")
                start = 0
                for number, (lines, lost) in enumerate(tunes, 1):
                    found = losses.of_tune(number, start, start + len(lines), number)
                    wanted = [
                        (number, kind, EFFECTS[kind], len(at), " ".join(str(start + line) for line in sorted(set(at)))) for kind, at in sorted(lost.items())
                    ]
                    with self.subTest(trial, lines=lines):
                        self.assertEqual([tuple(loss) for loss in found], wanted)
                        effects = {EFFECTS[kind] for kind in lost}
                        self.assertEqual(state_of(found), "other" if "other" in effects else "silent" if effects else "complete")
                    states[state_of(found)] += 1
                    kinds |= lost.keys()
                    start += len(lines) + 1
        self.assertEqual((kinds, len(states)), (EFFECTS.keys() - {"notes never played"}, 3), states)
        self.assertGreater(min(states.values()), 5, states)

    def of_book(self, book: bytes, number: Optional[int] = 1) -> list[tuple[str, str, int, str]]:
        """What the first tune of a book loses."""
        lines = book.split(b"\n")
        with abc2midi_live.open(library=setting.library) as session:
            session.insert(1, lines)
            return [(loss.kind, loss.effect, loss.times, loss.lines) for loss in Losses(session, Part(lines), session.faults, "written").of_tune(1, 0, len(lines), number)]

    def test_notes_that_no_pass_plays(self) -> None:
        self.assertEqual(self.of_book(b"X:1\nP:A\nK:C\nP:A\nC|\nP:B\nD[EF]|"), [("notes never played", "silent", 3, "7")])
        self.assertEqual(self.of_book(b"X:1\nK:C\nC|1 D:|2 E|F|1 G:|2 A|"), [("notes never played", "silent", 2, "3")])

    def test_bytes_of_one_character_are_one_loss(self) -> None:
        self.assertEqual(self.of_book("X:1\nK:C\nC é D".encode()), [("BadByte", "silent", 1, "3")])

    def test_a_tune_without_a_file_is_silent(self) -> None:
        self.assertEqual(self.of_book(b"X:1\nK:C\nC", None), [("no file", "silent", 1, "1")])


class LossesOfRuns(setting.Runs):
    def backend(self) -> list[str]:
        return ["--library", str(setting.library)]

    def test_a_table_of_all_tunes(self) -> None:
        text = TUNE % (1, b"Whole") + b'X:2\nT:Chords\nK:C\n"Am"A|\n\nX:3\nK:C\nC & {g}D|\n\n' + TUNE % (1, b"Hidden")
        book, file = self.write("airs.abc", text), self.folder / "losses.csv"
        ran = self.run_archive(book, "--losses", file, "--report", self.folder / "r.html")
        self.assertIn("of all tunes 1 complete, 2 with something silent, 1 other than written", ran.out)
        rows = list(csv.DictReader(file.open(encoding="utf-8", newline="")))
        found = [(row["place"], row["title"], row["state"], row["kind"], row["effect"], row["count"], row["lines"]) for row in rows]
        wanted = [
            ("1", "Whole", "complete", "", "", "", ""),
            ("2", "Chords", "silent", "chord names", "silent", "1", "10"),
            ("3", "", "other", "grace notes", "silent", "1", "14"),
            ("3", "", "other", "overlays", "other", "1", "14"),
            ("4", "Hidden", "silent", "no file", "silent", "1", "16"),
        ]
        self.assertEqual((found, {row["reading"] for row in rows}), (wanted, {"written"}))
        report = (self.folder / "r.html").read_text("utf-8")
        for part in ("as it is written: 1", "something silent: 2", "other than written: 1", "grace notes: 1 tune, 1 in all", "no file: 1 tune, 1 in all"):
            self.assertIn(f'title="{part}"', report)
        lines = self.folder / "losses.jsonl"
        again = self.run_archive(book, "--losses", lines)
        self.assertIn("1 as before", again.out)
        self.assertIn("of all tunes 1 complete, 2 with something silent, 1 other than written", again.out)
        self.assertEqual([json.loads(line)["kind"] or "" for line in lines.read_text().splitlines()], [row[3] for row in wanted])

    def test_strict(self) -> None:
        whole, chords = self.write("in/whole.abc", TUNE % (1, b"Whole")), self.write("in/chords.abc", b'X:1\nK:C\n"Am"A|\n')
        self.assertIn("1 complete", self.run_archive(whole, "--strict").out)
        self.run_archive(self.folder / "in", "--strict", status=3)
        self.run_archive(self.folder / "in", "--strict", status=3)  # also if nothing is compiled
        self.run_archive(whole, "--strict")  # the other one is none of this run
        self.run_archive(self.folder / "in")
        self.run_archive(self.folder / "in", self.folder / "gone.abc", "--strict", status=1)
        chords.unlink()

    def test_it_needs_the_library(self) -> None:
        for words in (["--losses", "x.csv"], ["--strict"]):
            with mock.patch.object(self, "backend", lambda: ["--program", "/nowhere"]):
                ran = self.run_archive("x", *words, status=2)
            self.assertIn("--losses and --strict need the C library", ran.err)

    def test_by_place_and_in_parts_lines_are_those_of_the_book(self) -> None:
        text = b'X:1\nK:C\n"Am"A|\n\nX:1\nK:C\n"Am"A{g}|\n'
        self.run_archive(self.write("airs.abc", text), "--number-by", "place", "--losses", self.folder / "l.csv")
        self.assertEqual(self.rows("SELECT place, kind, lines FROM losses ORDER BY 1, 2"), [(1, "chord names", "3"), (2, "chord names", "7"), (2, "grace notes", "7")])
