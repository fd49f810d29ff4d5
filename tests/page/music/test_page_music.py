"""What the page knows of music, in node, and plays of the library beside the files of the program. Skipped without node."""

import json
import random
from collections.abc import Sequence
from typing import Any, Optional

import page_in_node
import trial

from abc2midi_live import EntryKind, Session
from abc2midi_live.opening import library_session

LENGTHS = ["", "", "", "2", "/", "3/2", "/4"]
BARS = ["|", "|", "|", "|:", ":|", "::", "||", "|]", "|1 ", ":|2 ", "|2 ", "|1,3 ", "\n"]
FIELDS = ["[K:G]", "[K:Fm]", "[M:6/8]", "[L:1/4]", "[V:1]", "[V:2]", "[K:clef=bass-8]", "\nP:A\n", "\nP:B\n", "\nV:2\n", "\nV:1 octave=-1\n", "[Q:1/4=90]"]


class Scripts(page_in_node.PageScripts):
    def test_scripts(self) -> None:
        self.assert_ok("music/page_music.mjs", 6)


class Places(page_in_node.PageScripts):
    """Each note of a file has its place in the text, whatever the text is."""

    def setUp(self) -> None:
        super().setUp()
        self.session = library_session(trial.library)
        self.addCleanup(self.session.close)

    def known(self, tunes: list[list[str]], header: Sequence[str] = ()) -> int:
        """All voices of these tunes are known from beginning to end."""
        lines = [line for tune in tunes for line in [*tune, ""]]
        book = "\n".join([*header, *([""] if header else []), *lines])
        files = trial.fresh(book.encode()).files
        self.session.set_text(book)
        asked = [(number, tune) for number, tune in enumerate(tunes, 1) if f"{number}.mid" in files]
        words = [{"lines": book.split("\n"), "play": play_of(self.session, number), "file": files[f"{number}.mid"].hex()} for number, _ in asked]
        told = [json.loads(line) for line in self.node("music/page_note_places.mjs", json.dumps(words))]
        self.assertEqual(len(told), len(asked))
        for (_, tune), found in zip(asked, told):
            self.assertEqual((found["whole"], found["notes"]), (found["voices"], found["all"]), "\n".join(tune))
        return sum(found["all"] for found in told)

    def test_tunes_at_random(self) -> None:
        chance = random.Random(trial.seed)
        self.known([without_blank_lines(trial.random_tune(chance, number)) for number in range(1, 10 * trial.tunes)])

    def test_music_at_random(self) -> None:
        """Much that is played, with repeats, endings, parts, voices, chords, ties and tuplets."""
        chance = random.Random(trial.seed)
        notes = 0
        for header in ((), ("L:1/16", "M:2/4", "%%propagate-accidentals octave"), ("%%propagate-accidentals not",)):
            notes += self.known([random_music(chance, number) for number in range(1, 4 * trial.tunes)], header)
        self.assertGreater(notes, 20 * trial.tunes)

    def test_examples(self) -> None:
        """The tunes of the examples."""
        for name in ("four_tunes", "sounds"):
            lines = (trial.TOP / f"examples/{name}.abc").read_text().split("\n")
            starts = [n for n, line in enumerate(lines) if line.startswith("X:")]
            tunes = [without_blank_lines(lines[start:end]) for start, end in zip(starts, [*starts[1:], len(lines)])]
            header = [line for line in lines[: starts[0]] if line]
            self.assertGreater(self.known(tunes, header), 100)


def play_of(session: Session, number: int) -> Optional[dict[str, Any]]:
    """What a number plays, as the page gets it: lines and columns are counted from 0."""
    tracks = session.play(number)
    if tracks is None:
        return None
    kinds = {EntryKind.NOTE: "Note", EntryKind.REST: "Rest", EntryKind.BAR: "Bar"}
    entries = [
        [
            {"on": on, "off": off, "kind": kinds[kind], "key": key, "velocity": velocity, "joined": joined, "line": line - 1, "from": start - 1, "to": end - 1}
            for on, off, kind, key, velocity, joined, _, line, start, end in track
        ]
        for track in tracks
    ]
    return {"number": number, "tracks": [{"entries": those} for those in entries]}


def without_blank_lines(lines: list[str]) -> list[str]:
    """The lines of a tune up to the first blank one."""
    return lines[: next((n for n, line in enumerate(lines) if not line.strip(" \t")), len(lines))]


def random_note(chance: random.Random) -> str:
    """A note with an accidental, an octave and a length, or without."""
    letter = chance.choice(["", "", "", "^", "_", "="]) + chance.choice("CDEFGABcdefg")
    return letter + chance.choice(["", "", "'", ","]) + chance.choice(LENGTHS)


def random_music(chance: random.Random, number: int) -> list[str]:
    """The lines of a tune that sounds."""
    body = ""
    for _ in range(chance.randrange(5, 60)):
        kind = chance.random()
        if kind < 0.55:
            body += random_note(chance) + chance.choice(["", "", "", "-", " ", ">", "<"])
        elif kind < 0.65:
            body += f"[{random_note(chance)}{random_note(chance)}]{chance.choice(['', '2', '-'])}"
        elif kind < 0.7:
            body += chance.choice(["z", "z2", "Z", "x/", "(3", "(5", "(2", '"Am"', "{g}"])
        else:
            body += chance.choice(BARS if kind < 0.93 else FIELDS)
    order = [f"P:{chance.choice(['AB', 'A2B', '(AB)2C', 'BA'])}"] if chance.random() < 0.3 else []
    voices = ["V:1", "V:2 clef=treble+8"] if chance.random() < 0.5 else []
    return without_blank_lines([f"X:{number}", f"M:{chance.choice(['4/4', '6/8', 'C|', 'none'])}", *order, *voices, f"K:{chance.choice(['C', 'Dmix', 'Ebm', 'A ^g'])}", *body.split("\n")])
