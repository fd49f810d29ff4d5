"""What the catalogue has of a tune: of its MIDI file, and of its text. Values are compared with files that the program makes, and signs
with the tokens of the library."""

from __future__ import annotations

import random
import unittest
from typing import Optional

import abc2midi_live
import setting
import trial
from abc2midi_live import TokenKind
from abc2midi_live_archive.cutting import tune_starts
from abc2midi_live_archive.tunes.fields import Fields, fields_of, file_header_of
from abc2midi_live_archive.tunes.keys import LISTED, Key, key_of, sharps_of
from abc2midi_live_archive.tunes.music import Facts, facts_of, without_programs
from abc2midi_live_archive.tunes.note_unit import NO_FIELDS

KEY_PARTS = ("C", "F#", "Bb", "G", "h", "", "HP", "m", "min", "Mixolyd", "dor", "exp", "none", "^f", "=c", "clef=bass", "bass", "+8", "loc", "PHR", " ", "  ")
ALL_SIGNS = ('"Am"', '"', "{g}", "{", "}", "&", "[", "]", "!", "C", "|", "%", "[K:", "\\")
FEW_SIGNS = ("{g}", "{", "}", "[", "]", "C", "|", "{[", "]}")


def track(*events: str) -> bytes:
    """A track of events in hexadecimal, each with its delta time."""
    body = b"".join(map(bytes.fromhex, events))
    return b"MTrk" + len(body).to_bytes(4, "big") + body


class Music(unittest.TestCase):
    """The files are written by hand, as SMF 1.0 has it."""

    HEADER = b"MThd" + bytes.fromhex("00000006 0001 0002 01e0")

    def facts(self, *tracks: bytes) -> Facts:
        """The facts of a file, but for the digest."""
        return facts_of(self.HEADER + b"".join(tracks))._replace(notes_digest="")

    def test_what_a_file_has(self) -> None:
        conductor = track("00 ff03 03 903c50", "00 ff51 03 07a120", "00 ff58 04 06 03 18 08", "00 ff59 02 02 01", "8f00 ff59 02 00 00", "8f00 ff2f 00")
        voice = track("00 c0 10", "00 90 3c 50", "9010 80 3c 40", "00 90 3e 50", "81 00 80 3e 40".replace(" ", ""), "00 ff2f 00")
        self.assertEqual(self.facts(conductor, voice), Facts("Bm", "6/8", 120.0, 2 * 15 * 128, 4.0, 1, 2, ""))

    def test_tempos(self) -> None:
        """The first one is that of the tune, and all of them make its seconds."""
        two = track("00 ff51 03 0f4240", "8360 ff51 03 07a120", "8360 ff2f 00")  # a quarter note at 60, and one at 120
        self.assertEqual(self.facts(two), Facts(None, None, 60.0, 960, 1.5, 1, 0, ""))
        late = track("8360 ff51 03 0f4240", "8360 ff2f 00")
        self.assertEqual(self.facts(late), Facts(None, None, 120.0, 960, 1.5, 1, 0, ""))

    def test_a_long_title(self) -> None:
        conductor = track("00 ff03 8148" + "41" * 200, "00 ff59 02 01 00", "60 ff2f 00")
        self.assertEqual(self.facts(conductor).key, "G")

    def test_free_meter_and_flats(self) -> None:
        conductor = track("00 ff59 02 fd 00", "60 ff58 04 04 02 18 08", "00 ff2f 00")
        self.assertEqual(self.facts(conductor), Facts("Eb", None, 120.0, 0x60, 0.1, 1, 0, ""))

    def test_a_meter_after_the_start_is_none_of_the_tune(self) -> None:
        """Also one that comes with another event, at one moment."""
        later = track("60 ff51 03 07a120", "00 ff58 04 04 02 18 08", "00 ff2f 00")
        self.assertEqual(self.facts(later), Facts(None, None, 120.0, 0x60, 0.1, 1, 0, ""))

    def test_the_length_of_a_track_is_no_note(self) -> None:
        quiet = track("00 ff59 02 00 00", "00 ff2f 00")
        many = track(*["01 90 3c 50", "01 80 3c 40"] * 1154, "7f ff2f 00")  # 0x2414 bytes
        long = track(*["01 90 3c 50"], *["01 c0 10"] * 12286, "7f ff2f 00")  # 0x9002 bytes; the bytes 90 02 01 would be a note
        self.assertEqual(long[4:9].hex(), "0000900201")
        self.assertEqual(facts_of(self.HEADER + quiet + many).notes, 1154)
        self.assertEqual(facts_of(self.HEADER + quiet + long).notes, 1)

    def test_programs_are_no_notes(self) -> None:
        """The time before one belongs to the event after it, also if both are long."""
        plain = track("00 90 3c 50", "9000 80 3c 40", "8100 ff2f 00")
        programs = track("00 c0 10", "00 90 3c 50", "8f70 c0 11", "10 80 3c 40", "7f c0 c0".replace("c0 c0", "c0 40"), "01 ff2f 00")
        self.assertEqual(without_programs(programs + plain), plain + plain)
        self.assertEqual(without_programs(plain), plain)


class OfTheText(unittest.TestCase):
    """What the text of a tune says, worked out by hand."""

    def fields(self, tune: str, line: int = 1) -> Fields:
        """The fields of a tune, with `/` for the ends of lines."""
        return fields_of([part.encode("latin-1") for part in tune.split("/")], line, NO_FIELDS)

    def test_fields_are_as_they_are_written(self) -> None:
        fields = self.fields("X:1/T:One % no/T: Two\\% /C:Ann/C:Bob/O:Cork; /R:reel/S:a book/Z:me/B:O'Neill/N:first/N:\xc3\xa9 \xe9/Q:\"Fast\" 1/K:Gm clef=bass/CDE")
        self.assertEqual((fields.titles, fields.composer, fields.origin), ("One\nTwo\\%", "Ann\nBob", "Cork;"))
        self.assertEqual((fields.rhythm, fields.source, fields.transcriber, fields.book_title), ("reel", "a book", "me", "O'Neill"))
        self.assertEqual((fields.annotations, fields.tempo_text), ("first\n\xc3\xa9 \xe9", '"Fast" 1'))
        self.assertEqual((fields.key_text, fields.tonic, fields.mode), ("Gm clef=bass", "G", "minor"))

    def test_a_value_is_utf_8_or_latin_1(self) -> None:
        self.assertEqual([self.fields(f"X:1/O:{text}/K:C").origin for text in ("\xc3\xa9", "\xe9")], ["é", "é"])

    def test_a_field_that_is_not_there_is_none(self) -> None:
        fields = self.fields("X:1/CDE")
        self.assertEqual([fields.titles, fields.composer, fields.key_text, fields.tonic, fields.mode, fields.tempo_text], [None] * 6)

    def test_titles_keys_and_tempos_are_those_of_the_header(self) -> None:
        fields = self.fields("X:1/T:One/K:G/T:Part/K:Am/Q:90/C|/N:late")
        self.assertEqual((fields.titles, fields.key_text, fields.tempo_text, fields.annotations), ("One", "G", None, "late"))
        self.assertEqual(self.fields("X:1/C:|/T:One/K:G").titles, None)  # a line of music ends the header

    def test_the_last_line_is_before_the_first_blank_one(self) -> None:
        self.assertEqual(self.fields("X:1/K:C/C|/ \t\r/free/N:free", 10).last_line, 12)
        self.assertEqual(self.fields("X:1/K:C/C|/% more/\x0b", 1).last_line, 5)
        self.assertEqual(self.fields("X:1/K:C/C|/% more/\x0b", 1).annotations, None)

    def test_signs(self) -> None:
        for music, wanted in {
            'C"Am"D': (1, 0, 0), 'C"^slowly"D"fine"': (0, 0, 0), "{g}C": (0, 1, 0), "C & D": (0, 0, 1), 'C % "Am" {g} &': (0, 0, 0),
            '"a{b}&"C': (0, 0, 0), "!{&!C": (0, 0, 0), "[K:C&]C": (0, 0, 0), '["Am"CE]': (1, 0, 0), "[{g}C]": (0, 1, 0), '{"Am"}C': (0, 1, 0), "{C": (0, 0, 0),
            'w:"Am" & {': (0, 0, 0),
        }.items():  # fmt: skip
            with self.subTest(music):
                fields = self.fields(f"X:1/K:C/{music}")
                self.assertEqual((fields.has_chord_names, fields.has_grace_notes, fields.has_overlays), tuple(map(bool, wanted)))
        self.assertEqual([self.fields(f"X:1/K:C/C|/{line}").has_lyrics for line in ("w:la", "W:la", "N:la")], [True, True, False])

    def test_the_unit_is_that_of_the_header_or_follows_the_meter(self) -> None:
        for header, wanted in {
            "": "1/8", "M:2/4": "1/16", "M:3/4": "1/8", "M:C|": "1/8", "M:none": "1/8", "M:5/8": "1/16", "M:6/8": "1/8", "M:2/4/M:4/4": "1/8", "M:2/4/M:7/9": "1/16",
            "M:(2+3)/8": "1/16", "M:(5)/8": "1/8", "L:1/4": "1/4", "L:1": "1", "L:01/4": "1/8", "L:1/4/L:1/3": "1/4", "L:1/004": "1/4", "L:1/1024": "1/8",
        }.items():  # fmt: skip
            with self.subTest(header):
                lines = [part.encode() for part in "\n".join(["X:1", *header.replace("/M:", "\nM:").replace("/L:", "\nL:").split("\n"), "K:C"]).split("\n")]
                self.assertEqual(fields_of(lines, 1, NO_FIELDS).unit, wanted)

    def test_the_file_header_says_the_unit_of_tunes_that_do_not(self) -> None:
        tune = [b"X:1", b"K:C"]
        for opening, wanted in {
            (b"L:1/4",): "1/4", (b"M:2/4",): "1/16", (b"% x", b"", b"L:1/4"): "1/4", (b"text", b"L:1/4"): "1/8", (b"O:x", b"L:1/4"): "1/4", (b"L:1/4", b"", b"L:1/2"): "1/4",
        }.items():  # fmt: skip
            with self.subTest(opening):
                self.assertEqual(fields_of(tune, 1, file_header_of(opening)).unit, wanted)
        self.assertEqual(fields_of([b"X:1", b"M:3/4", b"K:C"], 1, file_header_of([b"M:2/4"])).unit, "1/8")


class Keys(unittest.TestCase):
    def test_keys(self) -> None:
        for value, wanted in {
            "D": Key("D", "major"), "Em": Key("E", "minor"), "F#Aeolian": Key("F#", "minor"), "G  Mix": Key("G", "mixolydian"), "Bb bass": Key("Bb", "major"),
            "C m=B": Key("C", "minor"), "D exp ^f": Key("D", LISTED), "Dexp": Key(), "": Key(), "none": Key(), "HP": Key(), "d": Key(), "G#": Key(), "G#m": Key("G#", "minor"),
            "^f": Key(), "clef=bass": Key(), "Cfoo": Key(), "C foo": Key("C", "major"),
        }.items():  # fmt: skip
            with self.subTest(value):
                self.assertEqual(key_of(value), wanted)


class AgainstTheLibrary(unittest.TestCase):
    """What the text says, against what the library makes of it."""

    def setUp(self) -> None:
        self.session = abc2midi_live.open(library=setting.library)
        self.addCleanup(self.session.close)

    def file_of(self, text: bytes) -> Optional[bytes]:
        """The file of the tune 1 of a text."""
        self.session.set_text(text)
        return self.session.output(1)

    def test_tonic_and_mode_give_the_sharps_of_the_file(self) -> None:
        chance, tried = random.Random(setting.seed), 0
        for number in range(setting.books):
            value = "".join(chance.choice(KEY_PARTS) for _ in range(chance.randrange(1, 5)))
            data = self.file_of(f"X:1\nK:{value}\nC|\n".encode())
            assert data
            key = key_of(value.strip(" \t"))
            at = data.index(b"\xff\x59\x02") + 3
            with self.subTest(value):
                is_tonal = key.tonic is not None and key.mode != LISTED
                self.assertEqual(int.from_bytes(data[at : at + 1], "big", signed=True), sharps_of(key) if is_tonal else 0)
                self.assertEqual(data[at + 1], int(key.mode == "minor"))
                tried += is_tonal
        self.assertGreater(tried, setting.books // 10)

    def test_a_unit_that_is_written_as_it_is_changes_no_file(self) -> None:
        """Before the end of the header, `L:` with the unit of the catalogue."""
        tried = 0
        for number in range(setting.books // 4):
            lines = setting.random_book(number).split(b"\n")
            starts = tune_starts(lines)
            file_header = file_header_of(lines[: starts[0]])
            for start, end in zip(starts, [*starts[1:], len(lines)]):
                unit = fields_of(lines[start:end], start + 1, file_header).unit
                tune = [b"X:1", *lines[start + 1 : end]]
                at = next((n for n, line in enumerate(tune) if line.startswith(b"K:")), None)
                if at is None or any(music_ends_the_header(line) for line in tune[:at]):
                    continue
                before = [*lines[: starts[0]], *tune]
                after = [*lines[: starts[0]], *tune[:at], b"L:" + unit.encode(), *tune[at:]]
                with self.subTest(number, start=start):
                    self.assertEqual(self.file_of(b"\n".join(before)), self.file_of(b"\n".join(after)))
                tried += 1
        self.assertGreater(tried, setting.books // 8)

    def test_signs_are_tokens(self) -> None:
        """In random lines, also broken ones."""
        chance = random.Random(setting.seed)
        found = [0, 0, 0]
        for number in range(setting.books):
            opening, parts = chance.choice(((trial.random_line(chance), ALL_SIGNS), ("", FEW_SIGNS)))
            line = opening + "".join(chance.choice(parts) for _ in range(8))
            data = line.encode("utf-8", "replace").replace(b"\n", b"")
            self.session.set_text(b"X:1\nK:C\n" + data)
            tokens = [(token.kind, data[token.from_column - 1 : token.to_column - 1]) for token in self.session.tokens(3)]
            wanted = (
                any(kind is TokenKind.QUOTED and text[1:2] in tuple(b"%c" % letter for letter in b"ABCDEFG") for kind, text in tokens),
                any(kind is TokenKind.GRACE for kind, _ in tokens),
                any(kind is TokenKind.BAD_BYTE and text == b"&" for kind, text in tokens),
            )
            fields = fields_of([b"X:1", b"K:C", data], 1, NO_FIELDS)
            with self.subTest(data):
                self.assertEqual((fields.has_chord_names, fields.has_grace_notes, fields.has_overlays), wanted)
            found = [count + is_so for count, is_so in zip(found, wanted)]
        self.assertGreater(min(found), setting.books // 20, found)


def music_ends_the_header(line: bytes) -> bool:
    """Whether a line is no field, comment or blank."""
    return not (line[1:2] == b":" or line.lstrip(b" \t")[:1] == b"%")
