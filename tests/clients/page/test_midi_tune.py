"""MIDI files as tunes: what is made of them, what the program that reads them can reach, and what someone at the page takes in."""

import argparse
import base64
import os
import shutil
import struct
import threading
import time
import unittest
from contextlib import ExitStack
from typing import Any
from unittest import mock

import served_page
import test_score
import test_score_pdf
import trial
from abc2midi_live_clients.common.json_object import Json
from abc2midi_live_clients.page import midi_tune
from abc2midi_live_clients.page.midi_tune import INSTALL, MOST_BYTES, NO_TUNE, MidiReader, NoTune, data_of, lines_of
from abc2midi_live_clients.page.refused import Refused
from abc2midi_live_clients.page.score import limits, score, walled_program
from abc2midi_live_clients.page.server import Server

READS = shutil.which("midi2abc") or ""


def varied(number: int) -> bytes:
    """A number as a MIDI file has it: seven bits a byte."""
    found = bytes([number & 127])
    while number := number >> 7:
        found = bytes([number & 127 | 128]) + found
    return found


def midi_file(keys: list[int], ticks: int = 240) -> bytes:
    """A file of notes one after another, 480 ticks a quarter note, in four quarters a bar."""
    events = [b"\0\xff\x58\x04\x04\x02\x18\x08", b"\0\xff\x51\x03\x07\xa1\x20", b"\0\xc0\x28"]
    events += [b"\0" + bytes([0x90, key, 80]) + varied(ticks) + bytes([0x80, key, 0]) for key in keys]
    track = b"".join(events) + b"\0\xff\x2f\0"
    return b"MThd" + struct.pack(">IHHH", 6, 0, 1, 480) + b"MTrk" + struct.pack(">I", len(track)) + track


SCALE = midi_file([60, 62, 64, 65, 67, 69, 71, 72])


def sent(data: bytes) -> Json:
    """What a window sends of a file."""
    return {"data": base64.b64encode(data).decode()}


class Made(unittest.TestCase):
    """What is made of MIDI files, and of what a program writes."""

    @unittest.skipUnless(READS, "midi2abc is not installed")
    def test_a_file(self) -> None:
        answer = MidiReader().answer(sent(SCALE))
        self.assertEqual(answer["note"], "")
        lines = answer["lines"]
        self.assertEqual((lines[0].replace(" ", ""), [line for line in lines if line.startswith("%%MIDI")]), ("X:1", ["%%MIDI program 40"]))
        self.assertEqual("".join(lines[-1].split()), "CDEFGABc|")

    @unittest.skipUnless(READS, "midi2abc is not installed")
    def test_files_that_are_none(self) -> None:
        for data in (b"x", b"MThd", SCALE[:30], b"MThd\0\0\0\6\0\0\0\1\1\xe0MTrk\0\0\0\4\0\xff\x2f\0"):
            answer = MidiReader().answer(sent(data))
            self.assertTrue(answer.get("why") or "K:" in "".join(answer["lines"]), data)
        self.assertEqual(MidiReader().answer(sent(b"x")), {"why": NO_TUNE})

    def test_the_lines(self) -> None:
        """A tune has no blank line, and no sign that no text has. Words that are not UTF-8 are Windows-1252."""
        self.assertEqual(lines_of(b"junk\nX: 1\r\n\nT:a\0b\x7f\n \t\nK:C  \nC|\n"), ["X: 1", "T:a b", "K:C", "C|"])
        self.assertEqual(lines_of(b"X:1\nT:\xe9\nK:C\n")[1], "T:\u00e9")
        self.assertEqual(lines_of("X:1\nT:\u00e9\nK:C\n".encode())[1], "T:\u00e9")
        for none in (b"", b"X:1\nC\n", b"K:C\nC\n", b"X:1\nX:2\nK:C\n"):
            self.assertRaisesRegex(NoTune, "no tune", lines_of, none)
        self.assertRaisesRegex(NoTune, "too long", lines_of, b"X:1\nK:C\n" + b"C\n" * midi_tune.MOST_LINES)

    def test_what_a_window_sends(self) -> None:
        self.assertEqual(data_of(sent(b"abc")), b"abc")
        wrongs: list[tuple[dict[str, Any], int]] = [({}, 400), ({"data": ""}, 400), ({"data": "*YWJj"}, 400), ({"data": "YQ"}, 400), ({"data": 1}, 400), (sent(b"x" * (MOST_BYTES + 1)), 413)]
        for wrong, status in wrongs:
            with self.assertRaises(Refused) as refused:
                data_of(wrong)
            self.assertEqual(refused.exception.status, status)

    def test_none(self) -> None:
        """The sentence names what to install."""
        with mock.patch.dict(os.environ, {"PATH": "/nowhere"}):
            self.assertEqual(MidiReader().answer(sent(SCALE)), {"why": INSTALL, "missing": True})

    def test_one_at_a_time(self) -> None:
        reader = MidiReader()
        with reader.turn, mock.patch.object(midi_tune, "found_program", return_value="/bin/true"):
            self.assertIn("Another MIDI file", reader.answer(sent(SCALE))["why"])


class Walls(test_score.Harm):
    """What a program that is called `midi2abc` can do."""

    def outcome(self, script: str, **more: Any) -> Json:
        """What becomes of a script instead of it; afterwards no file is left."""
        path = self.bin / "midi2abc"
        path.write_text(f"#!/bin/sh\n{script}\n")
        path.chmod(0o755)
        with ExitStack() as changed:
            for attribute, value in more.items():
                changed.enter_context(mock.patch.object(midi_tune, attribute, value))
            answer = midi_tune.answer(str(path), b"MThd")
        self.assertEqual(os.listdir(self.files), [])
        return answer

    def printed(self, script: str) -> list[str]:
        """What a script prints, which runs in the walls."""
        lines: list[str] = self.outcome(f"echo X:1; echo K:C; {script}")["lines"]
        return lines[2:]

    def test_its_own_folder(self) -> None:
        """It reads the file there, and writes nothing."""
        self.assertEqual(self.printed('read -r line < "$2"; echo "$1 $line"; ulimit -f; ulimit -t; ulimit -v'), ["-f MThd", "0", "4", "524288"])
        self.assertEqual(self.printed('echo evil > ./made; echo evil >> "$2"; read -r line < ./made; echo "$line"; read -r line < "$2"; echo "$line"'), ["MThd"])

    @unittest.skipIf(not limits.landlock_version(), "Linux has no Landlock")
    def test_landlock_alone(self) -> None:
        """Without bubblewrap it reads nothing else either."""
        (self.folder / "secret").write_text("SECRET")
        with mock.patch.object(walled_program, "outer_program", return_value=""):
            self.assertEqual(self.printed(f'read -r line < {self.folder}/secret; echo "$line"; echo evil > {self.folder}/evil; read -r line < "$2"; echo "$line"'), ["MThd"])
        self.assertEqual(sorted(os.listdir(self.folder)), ["files", "secret"])

    @unittest.skipUnless(walled_program.outer_program(), "bubblewrap does not work here")
    def test_bubblewrap_alone(self) -> None:
        """Without Landlock it sees nothing else either."""
        (self.folder / "secret").write_text("SECRET")
        open_limits = self.bin / "limits.py"
        open_limits.write_text(open(score.LIMITS).read().replace("version < 1", "True"))
        found = self.outcome(f'echo X:1; echo K:C; read -r line < {self.folder}/secret; echo "$line"; echo evil > ./made; echo ./*; read -r line < "$2"; echo "$line"', LIMITS=str(open_limits))
        self.assertEqual((found["lines"][2:], found["note"]), (["./file", "MThd"], ""))

    def test_missing_walls(self) -> None:
        """The note names this program."""
        with mock.patch.object(walled_program, "outer_program", return_value=""):
            self.assertRegex(self.outcome("echo X:1; echo K:C", note_on=lambda walls: score.NO_FILTER)["note"], "^midi2abc may open connections")

    def test_its_ends(self) -> None:
        self.assertIn("took too long", self.outcome("while :; do :; done", SECONDS=2)["why"])
        self.assertIn("too large", self.outcome("while :; do echo xxxxxxxxxxxxxxxxxxxxxxxxxxx; done", MOST_BYTES=100_000)["why"])
        self.assertIn("midi2abc failed on this file", self.outcome("kill -SEGV $$")["why"])
        self.assertEqual(self.outcome("exit 1")["why"], NO_TUNE)

    def test_the_end_while_a_file_is_read(self) -> None:
        """The server closes, and no process is left."""
        (self.bin / "midi2abc").write_text("#!/bin/sh\nexec sleep 1000\n")
        (self.bin / "midi2abc").chmod(0o755)
        with Server(0, test_score_pdf.SharedBookStub(), argparse.Namespace(open=False, plain_sounds=True)) as server:
            threading.Timer(1, server.server_close).start()
            self.assertIn("failed", server.midi_files.answer(sent(SCALE))["why"])
        until = time.monotonic() + trial.SECONDS
        while self.running():
            self.assertLess(time.monotonic(), until)
            time.sleep(0.01)


class Requests(served_page.Page):
    """What the server answers."""

    def test_who_may_ask(self) -> None:
        """Those with the token alone."""
        self.assertEqual(self.request("", sent(SCALE), path="/x/midi-tune")[0], 403)
        self.assertEqual(self.request("midi-tune", sent(SCALE), {"Origin": "http://example.org"})[0], 403)
        self.assertEqual(self.ask("midi-tune", {"data": "*"})["status"], 400)
        self.assertIn("lines" if READS else "why", self.ask("midi-tune", sent(SCALE)))
