"""Notes of a MIDI keyboard: in node, by what the written text plays, and in a real browser with a stand-in for the keyboard."""

import json
import random
import sys
from pathlib import Path
from typing import Any, Optional

import page_in_node
import test_page_in_browser
import trial
from test_page_in_browser import AREA, CONTROL

sys.path.append(str(Path(__file__).resolve().parents[1] / "tunes"))
from test_page_transpose import TRICKY, PlayedTexts, random_music  # noqa: E402

PLACES, TUNES = 12, 30
KEYBOARD = """
const inputs = new Map([["a", { name: "Stand-in", state: "connected", onmidimessage: null }]]);
window.access = { inputs, onstatechange: null };
navigator.requestMIDIAccess = async () => window.access;
"""
REFUSING = "navigator.requestMIDIAccess = async () => { throw new DOMException('no', 'NotAllowedError'); }"
NONE = "navigator.requestMIDIAccess = undefined"
PRESS = "for (const key of arguments) window.access.inputs.get('a').onmidimessage({ data: Uint8Array.of(0x90, key, 80) })"


class Scripts(page_in_node.PageScripts):
    def test_scripts(self) -> None:
        self.assert_ok("music/page_keyboard.mjs", 14)


class Sounding(PlayedTexts):
    """What is written at a place sounds as it was pressed."""

    def setUp(self) -> None:
        super().setUp()
        self.chance = random.Random(trial.seed)

    def asked(self, lines: list[str]) -> list[dict[str, Any]]:
        """Keys at some places of a text, which has one tune."""
        first = next(n for n, line in enumerate(lines) if line.startswith("X:"))
        self.load(lines)
        rows = self.rows(lines)
        places = [(n, self.chance.randint(0, len(line))) for n, line in enumerate(lines) if n > first and line for _ in range(3)]
        found = []
        for line, column in self.chance.sample(places, min(PLACES, len(places))):
            keys = self.chance.sample(range(45, 90), self.chance.choice([1, 1, 2, 3]))
            found.append({"header": lines[:first], "lines": lines[first:], "rows": rows[first:], "line": line - first, "column": column, "keys": keys, "first": first})
        return found

    def assert_sounds(self, texts: list[list[str]]) -> int:
        """The keys that were pressed sound at their place. Returns in how many places notes were written."""
        asked = [(lines, one) for lines in texts for one in self.asked(lines)]
        answers = [json.loads(row) for row in self.node("music/page_keyboard.mjs", json.dumps([one for _, one in asked]), ["--write"])]
        for (lines, one), answer in zip(asked, answers):
            if answer is None:
                continue
            line = one["first"] + one["line"]
            changed = [*lines[:line], answer["put"], *lines[line + 1 :]]
            with self.subTest(lines=lines, put=answer["put"], keys=one["keys"], line=line):
                self.assertEqual(self.keys_at(changed, line, answer["column"], answer["put"], lines[line]), sorted(one["keys"]))
        return len([answer for answer in answers if answer])

    def keys_at(self, lines: list[str], line: int, column: int, put: str, old: str) -> list[Optional[int]]:
        """What sounds in the columns that a line has more than before."""
        end = column + len(put) - len(old)
        (tracks,) = self.load(lines).values()
        entries = [entry for track in tracks or () for entry in track if entry.line == line + 1 and entry.key is not None]
        return sorted({entry.key for entry in entries if column <= entry.from_column - 1 < end})

    def test_tricky_tunes(self) -> None:
        texts = [text.split("\n") for name, text in TRICKY.items() if name != "parts"]  # a part that comes again is not played
        self.assertGreater(self.assert_sounds(texts), 40)

    def test_random_tunes(self) -> None:
        texts = [line_tune for line_tune in (random_music(self.chance, 1)[:-1] for _ in range(TUNES))]
        self.assertGreater(self.assert_sounds(texts), TUNES)


class Playing(test_page_in_browser.Browser):
    """Someone who plays on a stand-in for a keyboard."""

    opening = b"X:1\nT:Reel\nL:1/4\nK:D\nD\n\nX:2\nK:Eb clef=treble-8\n"

    def switch(self, machine: str = KEYBOARD) -> None:
        """Presses the switch, in a browser with a machine."""
        self.run_script(machine)
        self.driver.find_element("id", "keyboard").click()

    def play(self, *keys: int) -> None:
        """Presses keys together."""
        self.run_script(PRESS, *keys)

    def caret(self, line: int, column: int) -> None:
        self.run_script(f"const area = {AREA}; const at = area.value.split('\\n').slice(0, arguments[0]).join('\\n').length + (arguments[0] ? 1 : 0) + arguments[1]; area.focus(); area.setSelectionRange(at, at)", line, column)

    def test_notes(self) -> None:
        """Each is a step, in the key of the tune and with the accidentals of the bar; keys together are a chord."""
        begin = self.opening.decode().split("\n")
        self.switch()
        self.wait(lambda: self.text("status") == "What is played on Stand-in is written at the caret.")
        self.caret(4, 1)
        wanted = "D"
        for keys, note in (((66,), "F"), ((65,), "=F"), ((66, 69, 62), "[D^FA]"), ((78,), "f")):
            self.play(*keys)
            wanted += note
            self.wait_for_lines(*begin[:4], wanted, *begin[5:])
        self.press("|")
        self.run_script("document.getElementById('keyboard-length').value = '3/2'")
        self.play(66)
        self.wait_for_lines(*begin[:4], f"{wanted}|F3/2", *begin[5:])
        for left in (f"{wanted}|", wanted):
            self.press("z", CONTROL)
            self.wait_for_lines(*begin[:4], left, *begin[5:])

    def test_where_there_is_no_place(self) -> None:
        """A sentence says so; below a K: there is one, with the clef of that tune."""
        begin = self.opening.decode().split("\n")
        self.switch()
        self.caret(1, 3)
        self.play(60)
        self.wait(lambda: self.text("status").startswith("Not written: put the caret among the notes"))
        self.caret(5, 0)
        self.play(60)
        self.wait_for_lines(*begin[:5], "=C", *begin[6:])
        self.press("z", CONTROL)
        self.caret(8, 0)
        self.play(63, 67)
        self.wait_for_lines(*begin[:8], "[eg]")

    def test_the_switch(self) -> None:
        """It shows whether the keyboard is heard. Pressed again it hears no more."""
        seen = "const button = document.getElementById('keyboard'); return [button.ariaPressed, document.getElementById('keyboard-length-label').hidden]"
        self.assertEqual(self.run_script(seen), ["false", True])
        self.switch()
        self.wait(lambda: self.run_script(seen) == ["true", False])
        self.driver.find_element("id", "keyboard").click()
        self.wait(lambda: self.run_script(seen) == ["false", True])
        self.assertIsNone(self.run_script("return window.access.inputs.get('a').onmidimessage"))

    def test_a_browser_that_has_none_or_refuses(self) -> None:
        for machine, words in ((NONE, "This browser has no Web MIDI."), (REFUSING, "The browser does not let this page hear a MIDI keyboard.")):
            self.switch(machine)
            self.wait(lambda: self.text("status").startswith(words))
            self.assertEqual(self.run_script("return document.getElementById('keyboard').ariaPressed"), "false")
        self.switch(KEYBOARD.replace('["a", {', '["b", {').replace('state: "connected"', 'state: "disconnected"'))
        self.wait(lambda: self.text("status") == "No MIDI keyboard is connected. Connect one: it is heard at once.")
