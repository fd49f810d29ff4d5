"""The words that completion offers, in the language server and in the page."""

import json
import re
import unittest
from typing import Optional

import page_in_node
import test_page_in_browser
import trial
from browser_keys import CONTROL, DOWN, END, ENTER, ESCAPE, LEFT, SHIFT, TAB
from abc2midi_live_clients.language_server.completion import Situation, completions

TABLE = json.loads((trial.PACKAGES / "abc2midi_live_clients/common/completion.json").read_text("utf-8"))
FIFTHS = "FCGDAEB"  # each a fifth above the one before
MODES = {"Lydian": "lyd", "major": "", "Mixolydian": "mix", "Dorian": "dor", "minor": "m", "Phrygian": "phr", "Locrian": "loc"}  # each a sharp less


class Keys(unittest.TestCase):
    """The keys of the table."""

    def test_all_keys(self) -> None:
        """Each has the mode and the sharps that its words have, and all keys of at most seven sharps or flats are there."""
        found = {}
        for place, tonic in enumerate(letter + sign for sign in ("b", "", "#") for letter in FIFTHS):
            for less, (name, mode) in enumerate(MODES.items()):
                sharps = place - len(FIFTHS) - less  # of F in Lydian none
                if abs(sharps) <= 7:
                    counted = f"{abs(sharps)} {'sharp' if sharps > 0 else 'flat'}{'s' if abs(sharps) > 1 else ''}" if sharps else "no sharps or flats"
                    found[tonic + mode] = f"{name}, {counted}"
        self.assertEqual(TABLE["values"]["K"], found)


class Programs(unittest.TestCase):
    """The programs of General MIDI."""

    def test_the_page_of_instruments(self) -> None:
        """It has all of the table, with their numbers."""
        names = [name for family in TABLE["instruments"].values() for name in family]
        rows = [(f"| {family} |", f" {number} {name}") for family, those in TABLE["instruments"].items() for name in those for number in (names.index(name),)]
        text = (trial.TOP / "docs/instruments.md").read_text("utf-8").split("\n")
        found = [(line[: line.index("|", 1) + 1], cell) for line in text if re.match(r"\| .* \| \d", line) for cell in re.split(",(?= \\d)", line[line.index("|", 1) + 1 : -2])]
        self.assertEqual((found, len(found)), (rows, 128))


class Scripts(page_in_node.PageScripts):
    def test_scripts(self) -> None:
        self.assert_ok("editor/page_completion.mjs", 6, str(trial.PACKAGES / "abc2midi_live_clients/common/completion.json"))

    def test_as_in_editors(self) -> None:
        """The page offers what the language server offers, but for decorations and the properties of a key."""
        asked: list[tuple[str, bool, Optional[int], list[str]]]
        asked = [("", True, 3, []), ("K", True, None, []), ("K:", False, None, []), ("c [M:", False, None, []), ("V: ", False, None, ["a", "b"]), ("%%M", False, None, []), ("w", False, None, []), ("C", False, None, []), ("T:K", True, None, [])]
        lines = self.node("editor/page_completion.mjs", json.dumps(asked), (str(trial.PACKAGES / "abc2midi_live_clients/common/completion.json"), "answer"))
        places = [Situation(before, header, number, voices) for before, header, number, voices in asked]
        wanted = [[[item.text, item.meaning, item.start] for item in completions(place) if item.text not in TABLE["properties"]] for place in places]
        self.assertEqual(json.loads(lines[0]), wanted)


class Written(test_page_in_browser.Browser):
    """Someone who writes with the help of the page."""

    opening = b"X:1\nT:Air\nK:C\nCEG|\n"
    options = "return [...document.querySelectorAll('#completion:not([hidden]) b')].map((one) => one.textContent)"

    def offered(self, *wanted: str) -> None:
        """Waits till these words are offered first."""
        self.wait(lambda: self.run_script(self.options)[: len(wanted)] == list(wanted))

    def test_a_key(self) -> None:
        """Tab takes the first word, an arrow another one; Enter alone begins a line; one step takes a word back."""
        self.type(DOWN + DOWN)
        self.press(END, SHIFT)
        self.press("K")
        self.offered("K:")
        self.press(TAB)
        self.offered("C", "Am")
        self.press("g")
        self.offered("Gmix")
        self.press(DOWN + DOWN + ENTER)
        self.wait_for_lines("X:1", "T:Air", "K:G", "CEG|", "")
        self.press(ENTER)
        self.wait_for_lines("X:1", "T:Air", "K:G", "", "CEG|", "")
        self.assertEqual(self.run_script(self.options), [])
        self.press("zz", CONTROL)
        self.wait_for_lines("X:1", "T:Air", "K:g", "CEG|", "")

    def test_a_mark(self) -> None:
        """Escape closes the list, and leaves the text at the second time alone. Notes offer nothing."""
        self.type(3 * DOWN + "C !tr")
        self.offered("!trill!")
        self.press(ESCAPE)
        self.wait(lambda: self.run_script(self.options) == [])
        self.assertEqual(self.run_script("return document.activeElement.localName"), "textarea")
        self.press("ill! C")
        self.assertEqual(self.run_script(self.options), [])
        self.wait_for_lines("X:1", "T:Air", "K:C", "C !trill! CCEG|", "")

    def test_a_pair(self) -> None:
        """The pair of the bracket at the caret is marked."""
        self.type(3 * DOWN + "[CE]2")
        marked = "return [...document.querySelectorAll('.brackets span')].map((one) => one.textContent).join('')"
        self.assertEqual(self.run_script(marked), "")
        self.press(LEFT)
        self.wait(lambda: self.run_script(marked) == "[]")

    def test_signs(self) -> None:
        """A click writes a sign and sounds it; the caret is after it when the palette is closed."""
        self.type(3 * DOWN + END)
        self.driver.find_element("id", "signs-open").click()
        self.run_script("[...document.querySelectorAll('#signs-list button')].find((one) => one.textContent.startsWith('[CEG]')).click()")
        self.wait_for_lines("X:1", "T:Air", "K:C", "CEG| [CEG]", "")
        self.assertEqual(self.run_script("return played.map(([_, key]) => key)"), [60, 64, 67])
        self.press(ESCAPE)
        self.press("2|")
        self.wait_for_lines("X:1", "T:Air", "K:C", "CEG| [CEG]2|", "")
        self.press("z", CONTROL)

    def test_the_tutorial(self) -> None:
        """It is one click away. Its examples have no fault when they are tunes."""
        self.driver.get(self.run_script("return document.getElementById('tutorial').href"))
        examples = self.run_script("return [...document.querySelectorAll('pre')].map((one) => one.textContent)")
        self.assertEqual(len(examples), 10)
        for number, example in enumerate(examples, 1):
            lines = example.split("\n")
            head = [] if lines[0].startswith("X:") else [f"X:{number}", *([] if lines[0].startswith("K:") else ["K:C"])]
            self.edit(0, len(self.book()["lines"]), *head, *lines)
            self.assertEqual(self.book()["faults"], [], example)
