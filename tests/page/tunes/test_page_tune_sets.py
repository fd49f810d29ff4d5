"""The sets of a book: their lines, without a browser; their dialog and how they play, in a real one."""

import shutil
import unittest

import music_page
import page_in_node
from test_page_in_browser import CONTROL

TUNES = ["X:1", "T:One", "M:2/4", "L:1/4", "Q:1/4=60", "K:C", "CD|", "", "X:7", "T:Seven", "M:2/4", "L:1/4", "Q:1/4=60", "K:C", "EF|"]
ROWS = "return [...document.querySelectorAll('#sets-rows li')].map((row) => [row.querySelector('span').textContent, row.querySelector('input').value])"
DRAWN = "return [...new Set([...document.querySelectorAll('#score .score-place')].map(({ note }) => note.line))]"


class Scripts(page_in_node.PageScripts):
    def test_scripts(self) -> None:
        self.assert_ok("tunes/page_tune_sets.mjs", 3)


class Sets(music_page.MusicPage):
    """Someone who plays tunes one after another. A tune lasts two seconds."""

    def test_a_set(self) -> None:
        """It is made at the caret, the book has it, and its tunes follow each other, each as often as said, in roll and text."""
        self.open(TUNES, "1 bars")
        self.caret(6, 0)
        self.click("sets-open")
        self.click("sets-new")
        self.wait(lambda: self.run_script(ROWS) == [["1 One", "1"]])
        self.caret(16, 0)  # two lines were put before the first tune
        self.click("sets-add")
        self.wait(lambda: self.run_script(ROWS) == [["1 One", "1"], ["7 Seven", "1"]])
        self.driver.find_element("css selector", "#sets-rows input").click()
        self.press("a", CONTROL)
        self.press("2\ue004")
        self.wait_for_lines('% Set "Set 1": 1 x2, 7', "", *TUNES)
        self.click("sets-play")
        for second, keys in ((0, [60]), (1, [60, 62]), (2, [60, 62, 60]), (3, [60, 62, 60, 62]), (4, [60, 62, 60, 62, 64])):
            self.hear(second, *keys)
        self.assertEqual(self.beginnings(), [0, 1, 2, 3, 4])
        self.run_script("clock = 4.2")
        self.wait(lambda: self.text("tune") == "7 Seven")
        self.roll("tune 7")
        self.hear(5, 60, 62, 60, 62, 64, 65)
        self.run_script("clock = 7")
        self.wait(lambda: "Play" in self.text("play"))

    @unittest.skipUnless(shutil.which("abcm2ps"), "abcm2ps is not installed")
    def test_the_score(self) -> None:
        """It is that of the tune that is heard, from the first one on, wherever the caret is."""
        self.open(['% Set "Two": 1, 7', "", *TUNES], "1 bars")
        self.caret(16, 0)
        self.wait(lambda: self.run_script(DRAWN) == [16])
        self.click("sets-open")
        self.click("sets-play")
        self.wait(lambda: self.run_script(DRAWN) == [8])
        self.run_script("clock = 2.2")
        self.wait(lambda: self.run_script(DRAWN) == [16])

    def test_a_set_of_another_day(self) -> None:
        """A tune that is not in the book is named, and left out."""
        self.open(['% Set "Late": 9, 7', "", *TUNES], "1 bars")
        self.click("sets-open")
        self.wait(lambda: self.run_script(ROWS) == [["9 no such tune", "1"], ["7 Seven", "1"]])
        self.click("sets-play")
        self.hear(0, 64)
        self.assertEqual(self.text("tune"), "7 Seven")
