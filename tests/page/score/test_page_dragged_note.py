"""Notes of the score that are dragged, or selected in the text: without a browser, and in a real one with `abcm2ps`."""

import shutil
import unittest

import page_in_node
import test_page_in_browser
from test_page_in_browser import AREA, CONTROL

DRAG = """
const place = [...document.querySelectorAll('#score .score-place')].find(({ note }) => note.line === arguments[0] && note.column === arguments[1]);
const { left, top, width, height } = place.getBoundingClientRect(), x = left + width / 2, y = top + height / 2, each = 3 * place.getScreenCTM().d;
const view = document.getElementById('score'), at = (name, more, up) => place.dispatchEvent(new PointerEvent(name, { bubbles: true, button: 0, pointerType: 'mouse', clientX: x, clientY: y - up * each - Math.sign(up), ...more }));
view.setPointerCapture = () => {};
at('pointerdown', {}, 0);
at('pointermove', {}, arguments[2]);
at('pointerup', {}, arguments[2]);
place.dispatchEvent(new MouseEvent('click', { bubbles: true }));
"""
DRAWN = """
const drawing = document.querySelector('#score svg'), isNew = drawing && !drawing.wasSeen;
const isWhole = document.querySelectorAll('#score .score-place').length === 4 && document.getElementById('score').ariaBusy === 'false';
if (isNew && isWhole) drawing.wasSeen = true;
return isNew && isWhole;
"""  # whether a score is there that was not there the last time
SELECTED = "return [...document.querySelectorAll('#score .score-selected')].map(({ note }) => note.column).sort((a, b) => a - b)"


class Scripts(page_in_node.PageScripts):
    def test_scripts(self) -> None:
        self.assert_ok("score/page_dragged_note.mjs", 5)


@unittest.skipUnless(shutil.which("abcm2ps"), "abcm2ps is not installed")
class Dragging(test_page_in_browser.Browser):
    """Someone who changes a tune in its score."""

    opening = b"X:1\nL:1/4\nK:D\nDF^GA|\n"

    def drawn(self) -> None:
        """Waits till a score is there that was not there the last time."""
        self.wait(lambda: self.run_script(DRAWN))

    def test_a_note(self) -> None:
        """It gets the letter where it is dropped, in one step. The mouse that only clicks changes nothing."""
        self.drawn()
        self.run_script(DRAG, 3, 1, 2)
        self.wait_for_lines("X:1", "L:1/4", "K:D", "DA^GA|", "")
        self.drawn()
        self.run_script(DRAG, 3, 2, -1)
        self.wait_for_lines("X:1", "L:1/4", "K:D", "DAFA|", "")
        self.drawn()
        self.run_script(DRAG, 3, 0, 0)
        self.type("zz", CONTROL)
        self.wait_for_lines("X:1", "L:1/4", "K:D", "DF^GA|", "")

    def test_a_note_of_a_chord(self) -> None:
        """The head at which the mouse points moves, and the others stay."""
        self.edit(3, 4, "[DFA]2GAB|")
        self.drawn()
        for head, wanted in ((1, "[DGA]2GAB|"), (2, "[DGB]2GAB|"), (0, "[EGB]2GAB|")):
            self.run_script(DRAG.replace("y = top + height / 2", f"y = place.getScreenCTM().f + place.getScreenCTM().d * place.note.heads[{head}]"), 3, 0, 1)
            self.wait_for_lines("X:1", "L:1/4", "K:D", wanted, "")
            self.assertEqual(self.run_script("return document.querySelectorAll('.score-dragged').length"), 0)
            self.drawn()

    def test_a_selection(self) -> None:
        """Its notes are marked in the score."""
        self.drawn()
        self.run_script(f"{AREA}.focus(); {AREA}.setSelectionRange(15, 18)")
        self.wait(lambda: self.run_script(SELECTED) == [1, 2])
        self.run_script(f"{AREA}.setSelectionRange(15, 15)")
        self.wait(lambda: self.run_script(SELECTED) == [])
