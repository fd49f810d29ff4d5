"""What is shown first of a text that was pasted: in node, and a paste in a browser."""

import page_in_node
import test_page_in_browser
from browser_keys import CONTROL, END, HOME
from forked_server import ForkedServer

TOLD = "return [...document.querySelectorAll('#told li')].map((item) => item.querySelector('b').textContent)"
MENDS = "return [...document.querySelectorAll('#told .mend')].map((button) => button.textContent)"
PASTE = """
const area = document.querySelector("textarea");
area.focus();
area.dispatchEvent(new InputEvent("beforeinput", { inputType: "insertFromPaste", cancelable: true, bubbles: true }));
area.setRangeText(arguments[0], area.selectionStart, area.selectionEnd, "end");
area.dispatchEvent(new InputEvent("input", { inputType: "insertFromPaste", bubbles: true }));
"""  # what a browser does for a paste


class Scripts(page_in_node.PageScripts):
    def test_scripts(self) -> None:
        self.assert_ok("editor/page_pasted_lines.mjs", 3)


class Hinted(test_page_in_browser.Browser):
    """A server that looks for hints."""

    def begun(self, words: list[str], environment: dict[str, str], descriptors: int) -> ForkedServer:
        return super().begun([word for word in words if word != "--no-hints"], environment, descriptors)


class Pasted(Hinted):
    """Someone who pastes a text below a tune with faults."""

    opening = b"X:1\nK:C\nC -|&\n\n"

    def test_its_own_faults_come_first(self) -> None:
        """Also if they are hints, and the pasted text begins no tune. Elsewhere the faults of the line are first again."""
        self.wait(lambda: self.run_script(TOLD)[:1] == ["Line 3"])
        self.type(END, CONTROL)
        self.run_script(PASTE, "T:Pasted\nM:4/4\nL:1/4\nK:G\nGABc|\n")
        self.wait(lambda: self.run_script(TOLD)[:1] == ["Line 9, hint"])
        self.press(HOME, CONTROL)
        self.wait(lambda: self.run_script(TOLD)[:1] == ["Line 3"])


class NoTune(Hinted):
    """Someone who pastes music without a number into an empty book."""

    opening = b"\n"

    def test_a_number_is_offered_at_once(self) -> None:
        self.run_script(PASTE, "Hello\n\nT:Pasted\nL:1/4\nK:G\nGABc|\n")
        self.wait(lambda: self.run_script(MENDS) == ["Write X:1"])
        self.assertTrue(self.run_script("const { top, bottom } = document.querySelector('#told .mend').getBoundingClientRect(), list = document.querySelector('#told').getBoundingClientRect(); return top >= list.top && bottom <= list.bottom"))
        self.driver.find_element("css selector", "#told .mend").click()
        self.wait_for_lines("Hello", "", "X:1", "T:Pasted", "L:1/4", "K:G", "GABc|", "", "")
        self.wait(lambda: self.run_script(test_page_in_browser.TITLES) == [[0, "1", "Pasted"]])
