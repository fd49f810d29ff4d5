"""A selection of more lines than a browser can lay out at once: in node, and by keys in a real browser."""

import page_in_node
import test_page_in_browser
from browser_keys import BACKSPACE, CONTROL, LEFT, SHIFT, UP
from test_page_in_browser import AREA

MANY = [f"X:{line}" if line % 5 == 0 else f"GABc dedB|{line}" for line in range(3000)]
COPY = f"""
const event = new ClipboardEvent(arguments[0], {{ clipboardData: new DataTransfer(), bubbles: true, cancelable: true }});
{AREA}.dispatchEvent(event);
return event.clipboardData.getData("text/plain");
"""


class Scripts(page_in_node.PageScripts):
    def test_scripts(self) -> None:
        self.assert_ok("editor/page_long_selection.mjs", 7)


class Selected(test_page_in_browser.Browser):
    """A book of which all is selected."""

    opening = "\n".join(MANY).encode()

    def setUp(self) -> None:
        super().setUp()
        self.type("a", CONTROL)
        self.wait(lambda: self.text("place").startswith("Line 3000,"))

    def test_the_browser_lays_out_the_lines_that_are_seen(self) -> None:
        """It took seconds for 100,000."""
        lines, selected, letters = self.run_script(f"const area = {AREA}; return [area.value.split('\\n').length, area.selectionEnd - area.selectionStart, area.value.length]")
        self.assertLess(lines, 300)
        self.assertEqual(selected, letters)
        self.assertEqual(self.run_script(COPY, "copy"), "\n".join(MANY))

    def test_keys_replace_all_and_undo_brings_all_back(self) -> None:
        self.press("hi")
        self.settled("hi")
        self.undo(2)
        self.press(BACKSPACE)
        self.settled("")
        self.undo(1)
        self.assertEqual(self.run_script(COPY, "cut"), "\n".join(MANY))
        self.settled("")
        self.undo(1)

    def test_a_composed_word_replaces_all_as_one_step(self) -> None:
        for words in ("に", "にほ"):
            self.driver.execute_cdp_cmd("Input.imeSetComposition", {"text": words, "selectionStart": len(words), "selectionEnd": len(words)})
        self.driver.execute_cdp_cmd("Input.insertText", {"text": "日本"})
        self.settled("日本")
        self.press("z", CONTROL)
        self.settled("\n".join(MANY))

    def test_arrows_move_the_end_or_end_it(self) -> None:
        self.press(UP, SHIFT)
        self.wait(lambda: self.text("place").startswith("Line 2999,"))
        self.press("x")
        self.wait(lambda: len(self.book()["lines"]) == 2)
        self.assertEqual(self.book()["lines"][1], MANY[-1])
        self.undo(1)
        self.press(LEFT)
        self.wait(lambda: self.text("place") == "Line 1, column 1")
        self.press("y")
        self.wait(lambda: self.book()["lines"][0] == "yX:0")

    def undo(self, steps: int) -> None:
        """Undoes steps, after which the text is as it was. All of it is selected again."""
        for _ in range(steps):
            self.press("z", CONTROL)
        self.settled("\n".join(MANY))
