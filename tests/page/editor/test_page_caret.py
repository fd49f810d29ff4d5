"""The caret and the selection in a long book, by fingers and by the mouse, and letters that are composed, in a real browser."""

import time

import test_page_in_browser
from browser_keys import CONTROL, DELETE
from test_page_in_browser import LINES

SELECT = """
const [line, column] = arguments, area = document.querySelector("textarea"), lines = area.value.split("\\n");
const at = lines.slice(0, line).reduce((sum, text) => sum + text.length + 1, 0) + column;
area.focus();
area.setSelectionRange(at, at);
"""  # of a line at the begin of the book
COMPOSING_KEY = """
const key = { key: arguments[0], isComposing: true, ctrlKey: arguments[0] === "z", bubbles: true, cancelable: true };
document.querySelector("textarea").dispatchEvent(new KeyboardEvent("keydown", key));
"""


class Caret(test_page_in_browser.Browser):
    """Typing where the caret is, wherever the book is scrolled."""

    is_opened = False

    def test_a_composed_word_is_undone_at_once(self) -> None:
        """Keys of the composition are not for the page. One that is given up leaves nothing to undo."""
        self.edit(0, 1, "X:1", "K:C", "T:", "C")
        self.load()
        self.run_script(SELECT, 2, 2)
        for words in ("に", "にほ", "にほn", "にほん"):
            selected = {"text": words, "selectionStart": len(words), "selectionEnd": len(words)}
            self.driver.execute_cdp_cmd("Input.imeSetComposition", selected)
            self.settled(f"X:1\nK:C\nT:{words}\nC")
            time.sleep(0.9)  # keys that are farther apart are steps of their own
        for key in ("z", "Escape", "PageDown"):
            self.run_script(COMPOSING_KEY, key)
        self.assertEqual(self.run_script("return [document.activeElement.tagName, document.getElementById('place').textContent]"), ["TEXTAREA", "Line 3, column 6"])
        self.driver.execute_cdp_cmd("Input.insertText", {"text": "日本"})
        self.settled("X:1\nK:C\nT:日本\nC")
        self.driver.execute_cdp_cmd("Input.imeSetComposition", {"text": "x", "selectionStart": 1, "selectionEnd": 1})
        self.settled("X:1\nK:C\nT:日本x\nC")
        self.driver.execute_cdp_cmd("Input.imeSetComposition", {"text": "", "selectionStart": 0, "selectionEnd": 0})
        self.settled("X:1\nK:C\nT:日本\nC")
        self.press("z", CONTROL)
        self.settled("X:1\nK:C\nT:\nC")
        self.press("y", CONTROL)
        self.settled("X:1\nK:C\nT:日本\nC")

    def test_a_finger_that_scrolls_leaves_the_caret(self) -> None:
        """The next letter goes to the caret. A tap puts the caret where it is."""
        self.long_book(10)
        self.run_script("Object.assign(window, { taps: 0 }); document.querySelector('textarea').addEventListener('mousedown', () => (taps += 1))")
        area = self.driver.find_element("css selector", ".scroller").rect
        middle = {"x": area["x"] + 200, "y": area["y"] + area["height"] / 2}
        self.fingers()
        self.wait(lambda: self.swipe(middle))
        self.assertEqual(self.run_script("return [document.getElementById('place').textContent, taps]"), ["Line 10, column 3", 0])
        self.press("z")
        self.wait(lambda: self.lines_of_book()[9] == "L9z")
        self.wait(lambda: self.swipe(middle))
        self.wait(lambda: self.tap(middle) > 200)

    def test_a_finger_that_stays_selects_a_word(self) -> None:
        """Also where the caret is not: what is typed then replaces that word."""
        self.long_book(10)
        area = self.driver.find_element("css selector", ".scroller").rect
        middle = {"x": area["x"] + 200, "y": area["y"] + area["height"] / 2}
        self.fingers()
        self.wait(lambda: self.swipe(middle))
        left = {**middle, "x": self.run_script("return document.querySelector('textarea').getBoundingClientRect().left") + 12}
        number = int(self.wait(lambda: self.stay(left))[1:])
        self.press("z")
        self.wait(lambda: self.lines_of_book()[number] == "z")
        self.assertEqual([line for n, line in enumerate(self.lines_of_book()) if line != f"L{n}"], ["z"])

    def test_shift_and_a_click_after_scrolling_select_from_the_caret(self) -> None:
        self.long_book(10)
        self.run_script("document.querySelector('.scroller').scrollTop = 6000")
        self.wait(lambda: self.run_script(LINES)[0] > 100)
        area = self.driver.find_element("css selector", ".scroller").rect
        point = {"x": area["x"] + 400, "y": area["y"] + area["height"] / 2, "button": "left", "clickCount": 1, "modifiers": 8}
        for kind in ("mousePressed", "mouseReleased"):
            self.driver.execute_cdp_cmd("Input.dispatchMouseEvent", {"type": kind, **point})
        line = int(self.wait(lambda: self.run_script("return (/Line ([2-9]\\d\\d)/.exec(document.getElementById('place').textContent) ?? [])[1]")))
        self.press(DELETE)
        self.wait(lambda: len(self.lines_of_book()) == 1000 - (line - 10))
        self.assertEqual(self.lines_of_book()[8:11], ["L8", "L9", f"L{line}"])

    def swipe(self, middle: dict[str, float]) -> bool:
        """Scrolls the text with a finger once. Returns whether it is far down by now."""
        self.touch("touchStart", middle)
        for step in range(1, 6):
            self.touch("touchMove", {**middle, "y": middle["y"] - 40 * step})
        self.touch("touchEnd")
        return bool(self.run_script("return document.querySelector('.scroller').scrollTop") > 4000)

    def tap(self, middle: dict[str, float]) -> int:
        """Taps into the text once, and returns the line of the caret after it. No finger that stops a view which still moves taps, and
        none that stays for half a second, as on a busy machine: who calls this taps again."""
        self.touch("touchStart", middle)
        self.touch("touchEnd")
        time.sleep(0.1)
        return int(self.run_script("return Number(/Line (\\d+)/.exec(document.getElementById('place').textContent)[1])"))

    def stay(self, at: dict[str, float]) -> str:
        """Touches a word for more than a second. Returns what is selected then."""
        self.touch("touchStart", at)
        time.sleep(1.2)
        self.touch("touchEnd")
        return str(self.run_script("const { value, selectionStart, selectionEnd } = document.querySelector('textarea'); return value.slice(selectionStart, selectionEnd)"))

    def fingers(self) -> None:
        """Lets the browser hear fingers."""
        self.driver.execute_cdp_cmd("Emulation.setTouchEmulationEnabled", {"enabled": True})
        self.addCleanup(self.driver.execute_cdp_cmd, "Emulation.setTouchEmulationEnabled", {"enabled": False})

    def touch(self, kind: str, *points: dict[str, float]) -> None:
        self.driver.execute_cdp_cmd("Input.dispatchTouchEvent", {"type": kind, "touchPoints": list(points)})

    def long_book(self, line: int) -> None:
        """Opens a book of a thousand lines, with the caret at the end of a line."""
        self.edit(0, 1, *[f"L{number}" for number in range(1000)])
        self.load()
        self.wait(lambda: len(self.lines_of_book()) == 1000)
        self.run_script(SELECT, line - 1, 2)
        self.wait(lambda: self.run_script("return document.getElementById('place').textContent") == f"Line {line}, column 3")

    def lines_of_book(self) -> list[str]:
        """The lines that the server has."""
        return list(self.book()["lines"])
