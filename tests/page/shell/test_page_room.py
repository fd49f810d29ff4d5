"""The room of the parts of the page: in a low window, between bars that are dragged, and when parts are hidden or are the whole window."""

import shutil
import unittest
from typing import Any

import test_page_in_browser
from browser_keys import CONTROL, F8

ENTER, ARROW_UP, ARROW_LEFT, HOME = "\ue007", "\ue013", "\ue012", "\ue011"
PARTS = ("sheet", "faults", "tunes", "score", "roll", "play", "told", "list")
LINES = """
const view = document.querySelector(".view").getBoundingClientRect(), main = document.querySelector("main");
const { scrollHeight, clientHeight } = document.querySelector(".scroller");
return [Math.floor((clientHeight - 8) / 21), main.scrollHeight > main.clientHeight, view.height];
"""  # how many lines the text has room for, and whether the parts scroll
REACHED = """
const one = document.getElementById(arguments[0]);
one.scrollIntoView({ block: "nearest" });
const { left, right, top, bottom, width, height } = one.getBoundingClientRect();
const main = document.querySelector("main").getBoundingClientRect();
const middle = Math.min(bottom, main.bottom) / 2 + Math.max(top, main.top) / 2;
return height >= 16 && width > 40 && one.contains(document.elementFromPoint(left + width / 2, middle));
"""
SHOWN = """
const parts = { text: "sheet", faults: "told", tunes: "tunes", score: "score", roll: "roll" };
return Object.entries(parts).filter(([, id]) => document.getElementById(id).checkVisibility()).map(([name]) => name);
"""
SIZE = "const { width, height } = document.getElementById(arguments[0]).getBoundingClientRect(); return [Math.round(width), Math.round(height)]"
SELECTED = "return [String(getSelection()), document.querySelector('textarea').selectionStart === document.querySelector('textarea').selectionEnd]"
BEFORE = "document.getElementById(arguments[0]).scrollIntoView({ block: 'nearest' })"
SCROLLS = "return ['score', 'roll'].map((id) => [document.getElementById(id).scrollTop, document.getElementById(id).scrollLeft])"
ASIDE = "return document.querySelector('.scroller').scrollLeft"
NOTES = "return document.querySelectorAll('#score svg .score-place').length"


class Room(test_page_in_browser.Browser):
    """A window over a tune with two faults."""

    opening = ("X:1\nT:The Maid\nM:4/4\nL:1/4\nK:G\n" + 6 * "GABc|dcBA|GABc|d4|\n" + "G4 -|\nG &\n").encode()

    def setUp(self) -> None:
        super().setUp()
        self.wait(lambda: self.text("count") == "2 faults")
        self.wait(lambda: "1 voice" in str(self.run_script("return document.getElementById('roll').getAttribute('aria-label')")))

    def drag(self, identifier: str, right: int, down: int) -> None:
        """Drags a bar with the mouse."""
        from selenium.webdriver.common.action_chains import ActionChains  # which is not installed everywhere

        bar = self.driver.find_element("id", identifier)
        ActionChains(self.driver, duration=0).click_and_hold(bar).move_by_offset(right // 2, down // 2).move_by_offset(right - right // 2, down - down // 2).release().perform()

    def extent(self, identifier: str) -> Any:
        """The width and the height of a part."""
        return self.run_script(SIZE, identifier)

    def resize(self, wide: int, high: int) -> None:
        """Gives the page another size, and waits till its parts have seen it."""
        self.size(wide, high)
        self.driver.execute_async_script("requestAnimationFrame(() => setTimeout(arguments[0]))")

    def view(self, identifier: str) -> None:
        """Clicks a control of the dialog of the parts."""
        self.run_script("document.getElementById('view-open').click(); document.getElementById(arguments[0]).click(); document.getElementById('view').close()", identifier)

    def test_low_windows(self) -> None:
        """The text has six lines, and all parts can be reached, also while one practises."""
        for practises in (False, True):
            for wide, high in ((683, 330), (844, 390), (390, 500), (1366, 400)):
                self.resize(wide, high)
                lines, scrolls, _ = self.run_script(LINES)
                self.assertGreaterEqual(lines, 6, (wide, high))
                self.assertTrue(scrolls, (wide, high))
                for part in PARTS:
                    self.assertTrue(self.run_script(REACHED, part), (part, wide, high, practises))
            self.driver.find_element("id", "practise").click()

    def test_usual_windows(self) -> None:
        """Nothing scrolls that need not."""
        for wide, high in ((1366, 768), (1920, 1080), (820, 1180)):
            self.resize(wide, high)
            lines, scrolls, _ = self.run_script(LINES)
            self.assertGreaterEqual(lines, 8, (wide, high))
            self.assertFalse(scrolls, (wide, high))

    def test_bars_by_mouse(self) -> None:
        """Each gives the part beside it more room, selects nothing, and keeps its place when the page is loaded again."""
        self.resize(1366, 768)
        for bar, part, right, down, at in (("split-tunes", "tunes", -120, 0, 0), ("split-faults", "faults", 0, -40, 1), ("split-music", "music", 0, -60, 1), ("split-roll", "score", 150, 0, 0)):
            before = self.extent(part)[at]
            self.drag(bar, right, down)
            self.assertAlmostEqual(self.extent(part)[at], before + abs(right + down), delta=3, msg=bar)
            self.assertEqual(self.run_script(SELECTED), ["", True])
        sizes = [self.extent(part) for part in ("tunes", "faults", "music", "score")]
        self.load()
        self.assertEqual([self.extent(part) for part in ("tunes", "faults", "music", "score")], sizes)

    def test_bars_by_keys(self) -> None:
        """Arrows move a bar by a twentieth of the window, Enter gives the usual size. A screen reader hears the size."""
        self.resize(1366, 768)
        for bar, part, key, at, window in (("split-music", "music", ARROW_UP, 1, 768), ("split-tunes", "tunes", ARROW_LEFT, 0, 1366)):
            usual = self.extent(part)[at]
            self.run_script("document.getElementById(arguments[0]).focus()", bar)
            self.press(2 * key)
            self.assertAlmostEqual(self.extent(part)[at], usual + window / 10, delta=3)
            told = self.run_script("return Number(document.getElementById(arguments[0]).ariaValueNow)", bar)
            self.assertAlmostEqual(told, 100 * self.extent(part)[at] / window, delta=1)
            self.press(ENTER)
            self.assertAlmostEqual(self.extent(part)[at], usual, delta=1)

    def test_bars_by_touch(self) -> None:
        self.resize(390, 844)
        self.run_script(BEFORE, "split-music")
        before = self.extent("music")[1]
        x, y = self.run_script("const { left, top, width, height } = document.getElementById('split-music').getBoundingClientRect(); return [left + width / 2, top + height / 2]")
        for kind, at in (("touchStart", y), ("touchMove", y - 30), ("touchMove", y - 60), ("touchEnd", None)):
            points = [] if at is None else [{"x": x, "y": at}]
            self.driver.execute_cdp_cmd("Input.dispatchTouchEvent", {"type": kind, "touchPoints": points})
        self.assertAlmostEqual(self.extent("music")[1], before + 60, delta=4)

    def test_parts(self) -> None:
        """Each can be hidden, which is kept, and each can be the whole window; a key that goes to a fault shows the text again."""
        names = ["text", "faults", "tunes", "score", "roll"]
        for wide, high in ((1366, 768), (390, 844)):
            self.resize(wide, high)
            for name in names:
                self.view(f"view-{name}")
                self.assertEqual(self.run_script(SHOWN), [one for one in names if one != name and not (name == "text" and one == "faults")])
                self.load()
                self.assertNotIn(name, self.run_script(SHOWN))
                self.view(f"view-{name}")
                self.assertEqual(self.run_script(SHOWN), names)
                self.view(f"whole-{name}")
                self.assertEqual(self.run_script(SHOWN), ["text", "faults"] if name == "text" else [name])
                self.assertEqual(self.run_script("return document.getElementById('zoom').checkVisibility()"), name == "roll" and wide > 620)
                self.assertGreater(self.extent({"text": "sheet", "faults": "told"}.get(name, name))[1], high / 2, (name, wide))
                self.run_script("document.getElementById('view-open').click()")
                self.assertEqual(self.run_script(SHOWN), names)
        self.view("whole-score")
        self.press(F8)
        self.wait(lambda: self.run_script("return document.activeElement === document.querySelector('textarea')"))
        self.assertEqual(self.run_script(SHOWN), names)

    def test_undo_by_buttons(self) -> None:
        """They undo and do again, and the text keeps the focus."""
        state = "return ['undo', 'redo'].map((id) => document.getElementById(id).disabled)"
        self.assertEqual(self.run_script(state), [True, True])
        self.type("% x\n")
        text = "return document.querySelector('textarea').value.startsWith('% x')"
        self.wait(lambda: self.run_script(state) == [False, True])
        while self.run_script(text):
            self.driver.find_element("id", "undo").click()
        self.wait(lambda: not self.run_script(state)[1])
        while not self.run_script(text):
            self.driver.find_element("id", "redo").click()
        self.assertTrue(self.run_script("return document.activeElement === document.querySelector('textarea')"))


class Tunes(test_page_in_browser.Browser):
    """A long tune and a short one, in a window of a phone."""

    opening = ("X:1\nT:Long\nL:1/4\nK:C\n" + 30 * "CDEF|GABc|cBAG|FEDC|\n" + "\nX:2\nT:Short\nL:1/4\nK:C\nCDEF|GABc|cBAG|FEDC|CDEF|GABc|cBAG|FEDC|CDEF|GABc|cBAG|FEDC|\n").encode()

    @unittest.skipUnless(shutil.which("abcm2ps"), "abcm2ps is not installed")
    def test_another_tune(self) -> None:
        """Score and roll begin at its begin."""
        self.wait(lambda: self.run_script(NOTES) == 480)
        self.run_script("document.getElementById('score').scrollTop = 900; document.getElementById('roll').scrollLeft = 900")
        self.assertGreater(self.run_script(SCROLLS)[0][0], 0)
        self.run_script("document.getElementById('tune-1').dispatchEvent(new MouseEvent('click', { bubbles: true }))")
        self.wait(lambda: self.text("tune") == "2 Short" and self.run_script(NOTES) == 48)
        self.wait(lambda: self.run_script(SCROLLS) == [[0, 0], [0, 0]])

    def test_the_text_after_playing(self) -> None:
        """What was heard last is seen from the begin of the lines, so they are not to the side."""
        self.size(390, 844)
        self.type("\ue010", CONTROL)
        self.wait(lambda: self.text("tune") == "2 Short")
        self.run_script("document.querySelector('textarea').blur(); document.querySelector('.scroller').scrollLeft = 2")
        self.wait(lambda: not self.run_script("return document.getElementById('play').disabled"))
        self.driver.find_element("id", "play").click()
        self.run_script("clock = 0.3")
        self.wait(lambda: self.run_script("return document.querySelector('.sounding .note') !== null"))
        self.wait(lambda: self.run_script(ASIDE) == 0)
