"""What the page says when there is nothing or something wrong, in a real browser."""

from functools import partial

import test_page_in_browser
from browser_keys import BACKSPACE, CONTROL, DOWN, END, F8, HOME

STARTS = "return !document.getElementById('starter').hidden"
TOLD = """
return [...document.querySelectorAll("#told li")].map((item) => [...item.querySelector("button").children].map((part) => [part.tagName, part.textContent]));
"""
DOTS = """
return [...document.querySelectorAll("[role=option]")].map((row) => [row.firstChild.textContent, row.classList.contains("faulty"), row.ariaDescription]);
"""
PLACE = "return document.getElementById('place').textContent"
IN_THE_ROLL = """
const names = 34; // pixels at the left of the roll, which has the names of the keys there
const box = (identifier) => document.getElementById(identifier).getBoundingClientRect();
const [words, roll] = [box("empty"), box("roll")];
return words.top >= roll.top && words.bottom <= roll.bottom && words.left >= roll.left + names && words.right <= roll.right;
"""


class Empty(test_page_in_browser.Browser):
    """Empty books and rolls, and the first tune."""

    def says(self, words: str) -> None:
        """Waits till the place of the roll says this."""
        self.wait(lambda: self.text("empty") == words)

    def test_an_empty_book_offers_a_tune(self) -> None:
        """It comes by an edit that can be undone, and sounds; with some text there is no offer."""
        self.wait(lambda: self.run_script(STARTS))
        self.says("The book is empty. A tune begins with a line X:1.")
        self.driver.find_element("css selector", "#starter button").click()
        self.roll("Piano roll of tune 1", "from G4 to D5")
        self.assertEqual((self.text("empty"), self.text("count"), self.run_script(STARTS)), ("", "No faults", False))
        self.run_script("document.execCommand('insertText', false, 'The Kesh')")
        self.wait(lambda: self.book()["lines"][:2] == ["X:1", "T:The Kesh"])
        self.assertEqual(self.book()["faults"], [])
        self.press("z", CONTROL)
        self.press("z", CONTROL)
        self.settled("")
        self.wait(lambda: self.run_script(STARTS))
        self.type("X")
        self.wait(lambda: not self.run_script(STARTS))

    def test_an_empty_book_takes_letters_at_once(self) -> None:
        """Whoever opens it needs no click and no Tab before the first letter."""
        self.wait(lambda: self.run_script(STARTS))
        self.press("X:1")
        self.settled("X:1")

    @test_page_in_browser.opens_the_page
    def test_a_new_book_says_that_there_is_no_file_yet(self) -> None:
        """Until the first save makes it."""
        says = "return document.querySelector('#starter p').textContent"
        self.finish()
        self.path.unlink()
        self.start(str(self.path))
        self.load()
        self.wait(lambda: self.run_script(says) == "There is no file book.abc yet. The first save makes it.")
        self.press("s", CONTROL)
        self.wait(lambda: self.run_script(says) == "The book is empty.")
        self.assertEqual(self.path.read_bytes(), b"")

    def test_an_empty_roll_says_why(self) -> None:
        self.put("Some words")
        self.says("This text has no tune. A tune begins with a line X: and its number, as X:1.")
        self.put("\n\nX:4\nK:C\n")
        self.says("Tune 4 has no notes yet.")
        self.put("C")
        self.says("")
        self.put("\n\nX:4\nK:D\nD")
        self.says("Number 4 is used at line 3; this tune has no file.")
        self.press(HOME, CONTROL)
        self.says("The caret is before the first tune, which begins at line 3.")
        self.press(END, CONTROL)
        self.put("\n\nX:5\nM:4/4\nK:C\n" + "Z1000|" * 140)
        self.says("This tune is too long; it has no file.")
        self.put("\n\nX:none\nK:C\n")
        self.says("This tune has no notes yet, and its number cannot be read. Write it as X:1.")
        self.put("C\n\nX:\nK:C\nC")
        self.wait(lambda: self.text("empty").startswith("This tune has no number, as the one at line "))

    def test_the_words_are_in_the_roll(self) -> None:
        """So they cover neither what one practises with nor the score nor the names of keys, in a window of any width."""
        self.type("X:1\nK:C\n")
        self.says("Tune 1 has no notes yet.")
        self.run_script("document.getElementById('practise').click()")
        for wide, high in ((1280, 900), (768, 1024), (390, 844)):
            self.size(wide, high)
            self.wait(lambda: self.run_script(IN_THE_ROLL))

    @test_page_in_browser.opens_the_page
    def test_the_first_tune_is_selected(self) -> None:
        self.edit(0, 1, "% a header", "I:linebreak $", "", "X:3", "T:First", "K:C", "CEG", "", "X:5", "K:C", "C")
        self.load()
        self.wait(lambda: self.run_script("return document.querySelector('[aria-selected=true]')?.textContent") == "3First")
        self.roll("Piano roll of tune 3")
        self.wait(lambda: self.run_script(PLACE) == "Line 4, column 1")
        self.assertEqual(self.run_script("return document.querySelector('.scroller').scrollTop"), 0)


class FaultList(test_page_in_browser.Browser):
    """Faults below the text, in the list of the tunes, and the line at the bottom."""

    def test_place_sign_problem_and_remedy(self) -> None:
        """In this order; equal ones are one, with their count."""
        self.type("X:1\nK:C\nC - D -\nE - &")
        problem, remedy = "This tie is not directly after a note or chord. It has no effect.", "Write it after the length, with nothing between, as in C2-C or C2-|C."
        self.wait(lambda: self.text("count") == "4 faults")
        tie = [["B", "Line 4"], ["CODE", "-"], ["SPAN", problem], ["SPAN", remedy], ["SMALL", " 3 times"]]
        self.wait(lambda: self.run_script(TOLD)[0] == tie)
        told = self.run_script(TOLD)
        self.assertEqual((len(told), told[1][:3]), (2, [["B", "Line 4"], ["CODE", "&"], ["SPAN", "This sign means nothing here, and is skipped."]]))
        self.run_script("document.querySelector('#told li:nth-child(2) button').click()")
        self.wait(lambda: self.run_script(PLACE) == "Line 4, column 5")
        self.press("z", CONTROL)

    def test_lines_that_move(self) -> None:
        """A fault of the list is where its line is now."""
        self.type("X:1\nK:C\nC -")
        self.wait(lambda: self.text("count") == "1 fault")
        self.edit(0, 0, "%", "%")
        self.wait(lambda: self.run_script(TOLD)[0][0] == ["B", "Line 5"])
        self.run_script("document.querySelector('#told button').click()")
        self.wait(lambda: self.run_script(PLACE) == "Line 5, column 3")

    def test_a_click_mends_a_fault(self) -> None:
        """In a step of its own, after which the text has the focus."""
        self.type('X:1\nK:C\n"Em C')
        self.wait(lambda: self.text("count") == "1 fault")
        button = self.driver.find_element("css selector", "#told .mend")
        self.assertEqual(button.text, 'Write "Em"')
        button.click()
        self.settled('X:1\nK:C\n"Em" C')
        self.wait(lambda: self.text("count") == "No faults")
        self.press("D")
        self.settled('X:1\nK:C\n"Em" CD')
        self.press("z", CONTROL)
        self.press("z", CONTROL)
        self.settled('X:1\nK:C\n"Em C')

    def test_tunes_with_faults_have_a_dot(self) -> None:
        self.type("X:1\nK:C\nC -\n\nX:2\nK:C\nC\n\nX:3\nK:C\n& &")
        self.wait(lambda: self.run_script(DOTS) == [["1", True, "1 fault"], ["2", False, ""], ["3", True, "2 faults"]])
        self.press(3 * BACKSPACE)
        self.wait(lambda: self.run_script(DOTS)[2] == ["3", False, ""])

    def test_the_count_goes_to_the_next_fault(self) -> None:
        self.assertTrue(self.run_script("return document.getElementById('count').disabled"))
        self.edit(0, 1, "X:1", "K:C", "C - C", "", "X:2", "K:C", "C &")
        self.load()
        self.wait(lambda: self.text("count") == "2 faults")
        for place in ("Line 3, column 3", "Line 7, column 3", "Line 3, column 3"):
            self.driver.find_element("id", "count").click()
            self.wait(partial(self.is_at, place))
        self.press(F8)
        self.wait(lambda: self.run_script(PLACE) == "Line 7, column 3")

    def is_at(self, place: str) -> bool:
        """Whether the page says that the caret is at this place."""
        return bool(self.run_script(PLACE) == place)

    def test_the_line_at_the_bottom(self) -> None:
        """It has the keys, and the place of the caret."""
        keys = self.run_script("return [...document.querySelectorAll('#keys kbd')].map((one) => one.textContent)")
        self.assertEqual(keys, ["Ctrl-F", "Ctrl-S", "Ctrl-Z", "F8", "F9", "Ctrl-Space"])
        self.type("X:1\nK:")
        self.wait(lambda: self.run_script(PLACE) == "Line 2, column 3")
        self.press(HOME)
        self.wait(lambda: self.run_script(PLACE) == "Line 2, column 1")
        self.press(HOME, CONTROL)
        self.press(DOWN)
        self.wait(lambda: self.run_script(PLACE) == "Line 2, column 1")

    @test_page_in_browser.opens_the_page
    def test_keys_of_a_mac(self) -> None:
        script = "Object.defineProperty(navigator, 'userAgentData', { value: { platform: 'macOS' } });"
        added = self.driver.execute_cdp_cmd("Page.addScriptToEvaluateOnNewDocument", {"source": script})
        self.addCleanup(lambda: self.driver and self.driver.execute_cdp_cmd("Page.removeScriptToEvaluateOnNewDocument", added))
        self.load()
        keys = self.run_script("return [...document.querySelectorAll('#keys kbd')].map((one) => one.textContent)")
        self.assertEqual(keys, ["⌘F", "⌘S", "⌘Z", "F8", "F9", "Ctrl-Space"])
        self.assertEqual(self.run_script("return document.getElementById('save').title"), "Save the book (⌘S)")
