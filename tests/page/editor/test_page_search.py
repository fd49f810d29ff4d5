"""Find and replace over the whole book, and the filter of the tunes, in a real browser."""

import browser
import test_page_in_browser
from browser_keys import ALT, BACKSPACE, CONTROL, DOWN, END, ENTER, ESCAPE, F3, HOME, LEFT, SHIFT

TUNES = [line for number in range(1, 301) for line in (f"X:{number}", f"T:Tune {number}", "K:C", "C2 D2 E2", "")]
MARKED = """
const top = document.querySelector("textarea").getBoundingClientRect().top;
return [...document.querySelectorAll(".finds span")].map((mark) => {
  const before = document.createRange();
  before.setStart(mark.parentNode, 0);
  before.setEndBefore(mark);
  const line = Math.round((mark.parentNode.getBoundingClientRect().top - top) / 21);
  return [line, before.toString().length, mark.textContent, mark.className];
});
"""
SELECTED = """
const area = document.querySelector("textarea"), before = area.value.slice(0, area.selectionStart);
return [area.value.slice(area.selectionStart, area.selectionEnd), document.activeElement === area, before.split("\\n").length];
"""
FOCUS = "return document.activeElement.id || document.activeElement.tagName"
SEEN = """
const mark = document.querySelector(".finds .selected").getBoundingClientRect();
const view = document.querySelector(".scroller").getBoundingClientRect();
return view.left < mark.left && mark.right < view.right && view.top < mark.top && mark.bottom < view.bottom;
"""
ROOM = """
const seen = (identifier) => document.getElementById(identifier).checkVisibility();
return [seen("replace-words"), seen("faults"), seen("roll"), document.querySelector(".scroller").clientHeight >= 5 * 21];
"""


class Search(test_page_in_browser.Browser):
    """Finding and replacing by keys and by buttons."""

    is_opened = False

    def click(self, identifier: str) -> None:
        self.run_script("document.getElementById(arguments[0]).click()", identifier)

    def found(self, words: str) -> None:
        """Waits till the line above the text says this."""
        self.wait(lambda: self.text("found") == words)

    def selected(self) -> str:
        return str(self.run_script(SELECTED)[0])

    def find(self, words: str) -> None:
        """Looks for words."""
        self.type("f", CONTROL)
        self.assertEqual(self.run_script(FOCUS), "find-words")
        self.press("a", CONTROL)
        self.press(words)

    def test_find_over_the_whole_book(self) -> None:
        """Matches count wherever they are; Enter and Shift-Enter go on and back, around the ends, and so do F3 and Shift-F3."""
        self.edit(0, 1, *TUNES)
        self.load()
        self.find("tune 2")
        self.found("1 of 111")
        self.press(ENTER)
        self.found("2 of 111")
        self.assertEqual(self.selected(), "Tune 2")
        self.press(ENTER, SHIFT)
        self.press(ENTER, SHIFT)
        self.found("111 of 111")
        self.assertTrue(self.run_script(SEEN))
        self.press(F3)
        self.found("1 of 111")
        self.press(F3, SHIFT)
        self.found("111 of 111")
        self.press(ESCAPE)
        self.assertEqual(self.run_script(SELECTED)[:2], ["Tune 2", True])
        self.wait(lambda: self.run_script("return document.querySelector('[aria-selected=true] b')?.textContent") == "299")
        self.assertTrue(self.run_script("return document.getElementById('search').hidden"))
        self.press("!")
        self.wait(lambda: self.book()["lines"][298 * 5 + 1] == "T:!99")

    def test_case_words_and_expressions(self) -> None:
        self.edit(0, 1, "X:1", "T:Ann and Ännchen", "K:C", "an An (AN) \"an2\"")
        self.load()
        self.find("an")
        self.found("1 of 6")
        self.click("match-case")
        self.found("1 of 3")
        self.click("whole-words")
        self.found("1 of 1")
        self.click("match-case")
        self.found("1 of 3")
        self.click("whole-words")
        self.click("regular")
        self.press("a", CONTROL)
        self.press("[aä]n+")
        self.found("4 of 7")
        self.press("(")
        self.wait(lambda: self.text("found").startswith("This is no regular expression: "))
        self.assertEqual(self.run_script("return document.getElementById('find-words').ariaInvalid"), "true")
        self.assertEqual(self.run_script(MARKED), [])
        self.press(ENTER)
        self.press(BACKSPACE)
        self.found("4 of 7")
        self.press("zzz")
        self.found("Nothing found")
        self.assertTrue(self.run_script("return document.getElementById('find-after').disabled"))

    def test_an_expression_that_takes_too_long(self) -> None:
        """It is given up, the page goes on meanwhile, and another one is found."""
        self.edit(0, 1, "X:1", "K:C", f"% {34 * 'a'}!")
        self.load()
        self.find("a+")
        self.click("regular")
        self.found("1 of 1")
        self.press("a", CONTROL)
        self.press("(a+)+$")
        self.type(HOME, CONTROL)
        self.press("%")
        self.settled(f"%X:1\nK:C\n% {34 * 'a'}!")
        self.wait(lambda: self.text("found") in ("This expression takes too long.", "0… found"))
        self.found("This expression takes too long.")
        self.run_script("document.getElementById('find-words').focus()")
        self.press("a", CONTROL)
        self.press("a!")
        self.found("1 of 1")

    def test_a_regular_expression_after_a_restart(self) -> None:
        """The server has another token since then."""
        self.load()
        self.put("X:1\nK:C\nCDEF\n")
        self.kill()
        self.start(str(self.path), port=str(self.port))
        self.wait_for_lines("X:1", "K:C", "CDEF", "")
        self.type("f", CONTROL)
        self.click("regular")
        self.find("[DE]")
        self.wait(lambda: self.text("found") in ("1 of 2", "The search cannot begin: the server is away."))
        self.assertEqual(self.text("found"), "1 of 2")

    def test_marks(self) -> None:
        """The matches of the lines that are seen are marked at their places, and follow what is typed."""
        self.edit(0, 1, "X:1", "K:C", "C D C", *300 * ["% C"])
        self.load()
        self.find("C")
        self.found("1 of 303")
        self.click("match-case")
        wanted = [[1, 2, "C", "selected"], [2, 0, "C", ""], [2, 4, "C", ""], [3, 2, "C", ""]]
        self.wait(lambda: self.run_script(MARKED)[:4] == wanted)
        self.assertLess(len(self.run_script(MARKED)), 200)
        self.press(ESCAPE)
        self.assertEqual(self.run_script(MARKED), [])
        self.find("C")
        self.type(HOME, CONTROL)
        self.press("C ")
        self.wait(lambda: self.run_script(MARKED)[0] == [0, 0, "C", ""])
        self.found("304 found")
        self.wait(lambda: self.book()["lines"][0] == "C X:1")
        self.edit(0, 0, "C", "C")
        self.found("306 found")

    def test_replace_one_and_all(self) -> None:
        """One after another, and all as one step that can be undone; the server gets what was typed."""
        text = "X:1\nK:C\nC2 C2\n\n% c2\nC2|"
        self.edit(0, 1, *text.split("\n"))
        self.load()
        self.type("h", CONTROL)
        self.press("c2")
        self.run_script("document.getElementById('replace-words').focus()")
        self.press("D4" + ENTER)
        self.settled("X:1\nK:C\nD4 C2\n\n% c2\nC2|")
        self.found("1 of 3")
        self.press(ENTER)
        self.settled("X:1\nK:C\nD4 D4\n\n% c2\nC2|")
        self.press(ESCAPE)
        self.press("z", CONTROL)
        self.settled("X:1\nK:C\nD4 C2\n\n% c2\nC2|")
        self.press("z", CONTROL)
        self.settled(text)
        self.type("h", CONTROL)
        self.run_script("document.getElementById('replace-words').focus()")
        self.press("a", CONTROL)
        self.press("E")
        self.press(ENTER, ALT)
        self.found("4 replaced")
        self.settled("X:1\nK:C\nE E\n\n% E\nE|")
        self.press(ESCAPE)
        self.press("z", CONTROL)
        self.settled(text)
        self.press("y", CONTROL)
        self.settled("X:1\nK:C\nE E\n\n% E\nE|")

    def test_groups_and_new_lines(self) -> None:
        self.edit(0, 1, "X:1", "K:C", "C2D2|E2F2|")
        self.load()
        self.type("h", CONTROL)
        self.click("regular")
        self.press("([A-G])2\\|")
        self.run_script("document.getElementById('replace-words').focus()")
        self.press("$1|\\n")
        self.click("replace-all")
        self.settled("X:1\nK:C\nC2D|\nE2F|\n")
        self.press(ESCAPE)
        self.press("z", CONTROL)
        self.settled("X:1\nK:C\nC2D2|E2F2|")

    def test_nothing_is_replaced(self) -> None:
        """The page says so, and does not offer to take it back."""
        self.edit(0, 1, "X:1", "K:C", "CDE")
        self.load()
        self.type("h", CONTROL)
        self.press("zzz")
        self.found("Nothing found")
        self.run_script("document.getElementById('replace-words').focus()")
        self.press(ENTER, ALT)
        self.wait(lambda: self.text("status") == "Nothing found, so nothing is replaced.")
        self.assertEqual(self.text("found"), "Nothing found")

    def test_places(self) -> None:
        """An expression of places finds them, one after another, and puts words there. Other empty matches do not count."""
        self.edit(0, 1, "X:1", "K:C", "CDE")
        self.load()
        self.type("h", CONTROL)
        self.click("regular")
        self.press("^")
        self.found("1 of 3")
        self.wait(lambda: [[line, column] for line, column, _, _ in self.run_script(MARKED)] == [[0, 0], [1, 0], [2, 0]])
        self.press(ENTER)
        self.found("2 of 3")
        self.run_script("document.getElementById('replace-words').focus()")
        self.press("% " + ENTER)
        self.settled("X:1\n% K:C\nCDE")
        self.found("3 of 3")
        self.press(ENTER, ALT)
        self.settled("% X:1\n% % K:C\n% CDE")
        self.assertEqual(self.text("found"), "3 replaced")
        self.run_script("document.getElementById('find-words').focus()")
        self.press("a", CONTROL)
        self.press("z*")
        self.found("Nothing found (empty matches do not count)")

    def test_what_is_selected_is_looked_for(self) -> None:
        self.edit(0, 1, "X:1", "K:C", "CDE CDE")
        self.load()
        self.type(END, CONTROL)
        for _ in range(3):
            self.press(LEFT, SHIFT)
        self.press("f", CONTROL)
        self.found("2 of 2")
        self.assertEqual(self.run_script("return document.getElementById('find-words').value"), "CDE")

    def test_the_filter_of_the_tunes(self) -> None:
        """By number or title, without accents and capitals; a click, Enter and the arrows go to a tune of it."""
        titles = {3: "Ríl Ó Domhnaill", 30: "The Kesh", 131: "Kesh Jig"}
        lines = [line for number in range(1, 201) for line in (f"X:{number}", f"T:{titles.get(number, 'Nameless')}", "K:C", "C", "")]
        self.edit(0, 1, *lines)
        self.load()
        sift = "const area = document.getElementById('filter'); area.focus(); area.value = arguments[0]; area.dispatchEvent(new Event('input'))"
        shown = "return [...document.querySelectorAll('[role=option] b')].map((one) => one.textContent)"
        wanted: dict[str, list[str]] = {"KESH": ["30", "131"], "o domh": ["3"], "13": ["13", *map(str, range(130, 140))], "zzz": []}
        for words, numbers in wanted.items():
            self.run_script(sift, words)
            self.wait(lambda: self.run_script(shown) == wanted[words])
            self.assertEqual(self.text("tally"), f"{len(numbers)} of 200")
        self.run_script(sift, "kesh")
        browser.press_button(self.driver, self.driver.find_element("id", "tune-1"))
        browser.release_button(self.driver)
        self.wait(lambda: self.run_script(test_page_in_browser.STANDING) == "X:131")
        self.run_script("document.getElementById('filter').focus()")
        self.press(ENTER)
        self.wait(lambda: self.run_script(test_page_in_browser.STANDING) == "X:30")
        self.run_script("document.getElementById('filter').focus()")
        self.press(DOWN)
        self.assertEqual(self.run_script(FOCUS), "list")
        self.run_script("document.getElementById('filter').focus()")
        self.press(ESCAPE)
        self.wait(lambda: self.text("tally") == "200")

    def test_another_window_edits_what_is_found(self) -> None:
        self.edit(0, 1, "X:1", "K:C", "abc")
        self.load()
        self.find("abc")
        self.found("1 of 1")
        self.edit(2, 3, "x", "abc abc")
        self.found("2 found")
        self.run_script("document.getElementById('find-words').focus()")
        self.press(ENTER)
        self.wait(lambda: self.run_script(SELECTED)[0] == "abc" and self.text("found").endswith(" of 2"))

    def test_on_a_telephone(self) -> None:
        """The text has room for five lines and more, beside the search, a fault and the roll."""
        self.size(390, 844)
        self.edit(0, 1, "X:1", "K:C", "C -")
        self.load()
        self.type("h", CONTROL)
        self.wait(lambda: self.text("told"))
        self.assertEqual(self.run_script(ROOM), [True, True, True, True])
