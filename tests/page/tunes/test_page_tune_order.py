"""The tunes of a book: moved, sorted, numbered and deleted, and those of another book, in node and by keys in a browser."""

import unittest

import page_in_node
import test_midi_tune
import test_page_in_browser
from browser_keys import CONTROL, ENTER, TAB

F9 = "\ue039"
HEARD = "return [document.getElementById('order').open, document.activeElement.id || document.activeElement.tagName]"


class Scripts(page_in_node.PageScripts):
    def test_scripts(self) -> None:
        self.assert_ok("tunes/page_tune_order.mjs", 6)


class Commands(test_page_in_browser.Browser):
    """Someone who puts a book in order."""

    opening = b"X:5\nT:Maid\nK:G\nG|\n\nX:2\nT:Banshee\nK:C\nC|\n"
    lines = opening.decode().split("\n")

    def choose(self, name: str) -> None:
        """Opens the dialog by its key, and clicks a button."""
        self.press(F9)
        self.wait(lambda: self.run_script("return document.getElementById('order').open"))
        self.driver.find_element("id", f"order-{name}").click()

    def test_each_is_one_step(self) -> None:
        """Ctrl-Z takes each back at once: the text has the focus then."""
        first, second = self.lines[:4], self.lines[5:9]
        self.wait(lambda: self.run_script("return document.querySelectorAll('[role=option]').length") == 2)
        for name, wanted in (
            ("down", [*second, "", *first, ""]),
            ("delete", [*second, ""]),
            ("number", ["X:1", *first[1:], "", "X:2", *second[1:], ""]),
            ("sort", [*second, "", *first, ""]),
        ):
            self.choose(name)
            self.wait_for_lines(*wanted)
            self.assertEqual(self.run_script(HEARD), [False, "TEXTAREA"])
            self.press("z", CONTROL)
            self.wait_for_lines(*self.lines)

    def test_a_tune_is_selected(self) -> None:
        self.choose("select")
        self.press("C")
        self.wait_for_lines(f"C{self.lines[5]}", *self.lines[6:])

    def test_another_book(self) -> None:
        """Its tunes come to the end, and a number that is taken becomes another one."""
        other = self.folder / "other.abc"
        other.write_bytes(b"M:3/4\nX:2\nT:Caf\xe9 \x93x\x94\nK:D\nD|\n")
        self.press(F9)
        self.driver.find_element("id", "order-file").send_keys(str(other))
        self.wait_for_lines(*self.lines[:-1], "", "X:6", "M:3/4", "T:Caf\u00e9 \u201cx\u201d", "K:D", "D|", "")
        self.wait(lambda: "1 tune of other.abc, 1 of them with another number" in self.text("status"))
        self.press("z", CONTROL)
        self.wait_for_lines(*self.lines)

    @unittest.skipUnless(test_midi_tune.READS, "midi2abc is not installed")
    def test_a_midi_file(self) -> None:
        """Its tune comes to the end, with the name of the file and a free number, in one step, and plays what the file has."""
        other = self.folder / "My tune.mid"
        other.write_bytes(test_midi_tune.SCALE)
        self.press(F9)
        self.driver.find_element("id", "order-midi-file").send_keys(str(other))
        self.wait(lambda: self.text("status").startswith("Took in My tune.mid, as midi2abc reads it."))
        lines = self.book()["lines"]
        self.assertEqual((lines[:9], [line.replace(" ", "") for line in lines[9:12]]), (self.lines[:-1], ["", "X:1", "T:Mytune"]))
        self.assertEqual("".join(lines[-2].split()), "CDEFGABc|")
        self.press("z", CONTROL)
        self.wait_for_lines(*self.lines)

    def test_a_file_that_has_no_tune(self) -> None:
        other = self.folder / "x.mid"
        other.write_bytes(b"x")
        self.press(F9)
        self.driver.find_element("id", "order-midi-file").send_keys(str(other))
        self.wait(lambda: "midi2abc" in self.text("status"))
        self.wait_for_lines(*self.lines)

    def test_by_keys_alone(self) -> None:
        """The button that opens the dialog is in the list of tunes; in the dialog Tab and Enter are enough. The first tune cannot be moved up."""
        self.run_script("document.getElementById('order-open').focus()")
        self.press(ENTER)
        self.wait(lambda: self.run_script(HEARD) == [True, "order-close"])
        self.press(2 * TAB)
        self.assertEqual(self.run_script(HEARD), [True, "order-down"])
