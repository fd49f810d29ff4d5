"""What is different between the text and the book as it was saved, or as it is on the disk."""

import page_in_node
import served_page
import test_page_in_browser
from abc2midi_live_clients.common import replaced_file
from browser_keys import CONTROL, ESCAPE

ROWS = "return [...document.querySelectorAll('#differences-rows tr')].map((row) => [row.className, row.innerText])"
FOCUS = "return document.activeElement.textContent"


class Scripts(page_in_node.PageScripts):
    def test_scripts(self) -> None:
        self.assert_ok("dialogs/page_differences.mjs", 10)


class Texts(served_page.Page):
    """The texts that the server has to compare with."""

    def test_saved_and_on_disk(self) -> None:
        was, now = served_page.BOOK.decode().split("\n"), ["X:9", "T:Frère", ""]
        self.edit(0, 1, "X:7")
        self.assertEqual((self.ask("saved"), self.ask("disk")), ({"lines": was}, {"lines": was}))
        self.path.write_bytes("\n".join(now).encode("latin-1"))
        self.assertEqual((self.ask("saved"), self.ask("disk")), ({"lines": was}, {"lines": now}))

    def test_a_file_that_is_replaced(self) -> None:
        """By another program, and by the page itself: each writes a new file, and gives it the name."""
        was, number = served_page.BOOK.decode().split("\n"), self.path.stat().st_ino
        with replaced_file.replacing(str(self.path)) as file:
            file.write(b"X:9\nT:New\n")
        self.assertNotEqual(self.path.stat().st_ino, number)
        self.assertEqual((self.ask("saved"), self.ask("disk")), ({"lines": was}, {"lines": ["X:9", "T:New", ""]}))
        self.path.write_bytes(served_page.BOOK)
        number = self.path.stat().st_ino
        self.edit(0, 1, "X:7")
        self.save()
        self.assertNotEqual(self.path.stat().st_ino, number)
        self.assertEqual((self.ask("saved"), self.ask("disk")), ({"lines": ["X:7", *was[1:]]},) * 2)

    def test_no_file(self) -> None:
        self.path.unlink()
        gone = self.ask("disk")
        self.assertEqual((gone["status"], gone["error"]), (404, "the book is not on the disk any more"))
        self.path.mkdir()
        refused = self.ask("disk")
        self.assertEqual((refused["status"], refused["error"]), (500, "the book cannot be read: it is a folder, and not a regular file"))

    def test_whoever_may_not(self) -> None:
        for name in ("saved", "disk"):
            self.assertEqual(self.request(name, path=f"/{self.token.swapcase()}/{name}")[0], 403)
            self.assertEqual(self.request(name, {})[0], 404)


class Shown(test_page_in_browser.Browser):
    """The window that shows the differences."""

    opening = b"X:1\nK:C\nCDE\n"

    def test_unsaved(self) -> None:
        """A click on 'unsaved' shows what is not saved. Closing gives the focus back."""
        self.edit(2, 3, "CDF")
        self.shows("X:1\nK:C\nCDF\n")
        self.driver.find_element("id", "unsaved").click()
        rows = [["same", "1\t1\t\tX:1"], ["same", "2\t2\t\tK:C"], ["out", "3\t\t−\tCDE"], ["in", "\t3\t+\tCDF"], ["same", "4\t4\t\t"]]
        self.wait(lambda: self.run_script(ROWS) == rows)
        self.assertEqual(self.text("differences-words"), "− 1 line is only in book.abc as it was saved last. + 1 line is only in this text.")
        self.press(ESCAPE)
        self.wait(lambda: not self.run_script("return document.getElementById('differences').open"))
        self.assertEqual(self.run_script(FOCUS), "unsaved")
        self.press("s", CONTROL)
        self.wait(lambda: not self.is_unsaved())
        self.assertEqual(self.run_script("return document.activeElement.tagName"), "TEXTAREA")

    def test_a_question(self) -> None:
        """Its texts can be compared before the answer, and the question stays."""
        self.edit(2, 3, "CDF")
        self.path.write_bytes(b"X:1\nK:D\nCDE\n")
        self.wait(lambda: "Show the differences" in self.question())
        self.answer("Show the differences")
        wanted = [["out", "2\t\t−\tK:D"], ["out", "3\t\t−\tCDE"], ["in", "\t2\t+\tK:C"], ["in", "\t3\t+\tCDF"]]
        self.wait(lambda: [row for row in self.run_script(ROWS) if row[0] != "same"] == wanted)
        self.press(ESCAPE)
        self.assertEqual(self.question(), ["Save this text over it", "Load the book from disk", "Decide later", "Show the differences"])
        self.answer("Load the book from disk")
        self.shows("X:1\nK:D\nCDE\n")
