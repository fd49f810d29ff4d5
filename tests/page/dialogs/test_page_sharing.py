"""Someone who shares a tune of the page of a server."""

import test_page_in_browser
from test_sharing import ADDRESS

HAS_CODE = "return document.querySelectorAll('#share-code svg path').length === 1"
LINK = "return document.getElementById('share-link').value"
TEXT = """
const [link, done] = arguments;
import("./dialogs/share_link.js").then(({ textIn }) => textIn(new URL(link).hash)).then(done, (error) => done(String(error)));
"""


class Sharing(test_page_in_browser.Browser):
    opening = b"M:3/4\n\nX:1\nT:One\nK:C\nC|\n\nX:2\nT:Two\nK:D\nD|\n"

    def open(self) -> None:
        self.driver.find_element("id", "share").click()
        self.wait(lambda: self.run_script("return document.getElementById('share-dialog').open"))

    def test_a_link(self) -> None:
        """It leads to the address that is typed, which the next start has too, and has the tune with the file header."""
        self.driver.execute_script("document.querySelector('textarea').setSelectionRange(40, 40)")
        self.open()
        self.wait(lambda: self.text("share-words").startswith("A link leads to this page without a server"))
        self.assertEqual(self.run_script("return document.activeElement.id"), "share-address")
        self.press(ADDRESS + "\n")
        link = self.wait(lambda: self.run_script(LINK))
        self.assertTrue(link.startswith(f"{ADDRESS}#abc"))
        self.assertEqual(self.driver.execute_async_script(TEXT, link), "M:3/4\n\nX:2\nT:Two\nK:D\nD|\n")
        self.assertIn("tune 2, Two", self.text("share-words"))
        self.wait(lambda: self.run_script(HAS_CODE) or "install segno" in self.text("share-code"))
        self.driver.find_element("id", "share-close").click()
        self.load()
        self.open()
        self.wait(lambda: self.run_script(LINK).startswith(f"{ADDRESS}#abc"))

    def test_what_is_no_address(self) -> None:
        """A sentence says so, and there is no link."""
        self.driver.execute_script("document.querySelector('textarea').setSelectionRange(40, 40)")
        self.open()
        self.press("example.org\n")
        self.wait(lambda: self.text("share-done") == "an address begins with https:// or http://, and has no blank and no #.")
