"""Copies of the book under other names, in a real browser."""

from functools import partial

import test_page_in_browser
from browser_keys import CONTROL, END, ENTER, ESCAPE, SHIFT

COPY = "return document.getElementById('copy').open"
WRONG = "return document.getElementById('copy-wrong').textContent"
ALL_MIDI = """
const anchor = document.getElementById("all-midi");
return anchor.href ? [new URL(anchor.href).pathname.split("/").pop(), anchor.download] : [];
"""
DOWNLOADS = """
window.downloads = [];
const blobs = new Map(), make = URL.createObjectURL;
URL.createObjectURL = (blob) => {
  const address = make.call(URL, blob);
  blobs.set(address, blob);
  return address;
};
HTMLAnchorElement.prototype.click = async function () {
  const { download, href } = this;
  downloads.push([download, [...new Uint8Array(await blobs.get(href).arrayBuffer())]]);
};
"""  # keeps the name and the bytes of each download


class CopiesInBrowser(test_page_in_browser.Browser):
    """Saving under another name."""

    opening = b"X:1\nK:C\nC\n"

    def named(self, name: str) -> None:
        """Asks for a copy under a name."""
        self.wait(lambda: self.run_script(COPY))
        self.press("a", CONTROL)
        self.press(name)
        self.press(ENTER)

    def test_a_copy(self) -> None:
        self.type("% mine\n")
        self.press("s", CONTROL, SHIFT)
        self.wait(lambda: self.run_script(COPY))
        self.assertEqual(self.run_script("return document.getElementById('copy-name').value"), "book copy.abc")
        self.named("other")
        copy = self.folder / "other.abc"
        self.wait(copy.exists)
        self.wait(lambda: not self.run_script(COPY))
        self.assertEqual((copy.read_bytes(), self.path.read_bytes()), (b"% mine\nX:1\nK:C\nC\n", self.opening))
        self.assertEqual(self.text("status"), "Saved a copy as other.abc. This page goes on with book.abc.")
        self.assertTrue(self.is_unsaved())
        self.press("more")
        self.wait(lambda: self.book()["lines"][1] == "moreX:1")

    def test_the_caret_comes_back(self) -> None:
        self.type(END, CONTROL)
        for key, name in ((ENTER, "one"), (ESCAPE, "two")):
            self.press("x")
            self.press("s", CONTROL, SHIFT)
            self.wait(lambda: self.run_script(COPY))
            self.press(name + key)
            self.wait(lambda: not self.run_script(COPY) and self.run_script("return document.activeElement.tagName") == "TEXTAREA")
            self.press("y")
        self.wait_for_lines("X:1", "K:C", "C", "xyxy")

    def test_a_name_that_is_taken(self) -> None:
        """The file is replaced only when the user says so."""
        there = self.folder / "there.abc"
        there.write_bytes(b"mine")
        self.run_script("document.getElementById('save-as').click()")
        self.named("there.abc")
        self.wait(lambda: self.run_script(WRONG) == "There is a file there.abc in this folder.")
        self.assertEqual(there.read_bytes(), b"mine")
        self.press("x")
        self.wait(lambda: self.run_script("return document.getElementById('copy-over').hidden"))
        self.named("there.abc")
        self.wait(lambda: not self.run_script("return document.getElementById('copy-over').hidden"))
        self.driver.find_element("id", "copy-over").click()
        self.wait(lambda: there.read_bytes() == self.opening)

    def says(self, words: str) -> bool:
        """Whether the question says what is wrong with a name, in a sentence that begins so."""
        return str(self.run_script(WRONG)).startswith(words)

    def test_names_that_are_refused(self) -> None:
        self.run_script("document.getElementById('save-as').click()")
        for name, words in (("../out.abc", "Not saved: a name has no slash"), (".x.abc", "Not saved: a name does not begin with a dot"), ("book.abc", "Not saved: this is the book itself"), (" ", "Not saved: the copy needs a name")):
            self.named(name)
            self.wait(partial(self.says, words))
        self.press(ESCAPE)
        self.wait(lambda: not self.run_script(COPY))
        self.assertEqual(sorted(one.name for one in self.folder.iterdir()), ["book.abc", "files", "state"])


class DownloadsInBrowser(test_page_in_browser.Browser):
    """Saving by the browser."""

    opening = b"\xef\xbb\xbfX:1\r\nT:\xe9 \xc3\xa9\x01\xff\xbf\r\nK:C\r\nC\r\n"

    def test_a_download(self) -> None:
        """It has the bytes that a save would write, and another name if the user names one."""
        self.run_script(DOWNLOADS)
        self.type("% mine\n")
        self.run_script("document.getElementById('save-as').click()")
        self.press("a", CONTROL)
        self.press("mine")
        self.wait(lambda: self.run_script(ALL_MIDI) == ["midi.zip", "book MIDI.zip"])
        self.driver.find_element("id", "copy-download").click()
        data = self.opening.replace(b"X:1", b"% mine\r\nX:1")
        self.wait(lambda: self.run_script("return downloads") == [["mine.abc", list(data)]])
        self.assertFalse(self.run_script(COPY))

    def test_a_download_while_the_server_is_away(self) -> None:
        """It has the line ends that another program gave the book meanwhile."""
        data = b"X:1\nT:\xe9\n"
        self.path.write_bytes(data)
        self.wait(lambda: self.run_script(f"return {test_page_in_browser.AREA}.value.length") == len(data))
        self.kill()
        self.wait(lambda: "The server is away" in self.text("status"))
        self.run_script(DOWNLOADS)
        self.run_script("document.getElementById('save-as').click()")
        self.wait(lambda: self.run_script(COPY))
        self.driver.find_element("id", "copy-download").click()
        self.wait(lambda: self.run_script("return downloads") == [["book copy.abc", list(data)]])
