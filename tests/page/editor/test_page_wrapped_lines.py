"""Lines that wrap on a narrow screen: their rows in node, and the text with its marks, numbers and caret in a browser."""

import page_in_node
import test_page_in_browser
from browser_keys import CONTROL, END, HOME

LONG = "GABc dBAG " * 12 + "&"
MANY = [line for number in range(1, 60) for line in (f"X:{number}", f"T:Tune {number} with a title that is longer than a row of a phone has letters", "K:G", "GABc dBAG|" * 9, "")]
PLACES = """
const area = document.querySelector("textarea"), view = document.querySelector(".scroller");
const mark = document.querySelector("mark").getBoundingClientRect(), lines = document.querySelector(".lines").getBoundingClientRect();
return [area.scrollHeight <= area.clientHeight, view.scrollWidth <= view.clientWidth, mark.left >= view.getBoundingClientRect().left, mark.right <= view.getBoundingClientRect().right, Math.round((mark.top - lines.top) / 21)];
"""  # the area is as high as its text; nothing is to the side; the mark is seen, and in which row it is
SAME_ROWS = """
const colours = [...document.querySelectorAll(".colours div")].map((row) => Math.round(row.getBoundingClientRect().height / 21));
const numbers = document.querySelector(".numbers").textContent.split(/(?<=\\n)(?=\\d)/).map((text) => text.split("\\n").length - 1);
const lines = document.querySelector("textarea").value.split("\\n").length;
return [colours.reduce((sum, rows) => sum + rows, 0), numbers.reduce((sum, rows) => sum + rows, 0), Math.round(document.querySelector("textarea").clientHeight / 21), lines];
"""
SEEN = """
const view = document.querySelector(".scroller").getBoundingClientRect(), here = document.querySelector(".here").getBoundingClientRect();
return here.top >= view.top - 1 && here.bottom <= view.bottom + 1;
"""
BROKEN = """
const [, title] = document.querySelectorAll(".colours div"), text = title.textContent, rows = [];
const letters = document.createTreeWalker(title, NodeFilter.SHOW_TEXT), range = document.createRange();
for (let node = letters.nextNode(); node; node = letters.nextNode()) {
  for (let n = 0; n < node.length; n += 1) {
    range.setStart(node, n);
    range.setEnd(node, n + 1);
    rows.push(range.getBoundingClientRect().top);
  }
}
return [new Set(rows).size, [...text.matchAll(/\\S+/g)].filter(({ index, 0: word }) => rows[index] !== rows[index + word.length - 1]).map(([word]) => word)];
"""  # how many rows the second line has, and which of its words are in two
CARETS = """
const mirror = document.querySelector(".colours"), area = document.querySelector("textarea"), found = [];
const { left, top } = area.getBoundingClientRect(), [, title] = mirror.children, text = title.textContent;
for (const word of ["gentlemen", "fiddlers"]) {
  const letters = document.createTreeWalker(title, NodeFilter.SHOW_TEXT), range = document.createRange();
  for (let node = letters.nextNode(), at = 0; node; at += node.length, node = letters.nextNode()) {
    const n = text.indexOf(word) - at;
    if (n < 0 || n >= node.length) continue;
    range.setStart(node, n);
    range.setEnd(node, n + 1);
  }
  const box = range.getBoundingClientRect();
  found.push([word, box.left + 2, box.top + 10]);
}
return found;
"""  # where the layer of colours shows the begin of some words


class Scripts(page_in_node.PageScripts):
    def test_scripts(self) -> None:
        self.assert_ok("editor/page_line_rows.mjs", 6)


class Wrapped(test_page_in_browser.Browser):
    """A phone, and a tune with long lines."""

    opening = f"X:1\nT:{'é’ ' * 30}\nK:G\n{LONG}\nC|\n".encode()

    def test_rows(self) -> None:
        """Area, colours and numbers have the same rows, and a mark is in its row. In a wide window nothing wraps."""
        self.wait(lambda: self.text("count") == "1 fault")
        self.size(390, 844)
        self.wait(lambda: self.run_script("return document.querySelector('.paper').classList.contains('wraps')"))
        self.wait(lambda: self.run_script(PLACES)[:4] == [True] * 4)
        rows = self.wait(lambda: (found := self.run_script(SAME_ROWS)) and len(set(found[:3])) == 1 and found)
        self.assertGreater(rows[0], rows[3] + 4)
        self.type(HOME, CONTROL)
        self.press("%" * 60)
        self.settled("%" * 60 + self.opening.decode())
        self.wait(lambda: len(set(self.run_script(SAME_ROWS)[:3])) == 1)
        self.size(1366, 768)
        self.wait(lambda: not self.run_script("return document.querySelector('.paper').classList.contains('wraps')"))
        self.wait(lambda: (found := self.run_script(SAME_ROWS)) and found[1:] == [6, 6, 6])


class Words(test_page_in_browser.Browser):
    """A phone, and a title of many words, one of which is longer than a row."""

    title = f"T:Two gentlemen of the county and their fiddlers - play (slowly) what nobody knows|and {'L' * 60} end"
    opening = f"X:1\n{title}\nK:G\nC|\n".encode()

    def test_no_word_is_in_two_rows(self) -> None:
        """But for one that is longer than a row. A click on a word, as the layer of colours shows it, is in that word."""
        self.size(390, 844)
        self.wait(lambda: self.run_script("return document.querySelector('.paper').classList.contains('wraps')"))
        rows, broken = self.wait(lambda: (found := self.run_script(BROKEN)) and found[0] > 3 and found)
        self.assertEqual([word for word in broken if len(word) < 30], [])
        self.assertEqual(len(broken), 1)
        self.wait(lambda: len(set(self.run_script(SAME_ROWS)[:3])) == 1)
        for word, x, y in self.run_script(CARETS):
            for kind in ("mousePressed", "mouseReleased"):
                self.driver.execute_cdp_cmd("Input.dispatchMouseEvent", {"type": kind, "x": x, "y": y, "button": "left", "clickCount": 1})
            self.wait(lambda: self.text("place") == f"Line 2, column {self.title.index(word) + 1}")


class ManyWrapped(test_page_in_browser.Browser):
    """A phone, and a book of long lines."""

    opening = "\n".join(MANY).encode()

    def test_the_caret_is_seen(self) -> None:
        """At the end of the book, at its begin, and where a tune begins that is chosen."""
        self.size(390, 844)
        self.wait(lambda: self.run_script("return document.querySelector('.paper').classList.contains('wraps')"))
        for keys in (END, HOME):
            self.type(keys, CONTROL)
            self.wait(lambda: self.run_script(SEEN))
        self.run_script("document.getElementById('tune-1').dispatchEvent(new MouseEvent('click', { bubbles: true }))")
        self.wait(lambda: self.text("place").startswith("Line 6,") and self.run_script(SEEN))
