"""The page on a narrow screen: each of its parts can be reached, also while one practises or while a question is open."""

import shutil
import unittest

import test_page_in_browser
from browser_keys import CONTROL, F8, SHIFT

PARTS = ("tune", "time", "play", "practise", "midi", "count", "told", "filter", "list", "roll")
REACHED = """
const one = document.getElementById(arguments[0]);
one.scrollIntoView({ block: "nearest" });
const { left, right, top, bottom, width, height } = one.getBoundingClientRect();
const found = document.elementFromPoint(left + width / 2, top + height / 2);
const isInside = left >= 0 && right <= innerWidth && top >= 0 && bottom <= innerHeight;
return isInside && height >= 16 && one.contains(found);
"""
ONE_ROW = """
const [one, last] = ["find-words", "find-close"].map((id) => document.getElementById(id).getBoundingClientRect());
return last.top < one.bottom && one.top < last.bottom;
"""
IS_WHOLE = "const one = document.getElementById('tune'); return one.textContent !== '' && one.scrollWidth <= one.clientWidth"
STAVES = """
const view = document.getElementById("score").getBoundingClientRect();
const first = (line) => [...document.querySelectorAll(".score-place")].find(({ note }) => note.line === line)?.getBoundingClientRect();
return [first(5), first(6)].every((note) => note && view.top <= note.top && note.bottom <= view.bottom);
"""
ROWS = """
const bar = document.querySelector("#faults .bar"), right = bar.getBoundingClientRect().right - parseFloat(getComputedStyle(bar).paddingRight);
return ["count", "hinted", "before", "after", "undo", "redo", "signs-open", "transpose-open", "tidy-open", "instruments-open"].map((id) => {
  const one = document.getElementById(id), rects = [...one.getClientRects()], lines = document.createRange();
  lines.selectNodeContents(one);
  return [rects[0].top + rects[0].height / 2, rects[0].right <= right + 1 && new Set([...lines.getClientRects()].map(({ top }) => top)).size === 1];
});
"""
TUNES_BAR = """
document.getElementById("filter").value = arguments[0];
document.getElementById("tally").textContent = arguments[1];
const bar = document.querySelector("#tunes .bar"), buttons = [...bar.querySelectorAll("button")].map((one) => one.getBoundingClientRect());
const { right } = bar.getBoundingClientRect();
return [document.getElementById("filter").clientWidth, new Set(buttons.map(({ top }) => top)).size, buttons.every((one) => one.right <= right)];
"""  # the width of the filter, the rows of the buttons, and whether all of these are inside
BROKEN_LABELS = """
const rows = (node) => {
  const range = document.createRange();
  range.selectNodeContents(node);
  return new Set([...range.getClientRects()].map(({ top }) => Math.round(top))).size;
};
const labels = [...document.querySelectorAll("#practice :is(label, button)")].filter((one) => one.checkVisibility());
return labels.flatMap((label) => [...label.childNodes].filter((node) => node.nodeType === 3 && node.nodeValue.trim() && rows(node) > 1)).map((node) => node.nodeValue.trim());
"""  # the words beside a control that are in several rows
FRAMES = "const done = arguments[0]; requestAnimationFrame(() => requestAnimationFrame(() => setTimeout(done)))"  # waits till two are shown
BAR = """
const ids = ["unsaved", "windows", "later", "utf-8"], parts = ids.map((id) => document.getElementById(id));
const before = parts.map(({ hidden, textContent }) => ({ hidden, textContent })), wrong = [];
document.getElementById("windows").textContent = "2 windows have this book";
document.getElementById("later").textContent = "1 question";
for (let shown = 0; shown < 2 ** parts.length; shown += 1) {
  const rows = new Map(), which = ids.filter((_, n) => shown & 2 ** n).join(" ");
  parts.forEach((part, n) => (part.hidden = !(shown & 2 ** n)));
  for (const one of document.querySelectorAll("header :is(h1, span, button):not([hidden])")) {
    const { left, right, top, bottom } = one.getBoundingClientRect(), row = Math.round((top + bottom) / 2);
    rows.set(row, [...(rows.get(row) ?? []), one]);
    if (left < 0 || right > innerWidth || (one.matches("button") && one.scrollWidth > one.clientWidth)) wrong.push([which, one.id, "cut off"]);
  }
  for (const row of rows.values()) if (row.length === 1 && row[0].matches("button")) wrong.push([which, row[0].id, "alone"]);
}
parts.forEach((part, n) => Object.assign(part, before[n]));
return wrong;
"""  # which buttons of the bar are alone in a row or cut off, whatever else is shown there
BUTTONS = """
document.getElementById("copy-over").hidden = !arguments[0];
const shown = [...document.querySelectorAll("#copy :is(button, a)")].filter((one) => one.getClientRects().length);
const { right } = document.getElementById("copy").getBoundingClientRect(), last = document.getElementById("copy-close").getBoundingClientRect();
const row = shown.filter((one) => one.getBoundingClientRect().top === last.top).map(({ id }) => id);
return [row.slice(-2), shown.every((one) => one.getBoundingClientRect().right <= right)];
"""  # the last buttons of the row of 'Cancel', while a file may be replaced or not, and whether the dialog has room for all
MARK = """
const mark = document.querySelector("mark"), { left, right, top, bottom } = mark.getBoundingClientRect();
return document.elementsFromPoint((left + right) / 2, (top + bottom) / 2).includes(mark);
"""

WARNING = """
const found = document.getElementById("found");
return [found.className, found.getBoundingClientRect().height / parseFloat(getComputedStyle(found).lineHeight), document.getElementById("search").scrollWidth <= document.getElementById("search").clientWidth];
"""
CHOICES = """
const [one, other] = document.querySelectorAll("#transpose [name=transpose-what]"), words = document.createRange();
words.selectNodeContents(one.parentElement);
const end = words.getBoundingClientRect().right, accent = (id) => getComputedStyle(document.getElementById(id)).accentColor;
return [other.getBoundingClientRect().left - end, other.parentElement.getBoundingClientRect().top === one.parentElement.getBoundingClientRect().top, ["transpose-by-key", "tidy-first"].map(accent), accent("tempo")];
"""  # the room before the second choice, whether it is beside the first one, and the colours of chosen boxes
MEND = """
document.getElementById("count").textContent = "2 faults";
Object.assign(document.getElementById("hinted"), { hidden: false, textContent: "6 hints" });
const [list, mend] = ["#told", "#told .mend"].map((one) => document.querySelector(one)?.getBoundingClientRect());
return mend ? [list.top <= mend.top, mend.bottom <= list.bottom] : null;
"""  # whether the button that mends the first fault is inside the list, while the bar above needs two rows

SENTENCE = """
const one = document.getElementById("status"), { left, right, top, bottom } = one.getBoundingClientRect();
return [one.classList.contains("away"), one.scrollHeight <= one.clientHeight, left >= 0 && right <= innerWidth && top >= 0 && bottom <= innerHeight];
"""  # whether the sentence at the bottom says that the server is away, and is there whole

WORDS = """
const view = document.querySelector("#score svg")?.getBoundingClientRect();
return !view ? [] : [...document.querySelectorAll("#score text")].filter((one) => /Tune|Trad/.test(one.textContent)).map((one) => {
  const { left, right } = one.getBoundingClientRect();
  return [one.textContent, view.left <= left && right <= view.right];
});
"""


class Narrow(test_page_in_browser.Browser):
    """A window of 390 pixels over a tune of two voices with a fault."""

    opening = b"X:1\nT:The Maid Behind the Bar\nM:4/4\nL:1/4\nK:G\n[V:1] GABc|dcBA|GABc|d4|\n[V:2] G2D2|G2D2|G2D2|G4 -|\n"

    def setUp(self) -> None:
        super().setUp()
        self.size(390, 844)
        self.wait(lambda: "2 voices" in str(self.run_script("return document.getElementById('roll').getAttribute('aria-label')")))

    def parts_are_reached(self) -> None:
        """Each part can be scrolled to, and nothing is over it. Nothing scrolls aside."""
        for identifier in PARTS:
            self.assertTrue(self.run_script(REACHED, identifier), identifier)
        self.assertTrue(self.run_script(IS_WHOLE))
        self.assertEqual(self.run_script("return document.documentElement.scrollWidth"), 390)

    def has_lines(self, count: int) -> bool:
        """Whether the text has room for some lines."""
        return bool(self.run_script("return document.querySelector('.scroller').clientHeight >= 21 * arguments[0]", count))

    def test_the_parts(self) -> None:
        self.parts_are_reached()
        self.assertTrue(self.has_lines(6))

    def test_the_bar_of_the_faults(self) -> None:
        """It ends inside its panel, no words in it are broken, and the two arrows stay beside the counts, whatever is in the next row."""
        for wide, high in ((900, 844), (820, 844), (700, 844), (761, 330), (683, 330), (621, 844), (621, 330), (390, 844), (360, 844)):
            self.size(wide, high)
            self.run_script("document.getElementById('count').textContent = '2 faults'; Object.assign(document.getElementById('hinted'), { hidden: false, textContent: '6 hints' })")
            self.driver.execute_async_script(FRAMES)
            parts = self.run_script(ROWS)
            self.assertTrue(all(is_whole for _, is_whole in parts), (wide, high, parts))
            rows = [round(middle / 10) for middle, _ in parts]
            self.assertEqual((len(set(rows[:4])), len(set(rows[4:]))), (1, 1), (wide, high, rows))

    def test_the_bar_of_the_tunes(self) -> None:
        """The filter has room for a word, and the buttons are one row, also while a book of thousands is filtered."""
        for wide in (1920, 1600, 1366, 1365, 1201, 1024, 900, 820, 683, 621, 390, 360):
            self.size(wide, 844)
            for words, tally in (("", "3"), ("ab", "1234 of 3000")):
                self.driver.execute_async_script(FRAMES)
                room, rows, is_inside = self.run_script(TUNES_BAR, words, tally)
                self.assertGreater(room, 60, (wide, tally))
                self.assertEqual((rows, is_inside), (1, True), (wide, tally))

    def test_the_bar_of_the_instruments(self) -> None:
        """The button that closes the dialog is beside its name and its search."""
        self.run_script("document.getElementById('instruments-open').click()")
        for wide in (820, 390, 360):
            self.size(wide, 844)
            self.driver.execute_async_script(FRAMES)
            middles = self.run_script("return ['instruments-name', 'instruments-find', 'instruments-close'].map((id) => { const { top, bottom } = document.getElementById(id).getBoundingClientRect(); return Math.round((top + bottom) / 8); })")
            self.assertEqual(len(set(middles)), 1, (wide, middles))

    def test_the_words_of_practice(self) -> None:
        """Words of one control are in one row."""
        self.driver.find_element("id", "practise").click()
        for wide, high in ((1366, 768), (844, 390), (820, 844), (761, 330), (683, 330), (621, 844), (390, 844)):
            self.size(wide, high)
            self.driver.execute_async_script(FRAMES)
            self.assertEqual(self.run_script(BROKEN_LABELS), [], (wide, high))

    def test_the_button_that_mends_a_fault(self) -> None:
        """It is beside the first words of its fault, so it is seen also if the sentence is longer than the list is high."""
        self.size(390, 800)
        self.edit(6, 7, "[V:2] G2D2|G2 'D2|G2D2|G4|")
        self.assertEqual(self.wait(lambda: self.run_script(MEND)), [True, True])

    def test_a_server_that_is_away(self) -> None:
        """The sentence on it is longer than others, and is there whole."""
        self.kill()
        for wide in (390, 360):
            self.size(wide, 844)
            self.assertEqual(self.wait(lambda: (shown := self.run_script(SENTENCE))[0] and shown), [True, True, True], wide)
        self.assertTrue(self.has_lines(6))

    def test_a_tablet(self) -> None:
        """A title has a row of its own with the time, the filter has room for some words, and what finds is one row."""
        self.size(768, 1024)
        self.wait(lambda: self.run_script(IS_WHOLE))
        self.assertGreater(self.run_script("return document.getElementById('filter').clientWidth"), 90)
        self.press("f", CONTROL)
        self.press("B")
        self.wait(lambda: " of " in self.text("found"))
        self.assertTrue(self.run_script(ONE_ROW))

    def test_other_sizes_while_voices_are_shown(self) -> None:
        """What follows a size changes no size too late for the browser: that is an error, 'ResizeObserver loop'."""
        self.driver.find_element("id", "practise").click()
        for wide, high in [(1280, 900), (820, 1180), (390, 844), (390, 500), (1280, 500), (600, 1400)] * 3:
            self.size(wide, high)
            self.driver.execute_async_script(FRAMES)
        self.assertEqual(self.run_script("return window.wrong"), [])

    def test_the_bar(self) -> None:
        """No button is alone in a row, and none is cut off, whatever the bar shows."""
        for wide, high in ((360, 740), (390, 844), (620, 900), (640, 900), (820, 1180), (1280, 900)):
            self.size(wide, high)
            self.assertEqual(self.run_script(BAR), [], wide)

    def test_the_buttons_of_a_dialog(self) -> None:
        """'Cancel' is in a row with others, whatever the dialog shows."""
        self.press("s", CONTROL, SHIFT)
        self.wait(lambda: self.run_script("return document.getElementById('copy').open"))
        for wide in (360, 390, 1280):
            self.size(wide, 844)
            for replaces in (False, True):
                self.assertEqual(self.run_script(BUTTONS, replaces), [["copy-download", "copy-close"], True], (wide, replaces))

    def test_while_practising(self) -> None:
        self.driver.find_element("id", "practise").click()
        self.parts_are_reached()
        self.assertTrue(self.has_lines(6))

    def test_while_a_question_is_open(self) -> None:
        self.edit(0, 1, "X:2")
        self.path.write_bytes(b"X:3\n")
        self.wait(self.question)
        self.parts_are_reached()
        self.assertTrue(self.has_lines(6))
        self.driver.find_element("id", "practise").click()
        self.parts_are_reached()

    def test_a_question_on_a_tablet(self) -> None:
        """Its answers are one row, below its words."""
        self.size(820, 1100)
        self.edit(0, 1, "X:2")
        self.path.write_bytes(b"X:3\n")
        self.wait(self.question)
        words, *answers = self.run_script("return [...document.querySelectorAll('#notice > :is(span, button)')].map((one) => [one.getBoundingClientRect().top, one.getBoundingClientRect().bottom])")
        self.assertEqual(len(answers), 4)
        self.assertEqual([top for top, _ in answers], 4 * [answers[0][0]])
        self.assertLess(words[1], answers[0][0])

    def test_an_expression_that_is_wrong(self) -> None:
        """What is wrong with it has a row of its own on a tablet, and is no column of single words."""
        self.press("f", CONTROL)
        self.run_script("document.getElementById('regular').click(); document.getElementById('find-words').focus()")
        self.press("(d")
        for wide, most in ((900, 1.2), (820, 1.2), (621, 2.2), (390, 2.2)):
            self.size(wide, 1100)
            self.wait(lambda: self.run_script(WARNING)[0] == "bad")
            _, lines, has_room = self.run_script(WARNING)
            self.assertLess(lines, most, wide)
            self.assertTrue(has_room, wide)

    def test_the_choices_of_a_dialog(self) -> None:
        """More room is between two of them than between one and its words. Their colour is that of all controls."""
        self.run_script("document.getElementById('transpose-open').click()")
        self.wait(lambda: self.text("transpose-words"))
        for wide in (390, 820):
            self.size(wide, 844)
            room, is_beside, boxes, accent = self.run_script(CHOICES)
            self.assertTrue(is_beside, wide)
            self.assertGreater(room, 14, wide)
            self.assertEqual(boxes, [accent, accent])

    def test_the_text_comes_into_view(self) -> None:
        """A key that goes to a fault shows it, however far down the page is."""
        self.driver.find_element("id", "practise").click()
        self.run_script("document.querySelector('main').scrollTop = 10000")
        self.assertFalse(self.run_script(MARK))
        self.press(F8)
        self.wait(lambda: self.run_script(MARK))

    @unittest.skipUnless(shutil.which("abcm2ps"), "abcm2ps is not installed")
    def test_the_score(self) -> None:
        """It can be printed, and both staves are seen while one practises."""
        self.wait(lambda: self.run_script(REACHED, "print"))
        self.driver.find_element("id", "practise").click()
        self.wait(lambda: self.run_script(REACHED, "print"))
        self.run_script("document.getElementById('score').scrollIntoView({ block: 'nearest' })")
        self.wait(lambda: self.run_script(STAVES))

    @unittest.skipUnless(shutil.which("abcm2ps"), "abcm2ps is not installed")
    def test_long_words_of_the_score(self) -> None:
        """A title and a composer are seen whole."""
        title = "The Tune of the Gentle Maiden, as the Fiddlers of County Clare play it"
        composer = "Trad., arranged by the Society of Pipers for a Flute and two Fiddles"
        self.edit(1, 2, f"T:{title}", f"C:{composer}")
        self.wait(lambda: self.run_script(WORDS) == [[title, True], [composer, True]])
