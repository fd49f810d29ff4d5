"""Practising in the page, in a real browser: from the caret, loop, tempo, count-in, voices, and what lights up where."""

import shutil
import unittest

import music_page
from test_page_in_browser import AREA, CONTROL, END, HOME

SHIFT, RIGHT, LEFT = "\ue008", "\ue014", "\ue012"
SCALE = ["X:1", "M:2/4", "L:1/4", "Q:1/4=60", "K:C", "CD|EF|", "GA|Bc|", "", "words"]
DUET = ["X:1", "M:2/4", "L:1/4", "Q:1/4=60", "V:1", 'V:2 name="Low"', "K:C", "V:1", "CD|", "V:2", "E,2|"]
WHERE = f"return [{AREA}.value.slice(0, {AREA}.selectionStart).split('\\n').length - 1, {AREA}.value.slice(0, {AREA}.selectionStart).split('\\n').pop().length]"
SOUNDING = """
const first = Number(document.querySelector(".numbers").textContent.trim().split("\\n")[0]) - 1;
const lines = [...document.querySelectorAll(".sounding .line")].map((row) => first + parseFloat(row.style.top) / 21);
return [lines, [...document.querySelectorAll(".sounding .note i")].map((mark) => mark.textContent)];
"""
FRAMES = """
const canvas = document.querySelector("#roll canvas"), wide = canvas.width, high = canvas.height;
const colour = getComputedStyle(canvas).getPropertyValue("--cursor").match(/[0-9a-f]{2}/g).map((part) => parseInt(part, 16));
const data = canvas.getContext("2d").getImageData(0, 0, wide, high).data;
const box = [Infinity, Infinity, -1, -1];
for (let y = 0; y < high; y += 1) for (let x = 0; x < wide; x += 1) {
  if (!colour.every((part, n) => Math.abs(part - data[4 * (y * wide + x) + n]) < 3)) continue;
  box[0] = Math.min(box[0], x); box[1] = Math.min(box[1], y); box[2] = Math.max(box[2], x); box[3] = Math.max(box[3], y);
}
return box[2] < 0 ? null : box.map((pixel) => pixel / devicePixelRatio);
"""  # the box of what has the colour of the cursor in the roll
LETTER = """
const row = document.querySelectorAll(".colours div")[arguments[0]], walker = document.createTreeWalker(row, NodeFilter.SHOW_TEXT), range = document.createRange();
let at = arguments[1];
while (walker.nextNode() && at >= walker.currentNode.length) at -= walker.currentNode.length;
range.setStart(walker.currentNode, at);
range.setEnd(walker.currentNode, at + 1);
const { left, top, width, height } = range.getBoundingClientRect();
return [left + 0.3 * width, top + 0.5 * height];
"""  # where in the window a letter of the text is
LIT = "return [...document.querySelectorAll('#score .score-lit')].map(({ note }) => [note.line, note.column])"
VOICES = "return [...document.querySelectorAll('#voices > span, #parts .part > span')].map((one) => one.textContent)"
GROUNDS = "return [...document.querySelectorAll('#parts .part i')].map((one) => one.style.background)"
LISTEN = """
const connect = AudioNode.prototype.connect, start = OscillatorNode.prototype.start;
window.sources = [];
AudioNode.prototype.connect = function (to, ...more) { this.goesTo = to; return connect.call(this, to, ...more); };
OscillatorNode.prototype.start = function (when) { sources.push(this); return start.call(this, when); };
window.heard = () => sources.filter((source) => {
  let node = source;
  while (!(node.goesTo.goesTo instanceof DynamicsCompressorNode)) node = node.goesTo;
  return node.gain.value > 0;
}).map((source) => Math.round(69 + 12 * Math.log2(source.frequency.value / 440)));
"""  # the keys of the scheduled notes of voices that are not muted


class Practising(music_page.MusicPage):
    """Someone who learns a tune. A quarter note lasts a second, and the first one sounds a tenth of a second after the button."""

    def test_from_the_caret(self) -> None:
        self.open(SCALE, "4 bars")
        self.caret(6, 0)
        self.press(" ", CONTROL, SHIFT)
        self.hear(0, 67)
        self.hear(1, 67, 69)
        self.click("play")
        self.click("practise")
        self.caret(5, 3)
        self.click("from-caret")
        self.hear(1, 67, 69, 64)

    def test_where_the_caret_is_in_no_tune(self) -> None:
        self.open(SCALE, "4 bars")
        self.caret(8, 2)
        self.press(" ", CONTROL, SHIFT)
        self.wait(lambda: self.text("status") == "The place of the caret in the tune is not known.")
        self.assertEqual(self.run_script("return played"), [])

    def test_a_loop_of_bars(self) -> None:
        """It begins at its first bar, goes on with it after its last one, and ends with its box."""
        self.open(SCALE, "4 bars")
        self.click("practise")
        self.assertEqual(self.run_script("return ['loop-from', 'loop-to'].map((id) => document.getElementById(id).value)"), ["1", "4"])
        self.fill("loop-from", 2)
        self.fill("loop-to", 2)
        self.click("play")
        self.hear(0, 64)
        self.hear(1, 64, 65)
        self.hear(2, 64, 65, 64)
        self.hear(3, 64, 65, 64, 65)
        self.assertEqual(self.beginnings(), [0, 1, 2, 3])
        self.click("looping")
        self.hear(4, 64, 65, 64, 65, 67)

    def test_a_loop_of_the_selected_lines(self) -> None:
        self.open(SCALE, "4 bars")
        self.click("practise")
        self.caret(6, 0, 4)
        self.click("loop-lines")
        self.assertEqual(self.run_script("return ['loop-from', 'loop-to'].map((id) => document.getElementById(id).value)"), ["3", "4"])
        self.click("play")
        for second, keys in enumerate([[67], [67, 69], [67, 69, 71], [67, 69, 71, 72], [67, 69, 71, 72, 67]]):
            self.hear(second, *keys)

    def test_the_keys_of_a_loop(self) -> None:
        """A and B set its ends at the cursor of the roll, L turns it off and on."""
        self.open(SCALE, "4 bars")
        self.run_script("document.getElementById('roll').focus()")
        self.press(RIGHT + "a" + RIGHT + "b")
        self.press(" ")
        self.hear(0, 62)
        self.hear(1, 62, 62)
        self.press("l")
        self.hear(2, 62, 62, 64)

    def test_a_tempo_while_it_plays(self) -> None:
        """What is not scheduled yet, a quarter of a second ahead, follows in the new tempo."""
        self.open(SCALE, "4 bars")
        self.click("practise")
        self.click("play")
        self.hear(0, 60)
        self.run_script("document.getElementById('tempo').focus()")
        self.press(END)
        self.assertEqual((self.text("full-tempo"), self.text("beats")), ("200 %", "120 beats a minute"))
        self.hear(0.5, 60, 62)
        self.hear(1, 60, 62, 64)
        self.assertEqual(self.beginnings(), [0, 0.615, 1.115])
        self.press(HOME)
        self.assertEqual(self.text("full-tempo"), "25 %")
        self.hear(4.2, 60, 62, 64, 65)
        self.assertEqual(self.beginnings()[3], round(1.25 - 0.02 + (0.5 - (1.25 - 1.135)) * 8, 3))

    def test_a_slow_tempo_from_the_begin(self) -> None:
        self.open(SCALE, "4 bars")
        self.click("practise")
        self.run_script("document.getElementById('tempo').focus()")
        self.press(10 * LEFT)
        self.click("play")
        self.hear(0, 60)
        self.hear(2, 60, 62)
        self.assertEqual(self.beginnings(), [0, 2])

    def test_a_count_in(self) -> None:
        """A bar of clicks, the first one higher. A metronome goes on with them."""
        self.open(SCALE, "4 bars")
        self.click("practise")
        self.click("count-in")
        self.click("metronome")
        self.click("play")
        self.hear(0, 91, 86)
        self.hear(2, 91, 86, 60, 91)
        self.assertEqual(self.beginnings(), [0, 1, 2, 2])
        self.click("metronome")
        self.hear(3, 91, 86, 60, 91, 62)

    def test_voices(self) -> None:
        """One is muted, one is heard alone, one is softer, while they play."""
        self.open(DUET, "2 voices")
        self.run_script(LISTEN)
        self.click("practise")
        buttons = self.driver.find_elements("css selector", "#parts button")
        names = ["Mute Voice 1", "Play Voice 1 alone", "Mute Low", "Play Low alone"]
        self.assertEqual([button.get_attribute("aria-label") for button in buttons], names)
        self.click("play")
        self.wait(lambda: sorted(self.run_script("return heard()")) == [52, 60])
        buttons[0].click()
        self.assertEqual(self.run_script("return heard()"), [52])
        buttons[0].click()
        buttons[1].click()
        self.assertEqual(self.run_script("return heard()"), [60])
        self.assertEqual([button.get_attribute("aria-pressed") for button in buttons], ["false", "true", "false", "false"])
        buttons[3].click()
        self.assertEqual(sorted(self.run_script("return heard()")), [52, 60])
        self.run_script("document.querySelector('[aria-label=\"Volume of Low\"]').focus()")
        self.press(HOME)
        self.assertEqual(self.run_script("return heard()"), [60])

    def test_names_of_voices_follow_the_text(self) -> None:
        """Also if the file stays as it is, so that nothing new comes from the server."""
        self.open(DUET, "2 voices")
        self.assertEqual(self.run_script(VOICES), ["Voice 1", "Low", "Voice 1", "Low"])
        self.caret(4, 3)
        self.run_script("document.execCommand('insertText', false, ' name=\"Flute\"')")
        self.wait(lambda: self.run_script(VOICES) == ["Flute", "Low", "Flute", "Low"])
        self.assertEqual(len(set(self.run_script(GROUNDS))), 2)

    def test_steps_by_keys(self) -> None:
        """The roll says to those who do not see it where its cursor is."""
        self.open(SCALE, "4 bars")
        self.run_script("document.getElementById('roll').focus()")
        trials: list[tuple[str, list[str], str]] = [
            (RIGHT, [], "bar 1, beat 2, D4"), (RIGHT, [CONTROL], "bar 2, beat 1, E4"), (RIGHT, [SHIFT], "bar 3, beat 1, G4"),
            (LEFT, [], "bar 2, beat 2, F4"), (LEFT, [CONTROL], "bar 2, beat 1, E4"), (END, [], "bar 4, beat 1, B4"), (HOME, [], "bar 1, beat 1, C4"),
        ]  # fmt: skip
        for key, held, words in trials:
            self.press(key, *held)
            self.assertEqual(self.value(), words)
        self.press(RIGHT, CONTROL)
        self.press(" ")
        self.hear(0, 64)
        self.press(RIGHT, CONTROL)
        self.wait(lambda: [key for _, key in self.run_script("return played")] == [64, 67])

    def test_what_sounds_is_marked_in_the_text(self) -> None:
        self.open(DUET, "2 voices")
        self.click("play")
        self.hear(0, 52, 60)
        self.wait(lambda: self.run_script(SOUNDING) == [[8, 10], ["C", "E,2"]])
        self.hear(1.2, 52, 60, 62)
        self.wait(lambda: self.run_script(SOUNDING) == [[8, 10], ["D", "E,2"]])
        self.hear(3, 52, 60, 62)
        self.wait(lambda: self.run_script(SOUNDING) == [[], []])

    @unittest.skipUnless(shutil.which("abcm2ps"), "abcm2ps is not installed")
    def test_what_sounds_lights_up_in_the_score(self) -> None:
        self.open(DUET, "2 voices")
        self.wait(lambda: self.run_script("return document.querySelectorAll('#score .score-place').length") == 3)
        self.click("play")
        self.wait(lambda: sorted(self.run_script(LIT)) == [[8, 0], [10, 0]])
        self.hear(1.2, 52, 60, 62)
        self.wait(lambda: sorted(self.run_script(LIT)) == [[8, 1], [10, 0]])
        self.hear(3, 52, 60, 62)
        self.wait(lambda: self.run_script(LIT) == [])

    def test_the_text_scrolls_to_what_sounds(self) -> None:
        """But not while someone is at the text."""
        self.open(["X:1", "L:1/4", "Q:1/4=60", "K:C", "C|", *(99 * ["%"]), "D E|"], "2 bars")
        top = "return document.querySelector('.scroller').scrollTop"
        self.run_script(f"{AREA}.focus()")
        self.press(" ", CONTROL)
        self.hear(0, 60)
        self.hear(1.2, 60, 62)
        self.wait(lambda: self.run_script("return document.getElementById('time').textContent") == "0:01 / 0:03")
        self.assertEqual(self.run_script(top), 0)
        self.run_script("document.getElementById('roll').focus()")
        self.hear(2.2, 60, 62, 64)
        self.wait(lambda: self.run_script(top) > 1000)
        self.wait(lambda: self.run_script(SOUNDING)[1] == ["E"])

    def test_the_note_of_the_caret_is_framed_in_the_roll(self) -> None:
        """And a click on it there leads back to its place, whose name the pointer shows."""
        self.open(SCALE, "4 bars")
        self.caret(5, 3)
        self.wait(lambda: self.run_script(FRAMES))
        left, _, right, _ = self.run_script(FRAMES)
        self.assertTrue(34 + 2 * 44 - 4 <= left <= 34 + 2 * 44 and 34 + 3 * 44 - 4 <= right <= 34 + 3 * 44 + 4, (left, right))
        self.wait(lambda: self.name_in_frame() == "E4, bar 2, beat 1")
        self.caret(3, 2)
        self.wait(lambda: self.run_script(FRAMES) is None)
        self.press_there()
        self.wait(lambda: self.run_script(WHERE) == [5, 3])
        self.hear(0, 64)
        self.press(" ")
        self.hear(0, 64, 64)

    def test_a_click_in_the_text_is_heard(self) -> None:
        """The note under it sounds at once, and the tune plays from there; a click on the key lets it begin anew."""
        self.open(SCALE, "4 bars")
        self.caret(5, 3)
        self.wait(lambda: self.run_script(FRAMES))
        self.click_at(6, 1)
        self.wait(lambda: self.run_script("return played") == [[0, 69]])
        self.press(" ", CONTROL)
        self.hear(1, 69, 69, 71)
        self.click_at(5, 0)
        self.press(" ", CONTROL)
        self.click_at(4, 1)
        self.press(" ", CONTROL)
        self.hear(1, 69, 69, 71, 60)

    def click_at(self, line: int, column: int) -> None:
        """Clicks on a letter of the text."""
        x, y = self.run_script(LETTER, line, column)
        for event in ("mousePressed", "mouseReleased"):
            self.driver.execute_cdp_cmd("Input.dispatchMouseEvent", {"type": event, "x": x, "y": y, "button": "left", "clickCount": 1})

    def name_in_frame(self) -> str:
        """What the page says of the framed note when the mouse moves onto it."""
        left, top, right, bottom = self.run_script(FRAMES)
        self.point(right + 1, bottom + 1)
        self.point((left + right) / 2, (top + bottom) / 2)
        return self.text("tip")

    def test_what_is_not_known_is_not_marked(self) -> None:
        """While the server does not have what was typed, that has no note, and all else has the one that it had."""
        self.open(SCALE, "4 bars")
        self.kill()
        self.wait(lambda: "The server is away" in self.text("status"))
        self.caret(6, 0)
        self.wait(lambda: self.run_script(FRAMES))
        fifth = self.run_script(FRAMES)
        self.caret(5, 0)
        self.press("A")
        self.caret(5, 0)
        self.wait(lambda: self.run_script(FRAMES) is None)
        self.caret(6, 0)
        self.wait(lambda: self.run_script(FRAMES) == fifth)

    def test_on_a_telephone(self) -> None:
        """All of it is in a window of 390 pixels, and nothing scrolls aside."""
        self.size(390, 844)
        self.open(DUET, "2 voices")
        self.edit(0, 0, "% not saved")
        self.wait(self.driver.find_element("id", "unsaved").is_displayed)
        self.click("practise")
        for identifier in ("unsaved", "save", "from-caret", "tempo", "full-tempo", "beats", "count-in", "metronome", "looping", "loop-from", "loop-to", "rise", "loop-lines", "narrower", "wider"):
            element = self.driver.find_element("id", identifier)
            self.run_script("arguments[0].scrollIntoView({ block: 'nearest' })", element)
            self.assertTrue(element.is_displayed(), identifier)
            box = self.run_script("const { left, right } = arguments[0].getBoundingClientRect(); return [left, right]", element)
            self.assertTrue(0 <= box[0] and box[1] <= 390, (identifier, box))
        self.assertEqual(self.run_script("return document.documentElement.scrollWidth"), 390)
        self.assertGreater(self.run_script("return document.getElementById('roll').clientHeight"), 80)
