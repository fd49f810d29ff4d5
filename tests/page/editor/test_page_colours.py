"""The looks of the text in a real browser: colours, contrast, and that no line is cut."""

import test_page_in_browser
from browser_keys import CONTROL, END
from music_page import CARET

TEXT = ['X:1', 'T:Kesh % jig', 'K:G', '%%MIDI program 41', '|:"Am"G2 !p!A {c}B "^slow"c :|', 'w:la la', '% end', '', 'No tune: |:C']
COLOURED = """
return [...document.querySelectorAll(".colours div")].map((row) => [...row.querySelectorAll("span")].map((part) => [part.textContent, part.className]));
"""
PLACES = """
const found = [], layer = document.querySelector(".colours").getBoundingClientRect();
const area = document.querySelector("textarea"), at = area.getBoundingClientRect();
const rows = [...document.querySelectorAll(".colours div")].map((row) => row.textContent), first = Math.round((layer.top - at.top) / 21);
const style = (one) => ["fontFamily", "fontSize", "lineHeight", "letterSpacing", "tabSize", "fontVariantLigatures"].map((name) => getComputedStyle(one)[name]).join();
return {
  text: rows.join("\\n"), value: area.value.split("\\n").slice(first, first + rows.length).join("\\n"),
  left: layer.left - at.left, top: layer.top - at.top - 21 * first, high: layer.height - 21 * rows.length, same: style(document.querySelector(".colours")) === style(area),
  hidden: document.querySelector(".colours").getAttribute("aria-hidden"),
};
"""
CONTRASTS = """
const pen = Object.assign(document.createElement("canvas"), { width: 1, height: 1 }).getContext("2d", { willReadFrequently: true });
const light = (colour) => {
  pen.clearRect(0, 0, 1, 1);
  pen.fillStyle = colour;
  pen.fillRect(0, 0, 1, 1);
  const [red, green, blue] = [...pen.getImageData(0, 0, 1, 1).data].map((part) => (part / 255 <= 0.04045 ? part / 3294.6 : ((part / 255 + 0.055) / 1.055) ** 2.4));
  return 0.2126 * red + 0.7152 * green + 0.0722 * blue;
};
const contrast = (one, other) => {
  const [low, high] = [light(one), light(other)].sort((a, b) => a - b);
  return (high + 0.05) / (low + 0.05);
};
const style = getComputedStyle(document.documentElement), value = (name) => style.getPropertyValue(name).trim();
const backs = ["--paper", "--here", "--fault-back", "--hint-back", "--find", "--sounding", "--sounding-line"].map(value);
const fronts = [...document.querySelectorAll(".colours, .colours span")].map((part) => [part.className, getComputedStyle(part).color]);
const edges = [...document.querySelectorAll("main > *, header button, input:not([type=checkbox], [type=range]), .choices span, #search button, #music button, .bar button:not(#count), dialog form :is(button, select)")]
  .map((one) => [one.id || one.className || one.textContent, getComputedStyle(one).borderTopColor])
  .concat([["slider", value("--accent")]]);
const quiet = [...document.querySelectorAll("#status, #place, #keys, #tally, .numbers, #count, dialog :is(label, p, ul, button, select, input)")].map((one) => [one.id || one.className, getComputedStyle(one).color]);
return {
  text: fronts.map(([name, colour]) => [name, Math.min(...backs.map((back) => contrast(colour, back)))]),
  edges: edges.map(([name, colour]) => [name, Math.min(contrast(colour, value("--paper")), contrast(colour, value("--desk")))]),
  quiet: quiet.map(([name, colour]) => [name, Math.min(contrast(colour, value("--paper")), contrast(colour, value("--desk")))]),
};
"""
BOTTOM = """
const view = document.querySelector(".scroller"), end = view.getBoundingClientRect().top + view.clientHeight;
const cover = parseFloat(getComputedStyle(document.querySelector(".view"), "::before").height);
const rows = [...document.querySelectorAll(".colours div")].map((row) => row.getBoundingClientRect());
return { cover, cut: rows.filter((row) => row.top + 0.5 < end - cover && row.bottom > end - cover + 0.5).length, shown: rows.filter((row) => row.bottom <= end - cover + 0.5).length };
"""
COVERS = """
const view = document.querySelector(".scroller").getBoundingClientRect();
const rows = [...document.querySelectorAll(".colours div")].map((one) => one.getBoundingClientRect());
return rows[0].top <= view.top + 8 && rows.at(-1).bottom >= view.bottom;
"""
FADES = "return getComputedStyle(document.querySelector('.view'), '::after').backgroundImage.startsWith('linear-gradient')"
BELOW = """
const mark = document.querySelector("mark"), { left, width } = mark.getBoundingClientRect();
return { left, width, bottom: mark.parentNode.getBoundingClientRect().bottom };
"""


class Colours(test_page_in_browser.Browser):
    """The layers below the text."""

    is_opened = False

    def emulate(self, scheme: str) -> None:
        feature = {"name": "prefers-color-scheme", "value": scheme}
        self.driver.execute_cdp_cmd("Emulation.setEmulatedMedia", {"features": [feature]})
        self.addCleanup(lambda: self.driver and self.driver.execute_cdp_cmd("Emulation.setEmulatedMedia", {"features": []}))

    def test_nothing_covers_the_letters(self) -> None:
        """The marks of a pair of quotes at the caret are below them. A later element is painted over those before it."""
        self.edit(0, 1, "X:1", "K:D", '"D"D4|')
        self.load()
        self.run_script(CARET, 2, 0)
        self.wait(lambda: self.run_script("return document.querySelectorAll('.brackets .bracket').length") == 2)
        layers = self.run_script("return [...document.querySelectorAll('.lines > *')].map(({ className, tagName }) => className || tagName)")
        self.assertEqual(layers[-2:], ["colours", "TEXTAREA"])

    def test_parts_of_lines(self) -> None:
        self.edit(0, 1, *TEXT)
        self.load()
        wanted = [
            [["X:", "field"], ["1", "value"]],
            [["T:", "field"], ["Kesh ", "value"], ["% jig", "comment"]],
            [["K:", "field"], ["G", "value"]],
            [["%%MIDI program 41", "directive"]],
            [["|:", "barline"], ['"Am"', "chord"], ["!p!", "decoration"], ["{c}", "grace"], ['"^slow"', "string"], [":|", "barline"]],
            [["w:", "field"], ["la la", "lyric"]],
            [["% end", "comment"]],
            [],
            [],
        ]
        self.wait(lambda: self.run_script(COLOURED) == wanted)
        self.type(END, CONTROL)
        self.press('\nX:2\nK:C\n"C"C')
        wanted += [[["X:", "field"], ["2", "value"]], [["K:", "field"], ["C", "value"]], [['"C"', "chord"]]]
        self.wait(lambda: self.run_script(COLOURED) == wanted)

    def test_a_line_that_is_typed_keeps_its_colours(self) -> None:
        """Till the server has found its tokens."""
        self.edit(0, 1, "X:1", "K:C", '|:"Am"C D:|% end')
        self.load()
        wanted = [["|:", "barline"], ['"Am"', "chord"], [":|", "barline"], ["% end", "comment"]]
        self.wait(lambda: self.run_script(COLOURED)[2] == wanted)
        self.kill()
        self.run_script(CARET, 2, 7)
        self.press("!f!")
        self.wait(lambda: self.run_script(PLACES)["text"].endswith('"Am"C!f! D:|% end'))
        self.assertEqual(self.run_script(COLOURED)[2], wanted)

    def test_the_layer_is_below_the_text(self) -> None:
        """It has the same letters at the same places, after scrolling and edits too, and is none for those who listen."""
        lines = [line for number in range(1, 400) for line in (f"X:{number}", "T:\tTab é 𝄞 \ufffd", "K:C", "|:C2\tD|", "")]
        self.edit(0, 1, *lines)
        self.load()
        for top in (0, 777, 20_000, 10_001):
            self.run_script("document.querySelector('.scroller').scrollTop = arguments[0]", top)
            self.same_places()
        self.edit(900, 950, "new")
        self.same_places()
        self.type("\n\nabc")
        self.same_places()

    def same_places(self) -> None:
        """Waits till the layer has what the text area has."""
        self.wait(lambda: (found := self.run_script(PLACES))["text"] == found["value"] and self.run_script(COVERS))
        found = self.run_script(PLACES)
        self.assertEqual((found["left"], found["top"], found["high"], found["same"], found["hidden"]), (0, 0, 0, True, "true"))

    def test_a_long_selection(self) -> None:
        """Only lines about those that are seen have colours, also if all are selected."""
        self.edit(0, 1, *["C|"] * 5000)
        self.load()
        self.type("a", CONTROL)
        self.wait(lambda: self.run_script("return document.querySelector('textarea').classList.contains('away')"))
        for top in (0, 50_000):
            self.run_script("document.querySelector('.scroller').scrollTop = arguments[0]", top)
            self.wait(lambda: self.run_script(COVERS))
            self.assertLess(self.run_script("return document.querySelectorAll('.colours div').length"), 400)

    def test_contrasts(self) -> None:
        """At least 4.5 to 1 for text on each background that it may have, and 3 to 1 for borders, by day and by night."""
        self.edit(0, 1, *TEXT)
        for scheme in ("light", "dark"):
            self.emulate(scheme)
            self.load()
            self.type("f", CONTROL)
            self.press("Kesh")
            self.wait(lambda: self.run_script("return document.querySelectorAll('.colours span').length") > 10)
            found = self.run_script(CONTRASTS)
            self.assertGreater(len(found["edges"]), 12)
            self.assertEqual([one for one in found["text"] if one[1] < 4.5], [], scheme)
            self.assertEqual([one for one in found["edges"] if one[1] < 3], [], scheme)
            self.assertEqual([one for one in found["quiet"] if one[1] < 4.5], [], scheme)

    def test_no_line_is_cut_at_the_bottom(self) -> None:
        """Whatever the height of the view, and wherever it is scrolled to."""
        self.edit(0, 1, *["C|"] * 300)
        self.load()
        for high in (900, 907, 913):
            self.size(1280, high)
            for top in (0, 5, 100, 1013, 99_999):
                self.run_script("document.querySelector('.scroller').scrollTop = arguments[0]", top)
                self.wait(lambda: (found := self.run_script(BOTTOM))["cut"] == 0 and found["shown"] > 5 and found["cover"] < 21)

    def test_the_line_of_the_caret_stays_in_view(self) -> None:
        """Faults that appear below the text make its view lower."""
        self.edit(0, 1, "X:1", "K:C", *["C|"] * 60)
        self.load()
        self.type(END, CONTROL)
        high = self.run_script("return document.querySelector('.scroller').clientHeight")
        self.press("&")
        self.wait(lambda: self.run_script("return document.querySelector('.scroller').clientHeight") < high)
        seen = """
        const here = document.querySelector(".here").getBoundingClientRect(), view = document.querySelector(".scroller");
        const cover = parseFloat(getComputedStyle(document.querySelector(".view"), "::before").height);
        return here.top >= view.getBoundingClientRect().top && here.bottom <= view.getBoundingClientRect().top + view.clientHeight - cover + 0.5;
        """
        self.wait(lambda: self.run_script(seen))
        self.run_script("document.getElementById('practise').focus()")
        self.press("\n")
        self.wait(lambda: self.run_script("return document.querySelector('.scroller').clientHeight") < high - 40)
        self.wait(lambda: self.run_script(seen))

    def test_a_fault_in_the_last_line_is_underlined(self) -> None:
        """Below the line, where other lines have their underline too, also if the text is longer than its view."""
        for count in (1, 60):
            self.edit(0, len(self.book()["lines"]), "X:1", "K:C", *["C|"] * count, "C!")
            self.load()
            self.type(END, CONTROL)
            self.wait(lambda: self.run_script("return document.querySelector('mark') !== null"))
            found = self.run_script(BELOW)
            clip = {"x": found["left"], "y": found["bottom"], "width": found["width"], "height": 3, "scale": 1}
            before = self.driver.execute_cdp_cmd("Page.captureScreenshot", {"clip": clip})["data"]
            self.run_script("document.querySelector('mark').style.textDecoration = 'none'")
            self.assertNotEqual(self.driver.execute_cdp_cmd("Page.captureScreenshot", {"clip": clip})["data"], before, count)

    def test_room_above_the_first_line(self) -> None:
        self.edit(0, 1, *TEXT)
        self.load()
        room = "return document.querySelector('textarea').getBoundingClientRect().top - document.querySelector('.scroller').getBoundingClientRect().top"
        self.assertGreaterEqual(self.run_script(room), 6)

    def test_long_lines_fade(self) -> None:
        """Where lines do not wrap, their ends fade at the right side till they are scrolled to, and short lines do not."""
        self.size(640, 844)
        self.edit(0, 1, "X:1", "K:C", "C")
        self.load()
        self.assertFalse(self.run_script(FADES))
        self.edit(2, 3, 30 * "CDEF ")
        self.wait(lambda: self.run_script(FADES))
        self.run_script("document.querySelector('.scroller').scrollLeft = 1e6")
        self.wait(lambda: not self.run_script(FADES))
