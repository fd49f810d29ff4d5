"""The piano roll of the page, in a real browser: zoom, rows, bars, colours. What is drawn is read from its canvas."""

from typing import Any

import music_page

PIXELS = """
const canvas = document.querySelector("#roll canvas"), scale = devicePixelRatio;
const [x, y, wide, high] = arguments[0].map((pixel) => Math.round(pixel * scale));
const data = canvas.getContext("2d").getImageData(x, y, wide || canvas.width - x, high || canvas.height - y).data;
const found = [];
for (let n = 0; n < data.length; n += 4) found.push(`#${[0, 1, 2].map((part) => data[n + part].toString(16).padStart(2, "0")).join("")}`);
return found;
"""  # of a box in the canvas, row by row; without a size up to its edge
VARIABLE = "return getComputedStyle(document.getElementById('roll')).getPropertyValue(arguments[0]).trim()"
SIZE = "const { style } = document.querySelector('#roll .space'); return [parseFloat(style.width), parseFloat(style.height)]"
SWATCHES = "return [...document.querySelectorAll('#voices i')].map((one) => getComputedStyle(one).backgroundColor.match(/\\d+/g).map(Number))"
WHEEL = """
const roll = document.getElementById("roll"), { left, top } = roll.getBoundingClientRect();
const options = { bubbles: true, cancelable: true, ctrlKey: true, deltaY: arguments[0], clientX: left + arguments[1], clientY: top + 50 };
return !roll.dispatchEvent(new WheelEvent("wheel", options));
"""  # whether the page keeps the browser from zooming itself
LONG = ["X:1", "M:4/4", "L:1/4", "K:C", *(20 * ["CDEF|GABc|"])]
SIDE, QUARTER = 34, 44


class Roll(music_page.MusicPage):
    """Someone looks at the roll."""

    def pixels(self, *box: int) -> list[str]:
        """The colours of a box."""
        return [str(colour) for colour in self.run_script(PIXELS, box)]

    def lines(self, name: str, y: int) -> list[int]:
        """How far from the left there are lines of a colour, along a row of the canvas."""
        colour = self.run_script(VARIABLE, name)
        row = self.pixels(0, y, 0, 1)
        return [x for x, found in enumerate(row) if found == colour and row[x - 1] != colour]

    def shown(self, name: str, y: int, wanted: list[int]) -> None:
        """Waits till there are just these lines, give or take a pixel of rounding."""
        def fits() -> bool:
            found = self.lines(name, y)
            return len(found) == len(wanted) and all(abs(a - b) <= 1 for a, b in zip(found, wanted))

        self.wait(fits)

    def test_zoom(self) -> None:
        """By buttons, by keys, and by the wheel, which leaves what is below the mouse where it is."""
        self.open(LONG, "40 bars")
        wide = self.run_script(SIZE)[0]
        self.click("wider")
        self.assertGreater(self.run_script(SIZE)[0], 1.2 * wide)
        self.click("narrower")
        self.assertAlmostEqual(self.run_script(SIZE)[0], wide, delta=1)
        self.run_script("document.getElementById('roll').focus()")
        self.press("-")
        self.assertLess(self.run_script(SIZE)[0], wide / 1.2)
        self.press("+")
        self.assertAlmostEqual(self.run_script(SIZE)[0], wide, delta=1)
        self.run_script("document.getElementById('roll').scrollLeft = 500")
        self.assertTrue(self.run_script(WHEEL, -100, 234))
        self.assertAlmostEqual(self.run_script("return document.getElementById('roll').scrollLeft"), (500 + 234 - SIDE) * 1.25 + SIDE - 234, delta=1)
        self.run_script("document.getElementById('roll').focus()")
        self.press("0")
        self.assertAlmostEqual(self.run_script(SIZE)[0], wide, delta=1)

    def test_rows(self) -> None:
        """Of five octaves each row has four pixels at least; the rest is scrolled to."""
        self.open(["X:1", "L:1/4", "K:C", "C,,, c''|"], "from C1 to C7")
        _, high = self.run_script(SIZE)
        self.assertGreaterEqual(high, 4 * (96 - 24 + 3))
        seen, whole = self.run_script("const roll = document.getElementById('roll'); return [roll.clientHeight, roll.scrollHeight]")
        self.assertGreater(whole, seen)
        self.assertLessEqual(whole, high + 1)

    def test_bars_of_the_text(self) -> None:
        """Lines are at the bar lines of the text, with a pickup of a quarter and a repeat; faint ones are at the beats."""
        self.open(["X:1", "M:3/4", "L:1/4", "K:C", "C|:D2E:|F3|]"], "3 bars")
        self.shown("--bar-line", 1, [SIDE + QUARTER * quarters for quarters in (0, 1, 4, 7, 10)])
        high = self.run_script("return document.getElementById('roll').clientHeight")
        self.shown("--beat", high - 4, [SIDE + QUARTER * quarters for quarters in (2, 3, 5, 6, 8, 9)])

    def test_unisons(self) -> None:
        """Two voices on one key are seen both, one above the other, each in its colour."""
        self.open(["X:1", "L:1/4", "V:1", "V:2", "K:C", "V:1", "!fff!C4|", "V:2", "!fff!C4|"], "2 voices")
        swatches = ["#%02x%02x%02x" % tuple(colour) for colour in self.run_script(SWATCHES)]
        self.assertEqual(len(set(swatches)), 2)

        def column() -> list[str]:
            found = [colour for colour in self.pixels(SIDE + 60, 20, 1, 0) if colour in swatches]
            return [colour for n, colour in enumerate(found) if n == 0 or found[n - 1] != colour]

        self.wait(lambda: column() == swatches)

    def test_light_and_dark(self) -> None:
        """The colours of roll and voices follow while the page is open, and differ from the paper."""
        self.open(["X:1", "L:1/4", "V:1", "V:2", "V:3", "K:C", "V:1", "C4|", "V:2", "!ppp!E4|", "V:3", "G4|"], "3 voices")
        found: list[Any] = []
        try:
            for scheme in ("light", "dark", "light"):
                self.driver.execute_cdp_cmd("Emulation.setEmulatedMedia", {"features": [{"name": "prefers-color-scheme", "value": scheme}]})
                paper = self.run_script(VARIABLE, "--paper")
                self.wait(lambda: self.pixels(2, 2, 1, 1) == [paper])
                self.wait(lambda: not found or self.run_script(SWATCHES) != found[-1])
                found.append(self.run_script(SWATCHES))
                notes = self.notes_of(SIDE + 60)
                self.assertEqual(len(set(notes)), 3)
                for colour in {*notes, *("#%02x%02x%02x" % tuple(swatch) for swatch in found[-1])}:
                    self.assertGreaterEqual(contrast(colour, paper), 3, (scheme, colour))
        finally:
            self.driver.execute_cdp_cmd("Emulation.setEmulatedMedia", {"features": []})
        self.assertEqual(found[0], found[2])
        self.assertNotEqual(found[0], found[1])

    def notes_of(self, x: int) -> list[str]:
        """The colours of the notes along a column: each is several pixels high, and no ground."""
        column = self.pixels(x, 20, 1, 0)
        clear = "#000000"  # nothing is drawn there
        grounds = {clear, *(self.run_script(VARIABLE, name) for name in ("--paper", "--row", "--line", "--beat", "--bar-line"))}
        runs = [colour for n, colour in enumerate(column) if column[n : n + 4] == 4 * [colour]]
        return list(dict.fromkeys(colour for colour in runs if colour not in grounds))

    def test_a_stretch_along_the_numbers_is_looped(self) -> None:
        self.open(LONG, "40 bars")
        self.point(SIDE + 4 * QUARTER + 3, 6)
        self.drag(SIDE + 6 * QUARTER - 5, 6)
        self.wait(lambda: self.run_script("return document.getElementById('looping').checked"))
        loop = self.run_script(VARIABLE, "--loop")
        self.wait(lambda: loop in self.pixels(SIDE + 4 * QUARTER + 30, 5, 1, 1))
        self.assertNotIn(loop, self.pixels(SIDE + 2 * QUARTER, 5, 1, 1) + self.pixels(SIDE + 7 * QUARTER, 5, 1, 1))

    def drag(self, x: float, y: float) -> None:
        """Draws the mouse from where it is to a place of the roll."""
        from selenium.webdriver.common.action_chains import ActionChains

        roll = self.driver.find_element("id", "roll")
        size = roll.size
        to = (x - size["width"] / 2, y - size["height"] / 2)
        ActionChains(self.driver).click_and_hold().move_to_element_with_offset(roll, *to).release().perform()


def contrast(*colours: str) -> float:
    """The contrast of two colours #rrggbb, by WCAG 2."""
    light: list[float] = []
    for colour in colours:
        parts = [int(colour[at : at + 2], 16) / 255 for at in (1, 3, 5)]
        red, green, blue = (part / 12.92 if part <= 0.03928 else ((part + 0.055) / 1.055) ** 2.4 for part in parts)
        light.append(0.2126 * red + 0.7152 * green + 0.0722 * blue + 0.05)
    return max(light) / min(light)
