"""What the tests of playing and of the piano roll share, in a real browser."""

import test_page_in_browser
from test_page_in_browser import AREA, CONTROL

CARET = f"""
const area = {AREA}, at = area.value.split("\\n").slice(0, arguments[0]).join("\\n").length + 1 + arguments[1];
area.focus();
area.setSelectionRange(at, at + (arguments[2] ?? 0));
"""


class MusicPage(test_page_in_browser.Browser):
    """Someone at the music of a tune, which `open` opens."""

    is_opened = False

    def open(self, lines: list[str], *words: str) -> None:
        """Opens the page over a tune, and waits till the roll has it."""
        self.edit(0, len(self.book()["lines"]), *lines)
        self.load()
        self.roll(*words)

    def click(self, identifier: str) -> None:
        """Clicks an element, which has to be seen."""
        self.driver.find_element("id", identifier).click()

    def caret(self, line: int, column: int, length: int = 0) -> None:
        self.run_script(CARET, line, column, length)

    def fill(self, identifier: str, number: int) -> None:
        """Types a number into a field, and leaves it."""
        field = self.driver.find_element("id", identifier)
        field.click()
        self.press("a", CONTROL)
        self.press(f"{number}\ue004")

    def beginnings(self) -> list[float]:
        """When notes were scheduled to start, from the first one on."""
        found = [when for when, _ in self.run_script("return played")]
        return [round(when - found[0], 3) for when in found]

    def value(self) -> str:
        return str(self.run_script("return document.getElementById('roll').ariaValueText ?? ''"))

    def point(self, x: float, y: float) -> None:
        """Moves the mouse to a place of the roll."""
        from selenium.webdriver.common.action_chains import ActionChains

        roll = self.driver.find_element("id", "roll")
        size = roll.size
        ActionChains(self.driver).move_to_element_with_offset(roll, x - size["width"] / 2, y - size["height"] / 2).perform()

    def press_there(self) -> None:
        """Clicks where the mouse is."""
        from selenium.webdriver.common.action_chains import ActionChains

        ActionChains(self.driver).click().perform()
