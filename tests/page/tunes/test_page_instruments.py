"""The instruments of the page: their table and search, without a browser; their menu, in a real one."""

import page_in_node
import test_page_in_browser
import trial
from test_page_in_browser import CONTROL


class Scripts(page_in_node.PageScripts):
    def test_scripts(self) -> None:
        self.assert_ok("tunes/page_instruments.mjs", 5, str(trial.PACKAGES / "abc2midi_live_clients/common/completion.json"))


class Choosing(test_page_in_browser.Browser):
    """Someone who chooses an instrument."""

    opening = b"X:1\nT:Reel\nK:G\nGABc|\ndefg|\n"
    listed = "return [...document.querySelectorAll('#instruments-list button')].map((one) => one.textContent)"

    def test_the_menu(self) -> None:
        """A search and Enter give the tune a program, a click one from the caret on; each is one step."""
        self.type("\ue015" * 4)
        self.driver.find_element("id", "instruments-open").click()
        self.assertEqual(len(self.run_script(self.listed)), 128)
        self.press("fiddle")
        self.wait(lambda: self.run_script(self.listed) == ["40Violin", "110Fiddle"])
        self.press("\n")
        self.wait_for_lines("X:1", "T:Reel", "%%MIDI program 40", "K:G", "GABc|", "defg|", "")
        self.wait(lambda: self.text("status").startswith("%%MIDI program 40: Violin."))
        self.driver.find_element("id", "instruments-open").click()
        self.driver.find_element("id", "instruments-from-here").click()
        self.run_script("[...document.querySelectorAll('#instruments-list button')][73].click()")
        self.wait_for_lines("X:1", "T:Reel", "%%MIDI program 40", "K:G", "GABc|", "%%MIDI program 73", "defg|", "")
        self.press("zz", CONTROL)
        self.wait_for_lines("X:1", "T:Reel", "K:G", "GABc|", "defg|", "")

    def test_completion(self) -> None:
        """The directive offers numbers with names; the word of an instrument finds its number."""
        self.type("\ue015\ue015")
        self.put("\n")
        self.press("\ue013%%M")
        self.wait(lambda: self.run_script("return [...document.querySelectorAll('#completion:not([hidden]) b')].map((one) => one.textContent)") == ["%%MIDI program"])
        self.press("\ue004fidd")
        self.wait(lambda: self.run_script("return [...document.querySelectorAll('#completion:not([hidden]) li')].map((one) => one.textContent)") == ["40Violin", "110Fiddle"])
        self.press("\ue004")
        self.wait_for_lines("X:1", "T:Reel", "%%MIDI program 40", "K:G", "GABc|", "defg|", "")
