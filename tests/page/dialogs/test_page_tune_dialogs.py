"""The dialogs that transpose and tidy a tune, in a browser."""

import test_page_in_browser
from browser_keys import CONTROL, ESCAPE

OPEN = "return document.getElementById(arguments[0]).open"
PRESENT = "return document.activeElement.id"
SELECT = f"""
const area = {test_page_in_browser.AREA}, lines = area.value.split("\\n");
const at = (line, column) => lines.slice(0, line).join("\\n").length + Math.sign(line) + column;
area.focus();
area.setSelectionRange(at(arguments[0], arguments[1]), at(arguments[2], arguments[3]));
"""
FITS = """
const { left, right, top, bottom } = document.getElementById(arguments[0]).getBoundingClientRect();
return left >= 0 && right <= innerWidth && top >= 0 && bottom <= innerHeight && document.documentElement.scrollWidth <= innerWidth;
"""
LEFT = "return [...document.querySelectorAll('#transpose-left li')].map((one) => one.textContent)"
TUNE = ["X:1", "T:Air", "L:1/4", "K:G", '"G"GABc|"D.C. al"^cd2/2e|g4|']
WIDTHS = (1280, 820, 390)


class Changed(test_page_in_browser.Browser):
    """Someone who changes a whole tune, by keys alone."""

    opening = "\n".join(TUNE).encode()

    def open(self, name: str) -> None:
        """Opens a dialog by its button, and waits till it shows what it would do."""
        self.run_script("document.getElementById(arguments[0]).focus()", f"{name}-open")
        self.press("\n")
        self.wait(lambda: self.run_script(OPEN, name) and self.text(f"{name}-words"))

    def words(self, name: str, words: str) -> None:
        self.wait(lambda: self.text(f"{name}-words") == words)

    def test_transpose(self) -> None:
        """By semitones, in one step, which is undone in one."""
        self.run_script(SELECT, 4, 3, 4, 3)
        self.open("transpose")
        self.assertEqual(self.run_script(PRESENT), "transpose-first")
        self.words("transpose", "2 semitones up, from G to A.")
        self.assertEqual(self.run_script(LEFT), [])
        self.press("a", CONTROL)
        self.press("-2")
        self.words("transpose", "2 semitones down, from G to F.")
        self.press("\n")
        moved = [*TUNE[:3], "K:F", '"F"FGAB|"D.C. al"=Bc2/2d|f4|']
        self.wait_for_lines(*moved)
        self.assertFalse(self.run_script(OPEN, "transpose"))
        self.wait(lambda: self.text("status") == "Transposed: 2 semitones down, from G to F. Ctrl-Z takes that back.")
        self.press("z", CONTROL)
        self.wait_for_lines(*TUNE)

    def test_to_a_key(self) -> None:
        """The keys are those that can be written."""
        self.run_script(SELECT, 4, 3, 4, 3)
        self.open("transpose")
        self.press("\ue004")  # to the choice of a key
        self.run_script("document.getElementById('transpose-key').focus()")
        self.press("Bb")
        self.words("transpose", "3 semitones up, from G to Bb.")
        self.run_script("document.getElementById('transpose-direction').focus()")
        self.press("down")
        self.words("transpose", "9 semitones down, from G to Bb.")
        self.assertTrue(self.run_script("return document.getElementById('transpose-by-key').checked"))
        self.press(ESCAPE)
        self.wait(lambda: not self.run_script(OPEN, "transpose"))
        self.assertEqual(self.run_script(PRESENT), "transpose-open")
        self.assertEqual(self.book()["lines"], TUNE)

    def test_keys_in_the_lists(self) -> None:
        """A letter chooses its key without an accidental, and Enter transposes."""
        self.run_script(SELECT, 4, 3, 4, 3)
        self.open("transpose")
        self.run_script("document.getElementById('transpose-key').focus()")
        self.press("A")
        self.words("transpose", "2 semitones up, from G to A.")
        self.press("\ue004")
        self.press("d")
        self.words("transpose", "10 semitones down, from G to A.")
        self.press("\n")
        self.wait_for_lines(*TUNE[:3], "K:A", '"A"A,B,CD|"D.C. al"^DE2/2F|A4|')
        self.assertFalse(self.run_script(OPEN, "transpose"))

    def test_a_selection(self) -> None:
        """Its bars get a key of their own, and stay selected."""
        self.run_script(SELECT, 4, 20, 4, 24)
        self.open("transpose")
        self.words("transpose", "2 semitones up, from G to A. Whole bars are transposed.")
        self.press("\n")
        self.wait_for_lines(*TUNE[:4], '"G"GABc|[K:A]"D.C. al"^de2/2f|[K:G]g4|')
        selected = f"const area = {test_page_in_browser.AREA}; return area.value.slice(area.selectionStart, area.selectionEnd)"
        self.assertEqual(self.run_script(selected), '[K:A]"D.C. al"^de2/2f')
        self.open("transpose")
        self.press("a", CONTROL)
        self.press("-2\n")
        self.wait_for_lines(*TUNE[:4], '"G"GABc|[K:G]"D.C. al"^cd2/2e|[K:G]g4|')

    @test_page_in_browser.opens_the_page
    def test_what_stays(self) -> None:
        """Chords of an own kind and notes that are too high are named with their lines."""
        self.edit(0, 5, *TUNE[:4], '"G;x"G|g\'\'\'\'|', "[K:HP]a|")
        self.load()
        self.run_script(SELECT, 4, 3, 4, 3)
        self.open("transpose")
        self.press("a", CONTROL)
        self.press("12")
        why = ['Line 5 "G;x": this is no name of a chord.', "Line 6 K:HP: this key is not known, so its notes stay.", "Line 5 g'''': it would be too high, and silent."]
        self.wait(lambda: self.run_script(LEFT) == why)

    def test_tidy(self) -> None:
        """In one step, which is undone in one; what is tidy offers nothing."""
        self.run_script(SELECT, 4, 3, 4, 3)
        self.open("tidy")
        self.words("tidy", "1 line will change, and sound the same.")
        self.press("\ue004" * 3 + "\n")
        tidy = [*TUNE[:4], '"G"GABc | "D.C. al"^cde | g4 |']
        self.wait_for_lines(*tidy)
        self.open("tidy")
        self.words("tidy", "All of it is tidy.")
        self.assertTrue(self.run_script("return document.getElementById('tidy-do').disabled"))
        self.press(ESCAPE)
        self.type("z", CONTROL)
        self.wait_for_lines(*TUNE)

    def test_sizes(self) -> None:
        """Both have room, and their parts have names."""
        for wide in WIDTHS:
            self.size(wide, 844)
            for name in ("transpose", "tidy"):
                self.open(name)
                self.assertTrue(self.run_script(FITS, name), (wide, name))
                self.press(ESCAPE)
                self.wait(lambda: not self.run_script(OPEN, name))
