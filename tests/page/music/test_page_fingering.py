"""Fingerings: of each note, without a browser; the row below the text, in a real one."""

import music_page
import page_in_node

TUNE = ["X:1", "M:2/4", "L:1/4", "Q:1/4=60", "K:D", "DF|[DA]2|"]
SHOWN = "return [...document.querySelectorAll('#fingering:not([hidden]) .fingered')].map((one) => [one.querySelector('em').textContent, one.querySelector('small').textContent])"


class Scripts(page_in_node.PageScripts):
    def test_scripts(self) -> None:
        self.assert_ok("music/page_fingerings.mjs", 4)


class Row(music_page.MusicPage):
    """Someone who learns a tune on an instrument."""

    def shows_fingers(self, *wanted: list[str]) -> None:
        """Waits till the row has these notes, with their fingerings."""
        self.wait(lambda: self.run_script(SHOWN) == list(wanted))

    def test_the_caret_and_what_sounds(self) -> None:
        """The note at the caret has its fingering, in its key; while the tune plays, what sounds. The browser keeps the instrument."""
        self.open(TUNE, "2 bars")
        self.caret(5, 0)
        self.shows_fingers()
        self.click("practise")
        self.run_script("const list = document.getElementById('fingering-for'); list.value = 'fiddle'; list.dispatchEvent(new Event('change'))")
        self.shows_fingers(["D4", "D string, open"])
        self.caret(5, 1)
        self.shows_fingers(["F♯4", "D string, fret 4, finger 2"])
        self.caret(5, 4)
        self.click("play")
        self.hear(0, 62)
        self.hear(0.5, 62)
        self.shows_fingers(["D4", "D string, open"])
        self.hear(2.5, 62, 66, 62, 69)
        self.shows_fingers(["D4", "D string, open"], ["A4", "A string, open"])
        self.load()
        self.roll("2 bars")
        self.caret(5, 1)
        self.shows_fingers(["F♯4", "D string, fret 4, finger 2"])
