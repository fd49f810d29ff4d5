"""What a screen reader finds in the page: names, live regions, and dialogs that say what they are, by the accessibility tree of
Chromium. All that is shown meanwhile has enough contrast."""

import heard_page
from browser_keys import CONTROL, ESCAPE, SHIFT


class Access(heard_page.HeardPage):
    """The page of a book."""

    opening = b"X:1\nT:Duet\nL:1/4\nV:1\nV:2\nK:C\n[V:1] CDEF|\n[V:2] C4 -|\n"

    def test_names(self) -> None:
        self.wait(lambda: "2 voices" in str(self.run_script("return document.getElementById('roll').getAttribute('aria-label')")))
        self.wait(lambda: self.text("told"))
        self.driver.find_element("id", "practise").click()
        self.type("h", CONTROL)
        self.assert_named(
            ("textbox", "Tune book in ABC notation"), ("button", "Write C4-"), ("option", "1 Duet"), ("search", "Find in the book"), ("textbox", "Replace by"),
            ("slider", "Tempo"), ("slider", "Volume of Voice 2"), ("button", "The next fault"), ("button", "New"), ("group", "Loop"),
        )  # fmt: skip

    def test_dialogs(self) -> None:
        self.type("s", CONTROL, SHIFT)
        self.wait(lambda: self.run_script("return document.getElementById('copy').open"))
        self.assert_named(("dialog", "Save as"), ("textbox", "Name"), ("group", "This tune:"))
        self.press(ESCAPE)
        self.type("% x")
        self.wait(self.is_unsaved)
        self.run_script("document.getElementById('unsaved').click()")
        self.wait(lambda: self.run_script("return document.getElementById('differences').open"))
        self.assert_named(("dialog", self.text("differences-words")), ("group", "Differences"))

    def test_dialogs_of_a_tune(self) -> None:
        self.wait(lambda: self.run_script("return document.querySelectorAll('#list [role=option]').length") == 1)
        for name, wanted in (
            ("transpose", [("dialog", "Transpose"), ("radiogroup", "What to transpose"), ("radio", "By semitones"), ("spinbutton", "Semitones, less than 0 for down"), ("radio", "To the key"), ("combobox", "Key"), ("combobox", "Direction")]),
            ("tidy", [("dialog", "Tidy"), ("radiogroup", "What to tidy"), ("radio", "The tune"), ("checkbox", "Bar lines below each other"), ("button", "Cancel")]),
        ):  # fmt: skip
            self.run_script("document.getElementById(arguments[0]).click()", f"{name}-open")
            self.wait(lambda: self.text(f"{name}-words"))
            self.assert_named(*wanted)
            self.press(ESCAPE)

    def test_signs(self) -> None:
        self.run_script("document.getElementById('signs-open').click()")
        self.assert_named(("dialog", "Signs of ABC"), ("button", "Close"))

    def test_what_is_said(self) -> None:
        """Faults are said when they come, questions at once."""
        live = "return ['told', 'notice', 'status', 'found'].map((id) => { const one = document.getElementById(id); return one.ariaLive ?? one.role ?? one.localName; })"
        self.assertEqual(self.run_script(live), ["polite", "alert", "status", "output"])
