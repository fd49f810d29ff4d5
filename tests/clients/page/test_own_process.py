"""Processes of the page's own."""

import os

import trial
from abc2midi_live_clients.page.book_text import Text
from abc2midi_live_clients.page.hint_process import HintProcess, Question

QUESTION = Question(Text.of(b"X:1\nK:C\nC&C\n"), [], [(0, 1, "", True)])


class Processes(trial.Folder):
    def test_modules_of_the_present_folder(self) -> None:
        """They are not run."""
        for name in ("abc2midi_live_clients", "pickle", "random", "re"):
            (self.folder / f"{name}.py").write_text("open('ran', 'w')\n")
        before = os.getcwd()
        os.chdir(self.folder)
        self.addCleanup(os.chdir, before)
        self.assertEqual(self.places(trial.library), [(2, 1, 2, "Overlay")])
        self.assertFalse((self.folder / "ran").exists())

    def test_the_library_of_the_page(self) -> None:
        """It is the one that is named, and no other."""
        self.assertEqual(self.places(trial.library), [(2, 1, 2, "Overlay")])
        self.assertEqual(self.places(str(self.folder / "libmissing.so")), [])

    def places(self, library: str) -> list[tuple[int, int, int, str]]:
        """The hints on a tune that a process finds over a library."""
        process = HintProcess(library)
        self.addCleanup(process.close)
        return [row[:4] for row in process.rows(QUESTION)]
