"""The sound and the score of a tune as files: in node, and in a browser."""

import os
import shutil
import struct
import unittest
import xml.etree.ElementTree
from typing import Any

import page_in_node
import test_page_in_browser
import trial
from test_page_copies_in_browser import DOWNLOADS

SVG = "{http://www.w3.org/2000/svg}"


class Scripts(page_in_node.PageScripts):
    def test_scripts(self) -> None:
        self.assert_ok("dialogs/page_tune_downloads.mjs", 11)


class Stored(test_page_in_browser.Browser):
    """Someone who stores the files of a tune."""

    opening = b"X:7\nT:The Kesh\nL:1/4\nQ:1/4=240\nK:C\nCE|z2|\n"

    def stored_file(self, identifier: str) -> tuple[str, bytes]:
        """The name and the bytes of the file that a button of the dialog stores."""
        self.run_script(DOWNLOADS)
        self.run_script("document.getElementById('save-as').click()")
        self.wait(lambda: self.run_script("return !document.getElementById(arguments[0]).disabled", identifier))
        self.driver.find_element("id", identifier).click()
        found: list[Any] = self.wait(lambda: self.run_script("return downloads"))
        return str(found[0][0]), bytes(found[0][1])

    def test_midi_files(self) -> None:
        """The browser stores them by the names of the tune and the book, which their links have."""
        folder = self.folder / "downloads"
        folder.mkdir()
        self.driver.execute_cdp_cmd("Browser.setDownloadBehavior", {"behavior": "allow", "downloadPath": str(folder)})
        self.roll("Piano roll of tune 7")
        for count, name in enumerate(("7 The Kesh.mid", "book MIDI.zip"), 1):
            if name.endswith(".zip"):
                self.run_script("document.getElementById('save-as').click()")
            self.driver.find_element("id", "all-midi" if name.endswith(".zip") else "midi").click()
            self.wait(lambda: len([path for path in folder.iterdir() if path.suffix in (".mid", ".zip")]) == count)
            self.assertIn(name, os.listdir(folder))
        self.assertEqual((folder / "7 The Kesh.mid").read_bytes(), trial.fresh(self.opening).files["7.mid"])

    def test_the_sound(self) -> None:
        """It lasts as long as the tune and a moment, and is loud while a note sounds."""
        name, data = self.stored_file("tune-sound")
        self.assertEqual((name, data[:4], self.text("status")), ("7 The Kesh.wav", b"RIFF", "Stored 7 The Kesh.wav."))
        numbers = struct.unpack(f"<{(len(data) - 44) // 2}h", data[44:])
        self.assertEqual(len(numbers), 2 * round(44100 * 2.5))
        loud, silent = ([abs(number) for number in numbers[2 * 44100 * begin // 20 : 2 * 44100 * end // 20]] for begin, end in ((1, 9), (40, 50)))
        self.assertGreater(max(loud), 2000)
        self.assertLess(max(silent), 50)

    def test_a_sound_that_is_stopped(self) -> None:
        """Nothing is stored. The page says what is done, and another sound can be made."""
        self.edit(3, 4, "Q:1/4=24")
        self.wait(lambda: self.text("time").endswith("0:10"))
        self.run_script(DOWNLOADS)
        self.run_script("const { resume } = OfflineAudioContext.prototype; OfflineAudioContext.prototype.resume = function () { window.waits = () => resume.call(this); }")
        self.run_script("document.getElementById('save-as').click()")
        self.driver.find_element("id", "tune-sound").click()
        self.wait(lambda: self.run_script("return window.waits") is not None)
        self.assertRegex(self.text("making-words"), r"^Sound: \d+ %$")
        self.assertTrue(self.run_script("return document.getElementById('tune-sound').disabled"))
        self.driver.find_element("id", "making-stop").click()
        self.wait(lambda: self.text("status") == "Stopped: there is no sound file.")
        self.assertEqual(self.run_script("return [downloads.length, document.getElementById('making').hidden, document.getElementById('tune-sound').disabled]"), [0, True, False])

    def test_the_small_sound(self) -> None:
        """It is a file of Opus, which the browser recorded."""
        name, data = self.stored_file("tune-opus")
        self.assertRegex(name, r"^7 The Kesh\.(webm|ogg)$")
        self.assertIn(data[:4], (b"\x1a\x45\xdf\xa3", b"OggS"))
        self.assertIn(b"OpusHead", data)
        self.assertGreater(len(data), 2000)

    @unittest.skipUnless(shutil.which("abcm2ps"), "abcm2ps is not installed")
    def test_the_score(self) -> None:
        """It is a drawing of its own, with all that the page shows."""
        name, data = self.stored_file("tune-score")
        root = xml.etree.ElementTree.fromstring(data)
        self.assertEqual((name, root.tag), ("7 The Kesh.svg", f"{SVG}svg"))
        shown = self.run_script("return document.querySelectorAll('#score svg *').length")
        own = 2 + len(root.findall(f"{SVG}svg"))
        self.assertEqual(len(list(root.iter())) - 1 - own, shown)
        self.assertIn("The Kesh", "".join(root.itertext()))
