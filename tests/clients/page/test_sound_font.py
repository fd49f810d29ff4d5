"""Sampled instruments: what is read of a SoundFont, what the server answers, and what a browser plays."""

import struct

import music_page
import page_in_node
import sound_fonts
import served_page
import trial
from abc2midi_live_clients.page.sound_font import BadFont, SoundFont, find_font

SAMPLES = [100 * n - 3000 for n in range(60)]


class Scripts(page_in_node.PageScripts):
    def test_scripts(self) -> None:
        self.assert_ok("music/page_sound_font.mjs", 6)


class Fonts(trial.Folder):
    """What is read of a file."""

    def written(self, data: bytes) -> str:
        path = self.folder / "hand made.sf2"
        path.write_bytes(data)
        return str(path)

    def test_zones(self) -> None:
        """Those of an instrument and of its preset together; what the first zone has holds for all that do not have it."""
        font = SoundFont(self.written(sound_fonts.font(SAMPLES)))
        self.assertEqual((font.name, font.count, font.zones(4)), ("hand made", 60, []))
        low, soft, loud = font.zones(5)
        self.assertEqual([zone["keys"] for zone in (low, soft, loud)], [[0, 69], [70, 127], [70, 127]])
        self.assertEqual([zone["velocities"] for zone in (low, soft, loud)], [[0, 127], [0, 99], [100, 127]])
        self.assertEqual([(zone["start"], zone["stop"], zone["loop"], zone["rate"]) for zone in (low, soft)], [(0, 40, [10, 30], 10_000), (40, 60, None, 10_000)])
        self.assertEqual([(zone["root"], zone["cents"]) for zone in (low, soft)], [(69, 300), (69, 193)])
        self.assertEqual([(zone["decibels"], zone["attack"], zone["pan"]) for zone in (low, soft, loud)], [(4.0, 1.0, 0.0), (0.0, 1.0, 0.0), (4.0, 1.0, -0.5)])

    def test_samples(self) -> None:
        font = SoundFont(self.written(sound_fonts.font(SAMPLES)))
        self.assertEqual(font.samples(40, 43), struct.pack("<3h", *SAMPLES[40:43]))
        self.assertEqual((font.samples(58, 99), font.samples(99, 120), font.samples(9, 2)), (struct.pack("<2h", *SAMPLES[58:]), b"", b""))

    def test_what_is_no_font(self) -> None:
        """Nor is one that is cut off."""
        whole = sound_fonts.font(SAMPLES)
        for data in (b"", b"RIFF", b"RIFF\x04\0\0\0WAVE", b"\xff" * 64, whole[:200], whole.replace(b"shdr", b"xxxx")):
            with self.assertRaises(BadFont):
                find_font(self.written(data))
        with self.assertRaises(FileNotFoundError):
            find_font(str(self.folder / "none"))

    def test_bytes_at_random(self) -> None:
        """A font with wrong bytes is refused, or its zones are in the file."""
        whole = sound_fonts.font(SAMPLES)
        for place in range(0, len(whole), 3):
            try:
                font = SoundFont(self.written(whole[:place] + b"\xee" + whole[place + 1 :]))
                zones = font.zones(5)
            except BadFont:
                continue
            self.assertTrue(all(0 <= zone["start"] < zone["stop"] <= font.count for zone in zones), place)


class Answers(served_page.Page):
    """What the server answers."""

    def test_a_font(self) -> None:
        self.finish()
        path = self.folder / "hand.sf2"
        path.write_bytes(sound_fonts.font(SAMPLES))
        self.start(str(self.path), font=str(path))
        self.assertEqual(self.ask("font"), {"name": "hand", "isPlain": False})
        self.assertEqual([zone["keys"] for zone in self.ask("font/5")["zones"]], [[0, 69], [70, 127], [70, 127]])
        self.assertEqual(self.request("samples/0/2")[2], struct.pack("<2h", *SAMPLES[:2]))
        for name in ("font/", "font/x", "font/1000", "samples/0", "samples/-1/2", "samples/../2"):
            self.assertEqual(self.request(name)[0], 404, name)
        for name in ("font", "font/5", "samples/0/2"):
            self.assertEqual(self.request(name, path=f"/{self.token[:-1]}/{name}")[0], 403)
        self.finish()

    def test_plain_sounds(self) -> None:
        self.assertEqual(self.ask("font"), {"name": "", "isPlain": True})
        self.assertEqual([self.request(name)[0] for name in ("font/5", "samples/0/2")], [404, 404])
        self.finish()


class Heard(music_page.MusicPage):
    """What a browser plays."""

    def test_samples_are_played(self) -> None:
        """A note of another program, which the font does not have, sounds plain."""
        path = self.folder / "hand.sf2"
        path.write_bytes(sound_fonts.font(SAMPLES))
        self.kill()
        self.start(str(self.path), font=str(path))
        self.driver.get(self.address)
        self.wait(lambda: self.text("sounds") == "Instruments of hand.")
        self.open(["X:1", "L:1/4", "Q:1/4=240", "%%MIDI program 5", "K:C", "CA|", "%%MIDI program 6", "E|"], "from C4 to A4")
        self.press(" ")
        self.hear(0, 63)  # three semitones higher than its key
        self.hear(2, 63, 72, 64)
        self.assertEqual(self.run_script("return samples"), 2)
