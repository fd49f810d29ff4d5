"""The names of MIDI files, which the server and the windows make by two pieces of code."""

import json

import page_in_node
from abc2midi_live_clients.page.midi_names import midi_name

NAMES = {
    (2, "Two Sisters by the Weir"): "2 Two Sisters by the Weir.mid",
    (1, ""): "1.mid",
    (7, " .. "): "7.mid",
    (3, 'A/B\\C: "D"? <E>|F*'): "3 A B C D E F.mid",
    (4, "Tab\tand\x00zero\x85  Frère\udc01"): "4 Tab and zero Frère.mid",
    (5, "Ends with dots..."): "5 Ends with dots.mid",
    (6, "𝄞" * 70): f"6 {'𝄞' * 60}.mid",
    (8, "a" * 58 + " . b"): f"8 {'a' * 58}.mid",
    (999_999_999, "𝄞" * 60): f"999999999 {'𝄞' * 60}.mid",
}


class Names(page_in_node.PageScripts):
    def test_names(self) -> None:
        """They are as wanted, and short enough for a file system."""
        self.assertEqual([midi_name(*asked) for asked in NAMES], list(NAMES.values()))
        self.assertLess(max(len(name.encode()) for name in NAMES.values()), 256)
        self.assertEqual([json.loads(line) for line in self.node("tunes/page_midi_names.mjs", json.dumps(list(NAMES)))], list(NAMES.values()))
