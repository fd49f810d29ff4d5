"""The rows of a text, which the server and the windows move by two pieces of code: both get the same rows, and the same differences."""

import json
import random
import unittest

import page_in_node
import trial
from abc2midi_live import Fault
from abc2midi_live_clients.common.json_object import Json
from abc2midi_live_clients.common.session_book import Tune
from abc2midi_live_clients.page.finding_rows import TuneRows, difference, moved

LINES, TEXTS, CHANGES = 8, 300, 5


class Scripts(page_in_node.PageScripts):
    def test_edits_at_random(self) -> None:
        """After each edit the server has rows of its own making. It sends what is different from the moved ones. The page without a server
        finds the same differences."""
        chance = random.Random(trial.seed)
        asked: list[Json] = []
        wanted = []
        for text in range(TEXTS):
            rows, count = self.rows(chance, LINES, f"{text}"), LINES
            asked.append({"rows": rows, "changes": []})
            for number in range(CHANGES):
                start = chance.randrange(count + 1)
                stop = min(count, start + chance.randrange(4))
                lines = ["C"] * chance.randrange(4)
                edit = {"start": start, "stop": stop, "lines": lines}
                count += len(lines) - (stop - start)
                before = moved(rows, edit)
                rows = sorted(chance.sample(before, len(before) // 2) + self.rows(chance, count, f"{text}.{number}"))
                asked[-1]["changes"].append({"edit": edit, "difference": difference(before, rows)})
            wanted.append(json.dumps([rows, [change["difference"] for change in asked[-1]["changes"]]], separators=(",", ":")))
        self.assertEqual(self.node("link/page_finding_rows.mjs", json.dumps(asked)), wanted)

    def rows(self, chance: random.Random, count: int, name: str) -> list[tuple[int, str]]:
        """Rows of a text of `count` lines: of some lines none, of some several."""
        return sorted((chance.randrange(count), f"{name} {number}") for number in range(chance.randrange(6)) if count)


class Tunes(unittest.TestCase):
    """The rows of the tunes of a book."""

    def test_a_tune_that_becomes_too_long(self) -> None:
        """The next tune of its number has the file, although no title and no place changed."""
        tunes, rows = [Tune(1, "One", 1), Tune(1, "Two", 5)], TuneRows()
        self.assertEqual(rows.of(tunes, []), [(0, 1, "One", True), (4, 1, "Two", False)])
        self.assertEqual(rows.of(tunes, [Fault(1, 1, "TuneTooLong")]), [(0, 1, "One", False), (4, 1, "Two", True)])
        self.assertEqual(rows.of(tunes, [Fault(2, 1, "BadByte")]), [(0, 1, "One", True), (4, 1, "Two", False)])
