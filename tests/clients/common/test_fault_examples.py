"""The examples of docs/faults.md: the one before has its fault, and the one after has none."""

import trial
from abc2midi_live_clients.common.faults import meanings


class FaultExamples(trial.Folder):
    def faults(self, example: str) -> set[str]:
        """The names of the faults of an example, which is the music of a tune if it has no `X:` line."""
        text = example if example.startswith("X:") else f"X:1\nK:C\n{example}"
        return {name for _, _, name in trial.fresh(text.encode(), [trial.program]).faults}

    def test_each_fault_of_the_program(self) -> None:
        found = [fault for fault in meanings() if fault.of == "program"]
        self.assertGreater(len(found), 20)
        for fault in found:
            with self.subTest(fault.name):
                self.assertIn(fault.name, self.faults(fault.before))
                self.assertEqual(self.faults(fault.after), set())
