"""What one click in the list of faults mends, in node."""

import json

import page_in_node
import trial
from abc2midi_live_clients.common.faults import meanings

MENDED = {"BadReference", "BadByte", "Unclosed", "LooseTie", "MissingKey", "BadProgram"}


class Scripts(page_in_node.PageScripts):
    def test_scripts(self) -> None:
        self.assert_ok("editor/page_fault_fixes.mjs", 13)


class Mended(page_in_node.PageScripts):
    def test_the_examples(self) -> None:
        """The program finds no fault in an example that is mended."""
        asked = []
        for fault in meanings():
            if fault.name in MENDED:
                text = fault.before if fault.before.startswith("X:") else f"X:1\nK:C\n{fault.before}"
                line, column = next(found[:2] for found in trial.fresh(text.encode(), [trial.program]).faults if found[2] == fault.name)
                asked.append({"lines": text.split("\n"), "fault": [line - 1, column - 1, column, fault.name], "numbers": [0]})
        mended = [json.loads(row) for row in self.node("editor/page_fault_fixes.mjs", json.dumps(asked), ["--mend"])]
        self.assertEqual(len(mended), len(MENDED))
        for _, *lines in mended:
            self.assertEqual(trial.fresh("\n".join(lines).encode(), [trial.program]).faults, [])
