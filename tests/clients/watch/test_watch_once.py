"""The watcher as other programs run it: --once and --json."""

import json
import os
import signal
from typing import Any

import trial
from abc2midi_live_clients.common.faults import sentences
from watching import OTHER, TUNE, Process


class Once(Process):
    """One build, and an exit status that tells of faults."""

    def run_once(self, *words: str) -> tuple[str, str, int]:
        self.start("--once", *words)
        return self.end()

    def test_statuses(self) -> None:
        self.path.write_bytes(TUNE)
        output, errors, status = self.run_once()
        self.assertEqual((output.partition(";")[0], errors, status), ("written 1.mid (Kesh)", "", 0))
        self.assertEqual(trial.files_in(self.files), trial.fresh(TUNE).files)
        self.path.write_bytes(TUNE + b"C-z&\n")
        output, errors, status = self.run_once()
        self.assertEqual((output.splitlines()[1].split(":")[1:3], errors, status), (["5", "4"], "", 3))
        self.path.write_bytes(b"")
        self.assertEqual(self.run_once()[2], 0)

    def test_what_fails(self) -> None:
        self.assertEqual(self.run_once(), (f"{self.path}: No such file or directory\n", "", 1))
        self.path.write_bytes(TUNE + b"&\n")
        (self.files / "1.mid").mkdir()
        output, _, status = self.run_once()
        self.assertEqual((output.partition(";")[0], status), ("failed 1.mid", 1))
        (self.folder / "program").write_text("#!/bin/sh\nexit 3\n")
        ended = "the program ended with status 3"
        self.assertEqual(self.run_once(), (f"{ended}; restarting it\n{ended}, again\n", "", 1))
        (self.folder / "program").unlink()
        self.assertEqual(self.run_once()[2], 127)

    def test_interrupted(self) -> None:
        """Its files may not be those of the book."""
        self.path.write_bytes(TUNE)
        (self.folder / "program").write_text(f'#!/bin/sh\necho $$ >"{self.folder}/pid"\nexec cat >/dev/null\n')
        self.start("--once")
        self.wait_for(lambda: (self.folder / "pid").exists())
        self.process.send_signal(signal.SIGINT)
        self.assertEqual(self.end(), ("", "", 1))


class Json(Process):
    """One object a line."""

    def event(self) -> dict[str, Any]:
        """The next object."""
        event: dict[str, Any] = json.loads(self.line())
        self.assertEqual(event.pop("book"), str(self.path))
        return event

    def change(self) -> dict[str, Any]:
        """The next object, which is a change."""
        event = self.event()
        self.assertEqual(event.pop("event"), "change")
        self.assertGreaterEqual(event.pop("milliseconds"), 0)
        return event

    def test_events(self) -> None:
        (self.files / "7.mid").touch()
        self.path.write_bytes(TUNE + OTHER)
        self.start("--json")
        written = [{"number": 1, "title": "Kesh"}, {"number": 2, "title": ""}]
        self.assertEqual(self.change(), {"written": written, "removed": [], "failed": None, "faults": [], "hints": []})
        self.assertEqual(self.event(), {"event": "leftovers", "names": ["7.mid"], "removed": False})
        self.path.write_bytes(TUNE + b"C-z&\n")
        change = self.change()
        fault = {"line": 5, "column": 4, "name": "BadByte", "text": sentences()["BadByte"], "new": True}
        self.assertEqual((change["removed"], change["faults"]), (written[1:], [fault]))
        self.path.write_bytes(b"\n" + TUNE + b"C-z&\n")
        self.assertEqual(self.change()["faults"], [{**fault, "line": 6, "new": False}])
        self.path.write_bytes(TUNE + OTHER.replace(b"2", b"1"))
        hint = {"line": 6, "column": 1, "name": "SameNumber", "text": "number 1 is used at line 1, so this tune has no file; write another number", "new": True}
        self.assertEqual(self.change()["hints"], [hint])
        self.path.unlink()
        self.assertEqual(self.event(), {"event": "message", "text": f"{self.path}: No such file or directory; waiting for it"})
        os.kill(self.pid(), signal.SIGKILL)
        self.path.write_bytes(OTHER)
        self.assertEqual(self.event(), {"event": "message", "text": "the program ended with status -9; restarting it"})
        change = self.change()
        self.assertEqual((change["written"], change["removed"]), (written[1:], written[:1]))
        self.interrupt()

    def test_a_number_that_fails(self) -> None:
        self.path.write_bytes(b"X:\nK:C\nC\n" + TUNE)
        (self.files / "0.mid").mkdir()
        self.start("--json", "--once")
        self.assertEqual(self.change()["failed"], 0)
        self.assertEqual(self.end()[2], 1)
