"""What the tests of the page's scripts in node share."""

import shutil
import subprocess
import unittest
from collections.abc import Sequence
from pathlib import Path

import trial

NODE = shutil.which("node")
TESTS = Path(__file__).resolve().parent


@unittest.skipIf(not NODE, "node is not installed")
class PageScripts(trial.Folder):
    """The scripts of the page, copied to where node takes them for modules."""

    def setUp(self) -> None:
        super().setUp()
        shutil.copytree(trial.TOP / "page", self.files, dirs_exist_ok=True)
        (self.files / "package.json").write_text('{"type": "module"}')

    def node(self, script: str, words: str = "", arguments: Sequence[str] = ()) -> list[str]:
        """The lines that a script prints."""
        command = [NODE or "node", str(TESTS / script), str(self.files), *arguments]
        ran = subprocess.run(command, input=words, capture_output=True, text=True, timeout=trial.SECONDS)
        self.assertEqual(ran.returncode, 0, ran.stderr)
        return ran.stdout.splitlines()

    def assert_ok(self, script: str, least: int, *arguments: str) -> None:
        """All tests of a script pass, and there are at least `least` of them."""
        lines = self.node(script, arguments=arguments)
        self.assertEqual([line for line in lines if not line.startswith("ok ")], [])
        self.assertGreaterEqual(len(lines), least)
