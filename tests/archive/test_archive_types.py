"""The types of the archive. The tests are skipped if `mypy` is not installed."""

from __future__ import annotations

import os
import shutil
import subprocess
import unittest

import setting

MYPY = shutil.which("mypy")
WORDS = ["mypy", "--strict", "--scripts-are-modules", "--python-version", "3.9", "--cache-dir", "/dev/null"]


@unittest.skipIf(not MYPY, "mypy is not installed")
class Types(unittest.TestCase):
    def assert_typed(self, folder: str, *names: str) -> None:
        """Looks at the types of files in a folder."""
        path = {**os.environ, "MYPYPATH": str(setting.TOP / "python")}
        asked = subprocess.run([*WORDS, *names], cwd=setting.TOP / folder, env=path, capture_output=True, text=True)
        self.assertEqual(asked.returncode, 0, asked.stdout + asked.stderr)

    def test_package(self) -> None:
        self.assert_typed("python", "abc2midi_live_archive")

    def test_command(self) -> None:
        self.assert_typed("clients", "archive")
