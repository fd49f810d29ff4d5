"""The types of the packages of Python and of the commands that start the clients. The test is skipped if `mypy` is not installed."""

import os
import shutil
import subprocess
import unittest

import trial

MYPY = shutil.which("mypy")
COMMANDS = ["watch", "page", "language_server"]


class Types(unittest.TestCase):
    is_slow = True

    @unittest.skipIf(not MYPY, "mypy is not installed")
    def test_types(self) -> None:
        words = ["mypy", "--strict", "--scripts-are-modules", "--python-version", "3.9", "--cache-dir", "/dev/null"]
        path = {**os.environ, "MYPYPATH": str(trial.PACKAGES)}
        names = ["abc2midi_live", "abc2midi_live_clients", *[str(trial.CLIENTS / name) for name in COMMANDS]]
        asked = subprocess.run([*words, *names], cwd=trial.PACKAGES, env=path, capture_output=True, text=True)
        self.assertEqual(asked.returncode, 0, asked.stdout + asked.stderr)
