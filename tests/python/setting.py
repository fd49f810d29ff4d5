"""What the tests of the Python package share: the program, the library, and the program with the expected answers."""

import sys
import tempfile
import unittest
from pathlib import Path
from typing import Optional

TOP = Path(__file__).resolve().parent.parent.parent
PACKAGE = TOP / "python"
sys.path[:0] = [str(PACKAGE), str(TOP / "tests/clients/shared")]

program: Optional[str] = None
library: Optional[str] = None
oracle: list[str] = []  # the command of the program with the expected answers
streams, seed = 200, 1


class Room(unittest.TestCase):
    """Tests that have a folder of their own, which goes with them."""

    maxDiff = 2000

    def setUp(self) -> None:
        kept = tempfile.TemporaryDirectory()
        self.addCleanup(kept.cleanup)
        self.folder = Path(kept.name)
