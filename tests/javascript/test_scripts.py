"""Tries the scripts of the package that need no module, and its types."""

from __future__ import annotations

import shutil
import unittest

import common


class Scripts(common.Room):
    @unittest.skipUnless(shutil.which("node"), "node is not installed")
    def test_lines_columns_and_edits(self) -> None:
        self.assert_ok(["node", str(common.TESTS / "scripts.mjs")], 11)


class Types(common.Room):
    """The types are those of the calls, and strict."""

    @unittest.skipUnless(shutil.which("tsc"), "tsc is not installed")
    def test_a_program_with_types(self) -> None:
        self.lines_of(["tsc", "--project", str(common.TESTS)])
