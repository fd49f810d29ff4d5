"""The examples of docs/python.md, run as they are written."""

import contextlib
import doctest
import os
import unittest
from unittest import mock

import setting
from abc2midi_live import LibraryMissing


def wrong_examples(room: contextlib.ExitStack) -> doctest.TestResults:
    """Runs the examples at the top of the checkout."""
    before = os.getcwd()
    os.chdir(setting.TOP)
    room.callback(os.chdir, before)
    return doctest.testfile(str(setting.TOP / "docs/python.md"), module_relative=False, encoding="utf-8")


class OverTheProcessInTheDocument(unittest.TestCase):
    def test_examples(self) -> None:
        with contextlib.ExitStack() as room:
            room.enter_context(mock.patch("abc2midi_live.library.find_library", side_effect=LibraryMissing("none")))
            room.enter_context(mock.patch("abc2midi_live.process.find_program", return_value=setting.program))
            found = wrong_examples(room)
        self.assertEqual((found.failed, found.attempted), (0, 14))


class OverTheLibraryInTheDocument(unittest.TestCase):
    def test_examples(self) -> None:
        with contextlib.ExitStack() as room:
            room.enter_context(mock.patch("abc2midi_live.library.find_library", return_value=setting.library))
            found = wrong_examples(room)
        self.assertEqual((found.failed, found.attempted), (0, 14))
