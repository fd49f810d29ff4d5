"""The files by which editors colour a text without a server: they are those of the table, and agree with the program's tokens."""

import re
import subprocess
import unittest
from collections.abc import Iterator
from typing import Optional

import trial
from abc2midi_live import TokenKind
from abc2midi_live.opening import library_session
from abc2midi_live_clients.language_server.token_styles import STYLES

BOOK = """\
% a book
X:1 % first
T:Kesh
M:6/8
V:1 clef=bass
%%MIDI program 40
K:Gmix
|:"Am"A2B _c'/ ^^d,3/2 z2 x|{ag}F>G A<<B C-|C!ff!D!trill!E (3abc (5:4:5C|[1 D:|[2 E||
[K:D]=f Z4 y X [V:2]G|]
w:la la
"""


class Written(unittest.TestCase):
    def test_they_are_what_the_script_writes(self) -> None:
        asked = subprocess.run([trial.TOP / "scripts/documents/syntax", "--look"], capture_output=True, text=True)
        self.assertEqual((asked.returncode, asked.stderr), (0, ""))


class Patterns(unittest.TestCase):
    def test_they_agree_with_the_library(self) -> None:
        """Each line of a book is cut into the same tokens by the patterns as by the library."""
        with library_session(trial.library) as session:
            session.set_text(BOOK)
            for number, line in enumerate(BOOK.splitlines(), 1):
                tokens = [(token.from_column - 1, token.kind) for token in session.tokens(number) if not token.depth]
                wanted = [(start, kind) for start, kind in tokens if kind in STYLES and STYLES[kind].pattern]
                self.assertEqual(list(cut(line)), wanted, line)


def cut(line: str) -> Iterator[tuple[int, TokenKind]]:
    """Yields where the tokens of a line begin, and their kinds, by the patterns."""
    at = 0
    while at < len(line):
        kind, end = first_match(line, at)
        if kind:
            yield at, kind
        at = end


def first_match(line: str, at: int) -> tuple[Optional[TokenKind], int]:
    """The kind of the first pattern that matches at a place, and its end; the next place if none does."""
    for kind, style in STYLES.items():
        found = re.compile(style.pattern).match(line, at) if style.pattern else None
        if found and found.end() > at and (at == 0 or not style.pattern.startswith("^")):
            return kind, found.end()
    return None, at + 1
