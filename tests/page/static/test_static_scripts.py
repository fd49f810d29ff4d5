"""Tries the scripts of the page without a server in Node, beside those of the served page, and their types. They need no module."""

from __future__ import annotations

import json
import random
import re
import shutil
import subprocess
import sys
import unittest
from pathlib import Path
from typing import Any

import common

sys.path.append(str(common.TOP / "python"))
from abc2midi_live_clients.common.line_places import LinePlaces  # noqa: E402
from abc2midi_live_clients.common.faults import end_of  # noqa: E402
from abc2midi_live_clients.page.book_text import Text, is_utf8  # noqa: E402

HERE = Path(__file__).resolve().parent
Units = list[int]  # the UTF-16 units of a line
LETTERS = [b"C", b"D2", b"|", b" ", b"\t", b"\r", b"\x00", b"\x1f", b"\xe9", b"\xff\xfe", b"\x93\x81", "é".encode(), "€".encode(), "𝄞".encode(), b"[K:D]", b"X:1"]
TYPED = ["C", "D2", "|", " ", "é", "€", "𝄞", "\udc00", "\udc1f", "\udcff", "\ud834", "ÿ", "“", "\x93", "\t"]
SIGNS = ["M:4/4", "%%MIDI program 1", "[K:D]", "[CEG]2", "^f'2", "(3abc", "|[1", "<<", "é", "𝄞", "\u2028", " ", "&", '"Am"', "A:|"]
NAMES = ["BadByte", "Unclosed", "BadProgram", "BadMeter", "LooseTie"]


def units_of(text: str) -> Units:
    """The UTF-16 units of a text."""
    data = text.encode("utf-16-le", "surrogatepass")
    return [data[at] | data[at + 1] << 8 for at in range(0, len(data), 2)]


def unit_of(line: str, character: int) -> int:
    """The UTF-16 units before a character of a line."""
    return len(units_of(line[:character]))


def column_of(line: str, character: int) -> int:
    """The column of a character of a line, in bytes from 1."""
    return len(line[:character].encode()) + 1


def random_book(chance: random.Random) -> bytes:
    """The bytes of a book: with a mark or none, with any line ends, in any encoding."""
    end = chance.choice([b"\n", b"\r\n"])
    lines = [b"".join(chance.choice(LETTERS) for _ in range(chance.randrange(5))) for _ in range(chance.randrange(1, 7))]
    if chance.random() < 0.5:
        lines = [line for line in lines if is_utf8(line)] or [b""]
    return chance.choice([b"", b"", b"\xef\xbb\xbf"]) + end.join(lines) + chance.choice([b"", end])


def told(text: Text) -> dict[str, Any]:
    """A text of the served page in words."""
    lines = [units_of(text.shown(line)) for line in text.lines]
    return {"lines": lines, "bytes": text.data().hex(), "letters": text.letters.name(), "returns": text.returns}


@unittest.skipUnless(shutil.which("node"), "node is not installed")
class StaticScripts(common.Room):
    """The folder of the page, with a module that is none."""

    def setUp(self) -> None:
        super().setUp()
        self.page = self.folder / "page"
        common.make_page(self.page, module=None)
        (self.page / "package.json").write_text('{"type": "module"}')

    def answers(self, script: str, asked: Any) -> list[Any]:
        """The lines that a script of the page answers, as objects."""
        words = ["node", str(HERE / script), str(self.page)]
        ran = subprocess.run(words, input=json.dumps(asked), capture_output=True, text=True, timeout=common.SECONDS)
        self.assertEqual(ran.returncode, 0, ran.stderr)
        return [json.loads(line) for line in ran.stdout.splitlines()]

    def test_the_book_and_links(self) -> None:
        self.assert_ok(["node", str(HERE / "static_scripts.mjs"), str(self.page)], 40)

    def test_random_edits_leave_the_bytes_that_the_served_page_leaves(self) -> None:
        chance = random.Random(1)
        asked, wanted = [], []
        for _ in range(400):
            book = random_book(chance)
            text = Text.of(book)
            edits, seen = [], [told(text)]
            for _ in range(chance.randrange(1, 5)):
                start = chance.randrange(len(text.lines) + 1)
                stop = chance.randrange(start, len(text.lines) + 1)
                kept = [text.shown(line) for line in text.lines[start:stop] if chance.random() < 0.6]
                lines = kept + ["".join(chance.choice(TYPED) for _ in range(chance.randrange(4))) for _ in range(chance.randrange(3))]
                if not lines and stop - start == len(text.lines):
                    continue
                joined = [line.encode("utf-16-le", "surrogatepass").decode("utf-16-le", "surrogatepass") for line in lines]
                text = text.edited(text.edit_of(start, stop, joined))
                edits.append({"start": start, "stop": stop, "lines": [units_of(line) for line in joined]})
                seen.append(told(text))
            asked.append({"book": book.hex(), "edits": edits})
            wanted.append([*seen, told(text.in_utf8())])
        found = self.answers("book_texts.mjs", asked)
        self.assertEqual(len(found), len(wanted))
        for question, answer, expected in zip(asked, found, wanted):
            with self.subTest(question):
                self.assertEqual(answer, expected)

    def test_faults_are_marked_as_in_the_served_page(self) -> None:
        chance = random.Random(1)
        asked, wanted = [], []
        for _ in range(2000):
            line = "".join(chance.choice(SIGNS) for _ in range(chance.randrange(1, 5)))
            tokens = [sorted(chance.sample(range(len(line) + 1), 2)) for _ in range(chance.randrange(4))]
            columns = [(column_of(line, start), column_of(line, end)) for start, end in tokens]
            at, name = chance.randrange(len(line)), chance.choice(NAMES)
            column = column_of(line, at)
            wanted.append(LinePlaces(line).span(column, end_of(line.encode(), column, name, columns)))
            asked.append([line, unit_of(line, at), name, [n for start, end in tokens for n in (unit_of(line, start), unit_of(line, end), 1, 0)]])
        self.assertEqual(self.answers("fault_spans.mjs", asked), [wanted])

    def test_the_same_sources_make_the_same_page(self) -> None:
        other = self.folder / "other"
        common.make_page(other, module=None)
        (self.page / "package.json").unlink()
        names = {path.relative_to(self.page) for path in self.page.rglob("*") if path.is_file()}
        self.assertEqual(names, {path.relative_to(other) for path in other.rglob("*") if path.is_file()})
        for name in sorted(names):
            self.assertEqual((self.page / name).read_bytes(), (other / name).read_bytes(), name)

    def test_a_browser_asks_for_all_modules_at_once(self) -> None:
        """All but those that a worker loads, the one without a value, and the script that is no module."""
        asked = re.findall(r'<link rel="modulepreload" href="(.*)">', (self.page / "index.html").read_text())
        self.assertEqual((asked[0], len(asked)), ("static/static_page.js", len(set(asked))))
        scripts = {path.relative_to(self.page).as_posix() for path in self.page.rglob("*.js")}
        others = {"abc2midi-live/worker_body.js", "editor/search_worker.js", "music/wav_worker.js", "music/wav_file.js"}
        others |= {"link/book_host.js", "service_worker.js", "shell/reload_on_failure.js"}
        self.assertEqual(scripts - set(asked), others)
        self.assertLessEqual(set(asked), scripts)

    def test_a_folder_with_other_files_is_left_alone(self) -> None:
        precious = self.folder / "precious"
        precious.mkdir()
        (precious / "file").write_text("text")
        ran = common.run_page_script(precious, module=None)
        self.assertEqual((ran.returncode, (precious / "file").read_text()), (1, "text"), ran.stderr)


class StaticTypes(common.Room):
    """The types of the page's scripts, in their comments."""

    @unittest.skipUnless(shutil.which("tsc"), "tsc is not installed")
    def test_types(self) -> None:
        page = self.folder / "page"
        common.make_page(page, module=None)
        for path in (common.TOP / "javascript").glob("*.d.ts"):
            shutil.copy(path, page / "abc2midi-live")
        own = [*sorted((page / "static").glob("*.js")), page / "service_worker.js"]
        words = ["tsc", "--allowJs", "--checkJs", "--strict", "--noUnusedLocals", "--noUnusedParameters", "--noEmit", "--skipLibCheck"]
        words += ["--target", "es2022", "--module", "es2022", "--moduleResolution", "node", "--lib", "es2022,dom,dom.iterable"]
        words += [*map(str, own), str(common.TOP / "tests/page/newer.d.ts")]
        self.assertEqual(self.lines_of(words), [])
