"""The hints: the examples of `hints.txt`, their description in `docs/hints.md`, and looking again after changes."""

import random
import re
from typing import NamedTuple, Optional

import trial
from abc2midi_live_clients.common.faults import sentences
from abc2midi_live_clients.common.session_book import LiveBook, Tune
from abc2midi_live_clients.hints import NAMES, Finder, Hint

NO_EXAMPLE = "ManyTunes"  # its text is too long for an example
WHITE_LINES = ["V:\f", "V:\r\r", "[V:\v]C|", "K:D\v^c", "\f"]  # with white space that is no blank


class Example(NamedTuple):
    """A text, the hint that it is an example of, and the hints that it must give."""

    name: str
    wanted: list[Hint]
    lines: list[bytes]


def examples() -> list[Example]:
    """The examples of the file."""
    text = (trial.TOP / "tests/clients/hints/hints.txt").read_text("utf-8")
    return [example(part) for part in text.split("\n### ")[1:]]


def example(part: str) -> Example:
    """An example as it is written."""
    head, _, body = part.partition("\n---\n")
    name, *rows = head.split("\n")
    data = re.sub(rb"<(CR|[0-9A-F]{2})>", byte_of, body.rstrip("\n").encode())
    return Example(name, [hint_of(row) for row in rows if row], data.split(b"\n") if data else [])


def byte_of(found: "re.Match[bytes]") -> bytes:
    """The byte that a mark means."""
    return b"\r" if found[1] == b"CR" else bytes.fromhex(found[1].decode())


def hint_of(row: str) -> Hint:
    """A hint as it is written: `LINE:COLUMN NAME: TEXT`."""
    found = re.fullmatch(r"(\d+):(\d+) (\w+): (.+)", row)
    assert found, row
    return Hint(int(found[1]), int(found[2]), found[3], found[4])


class Examples(trial.Folder):
    def setUp(self) -> None:
        super().setUp()
        self.book = LiveBook(trial.program, str(self.files))
        self.limit(self.book.process)

    def test_examples(self) -> None:
        for name, wanted, lines in examples():
            self.book.replace(0, len(self.book.lines), lines)
            found = Finder().hints(lines, self.book.tunes(), self.book.faults())
            self.assertEqual(found, wanted, f"{name}: {lines}")

    def test_each_hint_has_an_example_that_gives_it_and_one_that_does_not(self) -> None:
        given = {name for name, wanted, _ in examples() if name in [hint.name for hint in wanted]}
        not_given = {name for name, wanted, _ in examples() if name not in [hint.name for hint in wanted]}
        self.assertEqual(given, set(NAMES) - {NO_EXAMPLE})
        self.assertEqual(not_given, set(NAMES) - {NO_EXAMPLE})

    def test_description(self) -> None:
        """The page has a row for each hint in the order of the list, with the text of its first example."""
        rows = re.findall(r"^\| `(\w+)` \| (.+?) \| ", (trial.TOP / "docs/hints.md").read_text("utf-8"), re.M)
        self.assertEqual([name for name, _ in rows], list(NAMES))
        first: dict[str, Optional[str]] = {}
        for name, wanted, _ in examples():
            first.setdefault(name, next((hint.text for hint in wanted if hint.name == name), None))
        shown = {name: text.replace("\\|", "|") for name, text in rows if name != NO_EXAMPLE}
        self.assertEqual(shown, first)

    def test_names_of_hints_are_not_those_of_faults(self) -> None:
        self.assertEqual(len(set(NAMES)), len(NAMES))
        self.assertFalse(set(NAMES) & set(sentences()))

    def test_random_changes(self) -> None:
        """Looking again gives what looking at the whole text gives, in order."""
        chance = random.Random(trial.seed)
        tunes = [trial.random_tune(chance, chance.randrange(1, 9)) for _ in range(8)]
        lines = [line.encode() for line in ["M:3/4", "", *(line for tune in tunes for line in tune)]]
        finder = Finder()
        for change in range(100):
            start = chance.randrange(len(lines) + 1)
            stop = min(len(lines), start + chance.choice([0, 0, 1, 1, 2, 9]))
            choices: list[list[str]] = [[], ["X:3"], [trial.random_line(chance)], trial.random_tune(chance, 2), ["M:6/8"]]
            put = chance.choice([*choices, [chance.choice(WHITE_LINES)]])
            if chance.random() < 0.1:
                start = stop = 0
            lines[start:stop] = [line.encode() for line in put]
            self.book.replace(0, len(self.book.lines), list(lines))
            told = self.book.tunes(), self.book.faults()
            found = finder.hints(lines, *told)
            self.assertEqual(found, Finder().hints(lines, *told), f"change {change}: {lines}")
            self.assertEqual(found, sorted(found))

    def test_another_file_header(self) -> None:
        """The hints on all tunes are looked for again, also if no tune changed."""
        tune, finder = [b"L:1/4", b"K:C", b"CDEF|GABc|", b""], Finder()
        for meter, places in ((b"M:4/4", []), (b"M:3/4", [(6, 1), (6, 6), (11, 1), (11, 6)]), (b"M:C", [])):
            lines = [meter, b"", b"X:1", *tune, b"X:2", *tune]
            found = finder.hints(lines, [Tune(1, "", 3), Tune(2, "", 8)], [])
            self.assertEqual([(hint.line, hint.column) for hint in found if hint.name == "BarLength"], places, meter)

    def test_without_a_library(self) -> None:
        """The hints that need no reading of ABC are found without a library."""
        lines = [b"X:1", b"K:C", b"|:C|", b"T:Fr\xe8re", b"X:1"]
        found = Finder(str(self.folder / "libmissing.so")).hints(lines, [Tune(1, "", 1), Tune(1, "", 5)], [])
        self.assertEqual([hint[:3] for hint in found], [(4, 5, "NotUtf8"), (5, 1, "SameNumber")])

    def test_lines_that_nothing_closes(self) -> None:
        """Long lines of bytes that begin a token and end none are read to their end."""
        for piece in (b"{", b"[K:", b'"', b"!", b"[", b"[1", b"(3:", b":", b"^", b"C/", b"[|", b"\xff", b"-", b"(", b"}{"):
            lines = [b"X:1", b"M:4/4", b"K:C", piece * (9_000 // len(piece)) + b"#|"]
            found = Finder().hints(lines, [Tune(1, "", 1)], [])
            self.assertEqual([hint for hint in found if not 1 <= hint.column <= 9_002], [])

    def test_a_book_of_very_many_tunes(self) -> None:
        numbers = [*range(1, 10_001), 1, 10_002]
        lines = [line for number in numbers for line in (b"X:%d" % number, b"K:C", b"|:C|", b"")]
        tunes = [Tune(number, "", 4 * n + 1) for n, number in enumerate(numbers)]
        found = Finder().hints(lines, tunes, [])
        self.assertEqual(len(found), 10_002)
        self.assertEqual([hint[:3] for hint in found[-3:]], [(39_999, 1, "OpenRepeat"), (40_001, 1, "ManyTunes"), (40_001, 1, "SameNumber")])
