#!/usr/bin/env python3
"""Writes random streams of commands into a folder: edits of a tune book, and questions about it. A seed gives the same bytes."""

from __future__ import annotations

import argparse
import random
from pathlib import Path

FIELDS = ["X:1", "X:2", "X:3", "X:0", "T:A tune", "T:", "M:4/4", "M:3/4", "M:none", "M:oops", "L:1/8", "L:1/3", "Q:120", "Q:1/4=60"]
FIELDS += ["K:C", "K:Dm", "K:A", "K:H", "V:1", "V:2", "P:A", "P:AB", "%%MIDI program 40", "% a comment", "w:words", "C:nobody"]
TOKENS = ["C", "D2", "E/", "^F", "_B,", "c'", "z", "Z2", "|", "|:", ":|", "|1", "|2", "[CEG]", "[C-E-]", "(3", "-", ">", "<", " ", "!f!"]
TOKENS += ['"words"', "[K:G]", "[M:2/4]", "[V:2]", "{ab}", "*", "&", "~", "[", "\t", "\r", "\xe9", "|]", "||", "[1", "D/0", "g99"]
MOST_LINES = 40


def line(chance: random.Random) -> bytes:
    """A line of a tune book: a field, music, or nothing."""
    kind = chance.random()
    if kind < 0.3:
        return chance.choice(FIELDS).encode("latin-1")
    if kind < 0.4:
        return b""
    return "".join(chance.choice(TOKENS) for _ in range(chance.randrange(1, 12))).encode("latin-1")


def lines(chance: random.Random, most: int) -> list[bytes]:
    return [line(chance) for _ in range(chance.randrange(most + 1))]


def place(chance: random.Random, count: int) -> int:
    """A line number, now and then one that is not there."""
    return chance.choice([0, count + 2, 999999999]) if chance.random() < 0.05 else chance.randrange(1, count + 2)


def edit(chance: random.Random, count: int) -> tuple[bytes, int]:
    """A command that edits a text of some lines, with its lines, and how many the text has after it."""
    kind = chance.random()
    if kind < 0.4 or count == 0:
        at, new = place(chance, count), lines(chance, 6)
        after = count + len(new) if 1 <= at <= count + 1 else count
        return b"".join([b"insert %d %d\n" % (at, len(new)), *[one + b"\n" for one in new]]), after
    begin = place(chance, count)
    end = min(begin + chance.randrange(3), count) if chance.random() < 0.9 else place(chance, count)
    is_range = 1 <= begin <= end <= count
    gone = end - begin + 1 if is_range else 0
    if kind < 0.6 or count > MOST_LINES:
        return b"delete %d %d\n" % (begin, end), count - gone
    new = lines(chance, 3)
    after = count - gone + len(new) if is_range else count
    return b"".join([b"replace %d %d %d\n" % (begin, end, len(new)), *[one + b"\n" for one in new]]), after


def stream(seed: int) -> bytes:
    """A stream of edits, each with questions after it."""
    chance, count, commands = random.Random(seed), 0, []
    for _ in range(30):
        command, count = edit(chance, count)
        commands.append(command)
        if chance.random() < 0.4:
            commands.append(chance.choice([b"faults\n", b"titles\n", b"hex %d\n" % chance.randrange(4)]))
    return b"".join([*commands, b"faults\ntitles\nhex 0\nhex 1\nhex 2\nhex 3\n"])


def main() -> None:
    parser = argparse.ArgumentParser(description=__doc__)
    parser.add_argument("folder", type=Path)
    parser.add_argument("count", type=int)
    words = parser.parse_args()
    for seed in range(1, words.count + 1):
        (words.folder / f"stream_{seed}").write_bytes(stream(seed))


if __name__ == "__main__":
    main()
