"""The faults of a book: what each means, in sentences; where it ends; and those in a row that readers see as one entry."""

import json
from collections.abc import Callable, Iterable
from itertools import groupby
from pathlib import Path
from typing import NamedTuple

from abc2midi_live import Fault

FILE = Path(__file__).resolve().parent / "faults.json"
WITH_THEIR_LINE = frozenset(("BadLine", "BadProgram", "TextBlock", "FreeMusic", "NoTune", "LoneReturns"))


class FaultMeaning(NamedTuple):
    """A fault: its name, whether the program or the clients find it, what is wrong, and what to write instead. One of the program
    also has a text with the fault and one without it: the lines of a tune, or of its body."""

    name: str
    of: str
    wrong: str
    instead: str
    before: str = ""
    after: str = ""


def meanings() -> list[FaultMeaning]:
    """The meaning of each fault, in the order in which faults at one place are listed."""
    return [FaultMeaning(**row) for row in json.loads(FILE.read_text("utf-8"))]


def sentence_pairs() -> dict[str, tuple[str, str]]:
    """By the name of each fault: what is wrong, and what to write instead."""
    return {fault.name: (fault.wrong, fault.instead) for fault in meanings()}


def sentences() -> dict[str, str]:
    """The same, as one text."""
    return {name: " ".join(pair) for name, pair in sentence_pairs().items()}


def end_of(line: bytes, column: int, name: str, tokens: Iterable[tuple[int, int]]) -> int:
    """The column after a fault or a hint: that of the innermost token at its byte, or of the line if it is about that. Columns count
    from 1, and a token has that of its first byte and the one after its last."""
    if name in WITH_THEIR_LINE:
        return len(line) + 1
    return next((end for start, end in reversed([*tokens]) if start <= column < end), column + 1)


class FaultGroup(NamedTuple):
    """Faults that are one entry: the first of them, and the others."""

    first: Fault
    others: list[Fault]

    @property
    def line(self) -> int:
        """The line of the first one."""
        return self.first.line

    def sentence(self, text: str) -> str:
        """What is wrong, with how many others there are."""
        return f"{text} ({len(self.others)} more in this line)" if self.others else text


def groups_of(faults: Iterable[Fault], key: Callable[[Fault], object]) -> list[FaultGroup]:
    """Groups of faults in a row that have the same key."""
    groups = (list(those) for _, those in groupby(faults, key))
    return [FaultGroup(first, others) for first, *others in groups]


def line_and_name(fault: Fault) -> tuple[int, str]:
    """The key by which faults of one name in one line are one entry."""
    return fault.line, fault.name
