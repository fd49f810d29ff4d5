"""The faults and hints of a tune book as an editor shows them."""

from collections.abc import Iterator
from functools import lru_cache
from pathlib import Path
from typing import NamedTuple, Optional, TypeVar

from abc2midi_live import Fault

from ..common.faults import WITH_THEIR_LINE, FaultGroup, groups_of, line_and_name, sentence_pairs
from ..common.json_object import Json
from ..common.line_places import character_of
from ..hints import NAMES, Hint
from .document import Document
from .messages import ERROR, INFO, WARNING

LEAVE_OUT = {"TuneTooLong", "BadLine", "TooLarge"}  # faults by which a whole tune or line is left out
MOST_FAULTS, MOST_HINTS = 1_000, 200  # of a book that an editor is sent
MORE_FAULTS = "MoreFaults"  # the name of a remark that faults are left out
PACKAGES = Path(__file__).resolve().parents[2]
DOCUMENTS = (PACKAGES.parent / "docs", PACKAGES.parent / "doc/abc2midi_live/docs")  # in a checkout, and installed

Found = TypeVar("Found", FaultGroup, Hint)


class Remark(NamedTuple):
    """A fault or a hint: its line and the characters of it, from 0, its name, its sentence and how serious it is."""

    line: int
    start: int
    end: int
    name: str
    text: str
    severity: int

    def meets(self, first: tuple[int, int], last: tuple[int, int]) -> bool:
        """Returns whether it has a character from one place to another, or is at a place between two. A place is a line and a
        character."""
        start = self.line, self.start
        return start <= last and (first < (self.line, self.end) or first == start)


def remarks_to_send(document: Document) -> list[Remark]:
    """Returns the faults and the hints that an editor is sent, of many those near to the last change. Hints come first: of several
    on a line Neovim shows the last one."""
    groups = groups_of(document.faults(), lambda fault: entry_of(document, fault))
    faults = nearest(groups, document.changed + 1, MOST_FAULTS)
    hints = nearest(document.hints(), document.changed + 1, MOST_HINTS)
    more = len(document.faults()) - sum(1 + len(group.others) for group in faults)
    first = [Remark(0, 0, 0, MORE_FAULTS, f"{more} more faults are not listed, those far from the last change", INFO)] if more else []
    return [*first, *(hint_remark(document, hint) for hint in hints), *(group_remark(document, group) for group in faults)]


def remarks_in(document: Document, first: int, last: int) -> Iterator[Remark]:
    """Yields the faults, and then the hints, of the lines from one to another, counted from 0."""
    for fault in document.faults():
        if first < fault.line <= last + 1:
            yield fault_remark(document, fault)
    for hint in document.hints():
        if first < hint.line <= last + 1:
            yield hint_remark(document, hint)


def fault_remark(document: Document, fault: Fault) -> Remark:
    """Returns a fault as a remark."""
    severity = ERROR if fault.name in LEAVE_OUT else WARNING
    return remark_at(document, *fault, document.words.get(fault.name, fault.name), severity)


def entry_of(document: Document, fault: Fault) -> object:
    """Returns the key of the entry that has a fault. Bytes without a meaning are one entry in each line of the editor, so that a
    word of another script is one."""
    if fault.name != "BadByte":
        return fault
    start = character_of(document.lines[fault.line - 1], fault.column)
    return document.text.position(fault.line - 1, start).line, *line_and_name(fault)


def group_remark(document: Document, group: FaultGroup) -> Remark:
    """Returns faults that are one entry as a remark. It ends with the last of those that touch each other."""
    remark = fault_remark(document, group.first)
    end = remark.end
    for fault in group.others:
        start = character_of(document.lines[fault.line - 1], fault.column)
        end = start + 1 if start == end else end
    return remark._replace(end=end, text=group.sentence(remark.text))


def hint_remark(document: Document, hint: Hint) -> Remark:
    """Returns a hint as a remark."""
    return remark_at(document, *hint, INFO)


def remark_at(document: Document, line: int, column: int, name: str, text: str, severity: int) -> Remark:
    """Returns a fault or a hint. It begins at its byte, and ends with the token there, or with its line if it is about that."""
    content = document.lines[line - 1].removesuffix("\r")
    start = character_of(content, column)
    ends = [token.end for token in document.tokens(line - 1) if token.start <= start < token.end]
    end = len(content) if name in WITH_THEIR_LINE else ends[-1] if ends else min(start + 1, len(content))
    return Remark(line - 1, start, max(start, end), name, text, severity)


def nearest(found: list[Found], line: int, most: int) -> list[Found]:
    """Returns groups of faults, or hints, of many those before a line and after it."""
    before = sum(1 for each in found if each.line < line)
    start = min(max(0, before - most // 2), max(0, len(found) - most))
    return found[start : start + most]


def diagnostic(document: Document, remark: Remark, with_link: bool = False) -> Json:
    """Returns a fault or a hint as the protocol has it, with a link to the page about it."""
    page = page_about(remark.name) if with_link else None
    return {
        "range": document.range(remark.line, remark.start, remark.line, remark.end),
        "severity": remark.severity,
        "code": remark.name,
        "source": "abc2midi_live",
        "message": remark.text,
        **({"codeDescription": {"href": page}} if page else {}),
    }


@lru_cache(maxsize=None)
def page_about(name: str) -> Optional[str]:
    """Returns the address of the page about a fault or a hint, if it is installed or in this checkout."""
    page = "hints.md" if name in NAMES else "faults.md" if name in sentence_pairs() else None
    paths = [folder / page for folder in DOCUMENTS if page]
    return next((path.as_uri() for path in paths if path.is_file()), None)
