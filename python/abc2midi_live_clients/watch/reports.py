"""What the watcher reports, as lines for readers or as JSON for programs."""

import json
from collections.abc import Callable
from typing import NamedTuple, Optional, Protocol

from abc2midi_live import Fault

from ..common.faults import groups_of, line_and_name
from ..common.terminal_text import count_of, list_of, printable
from ..hints import Hint

Write = Callable[[str], object]
MOST_HINTS = 20  # that are printed when the book is opened


class File(NamedTuple):
    """A MIDI file: its number, and the title of its tune."""

    number: int
    title: str


MarkedHints = list[tuple[Hint, bool]]  # each with whether it is new


class Change(NamedTuple):
    """What one save changed: files, and each fault and hint with whether it is new. Hints on many tunes follow later: then there are
    none here."""

    written: list[File]
    removed: list[File]
    failed: Optional[int]
    faults: list[tuple[Fault, bool]]
    hints: Optional[MarkedHints]
    is_opening: bool
    milliseconds: float


class Report(Protocol):
    """What the watcher can report."""

    def change(self, change: Change) -> None:
        """Reports what a save changed."""

    def hints(self, hints: MarkedHints, is_opening: bool) -> None:
        """Reports the hints that follow a change."""

    def message(self, text: str) -> None:
        """Reports anything else, in a sentence."""

    def leftovers(self, names: list[str], removed: bool) -> None:
        """Reports files of an earlier run that no tune of the book has."""


class TextReport:
    """A report in lines. Only new faults and hints are printed in full, or all."""

    def __init__(self, path: str, sentences: dict[str, str], in_full: bool, write: Write):
        self.path = printable(path)
        self.sentences = sentences
        self.in_full = in_full
        self.write = write

    def change(self, change: Change) -> None:
        """Prints a line on files and numbers, and a line for each fault and hint that is shown."""
        parts = [list_files("written", change.written), list_files("removed", change.removed)]
        if change.failed is not None:
            parts.append(f"failed {change.failed}.mid; the next build retries it and the later ones")
        parts = [part for part in parts if part] or ["no file changed"]
        parts += [new_count_of("fault", [is_new for _, is_new in change.faults])]
        parts += [self.count_of_hints(change.hints or [], change.is_opening)]
        self.write("; ".join([*filter(None, parts), f"{change.milliseconds:.0f} ms"]))
        shown = (fault for fault, is_new in change.faults if is_new or self.in_full)
        for group in groups_of(shown, line_and_name):
            line, column, name = group.first
            self.remark(line, column, name, group.sentence(self.sentences.get(name, "")))
        self.print_hints(change.hints or [], change.is_opening)

    def hints(self, hints: MarkedHints, is_opening: bool) -> None:
        """Prints a line with their number, and a line for each one that is shown."""
        if hints:
            self.write(self.count_of_hints(hints, is_opening))
        self.print_hints(hints, is_opening)

    def are_too_many(self, hints: MarkedHints, is_opening: bool) -> bool:
        """Whether only the number of hints is printed."""
        return is_opening and len(hints) > MOST_HINTS and not self.in_full

    def count_of_hints(self, hints: MarkedHints, is_opening: bool) -> str:
        """How many hints there are."""
        count = new_count_of("hint", [is_new for _, is_new in hints])
        return f"{count} (--all prints them)" if self.are_too_many(hints, is_opening) else count

    def print_hints(self, hints: MarkedHints, is_opening: bool) -> None:
        """Prints a line for each hint that is shown."""
        for hint, is_new in hints:
            if (is_new or self.in_full) and not self.are_too_many(hints, is_opening):
                self.remark(hint.line, hint.column, f"hint: {hint.name}", hint.text)

    def remark(self, line: int, column: int, name: str, text: str) -> None:
        """Prints a fault or a hint, in a form that editors jump to."""
        self.write(f"{self.path}:{line}:{column}: {name}: {printable(text)}")

    def message(self, text: str) -> None:
        """Prints a sentence."""
        self.write(printable(text))

    def leftovers(self, names: list[str], removed: bool) -> None:
        """Prints the names of some, and what removes them."""
        what = f"{count_of(len(names), 'file')} of an earlier run that no tune of the book has"
        self.write(f"removed {what}: {list_of(names)}" if removed else f"{what}: {list_of(names)}; --clean removes them")


class JsonReport:
    """A report as one JSON object a line."""

    def __init__(self, path: str, sentences: dict[str, str], write: Write):
        self.path = path
        self.sentences = sentences
        self.write = write

    def change(self, change: Change) -> None:
        """Writes the event `change`."""
        faults = [
            {**fault._asdict(), "text": self.sentences.get(fault.name, ""), "new": is_new} for fault, is_new in change.faults
        ]
        self.send(
            "change",
            written=[file._asdict() for file in change.written],
            removed=[file._asdict() for file in change.removed],
            failed=change.failed,
            faults=faults,
            hints=rows_of(change.hints or []),
            **({"hints_follow": True} if change.hints is None else {}),
            milliseconds=round(change.milliseconds, 1),
        )

    def hints(self, hints: MarkedHints, is_opening: bool) -> None:
        """Writes the event `hints`."""
        self.send("hints", hints=rows_of(hints))

    def message(self, text: str) -> None:
        """Writes the event `message`."""
        self.send("message", text=text)

    def leftovers(self, names: list[str], removed: bool) -> None:
        """Writes the event `leftovers`."""
        self.send("leftovers", names=names, removed=removed)

    def send(self, event: str, **more: object) -> None:
        """Writes an object in a line."""
        self.write(json.dumps({"event": event, "book": self.path, **more}))


def rows_of(hints: MarkedHints) -> list[dict[str, object]]:
    """Hints as JSON has them."""
    return [{**hint._asdict(), "new": is_new} for hint, is_new in hints]


def list_files(what: str, files: list[File]) -> str:
    """Files by name, with the titles of their tunes; of many the first ones."""
    names = [f"{number}.mid" + (f" ({printable(title)})" if title else "") for number, title in files]
    return f"{what} {list_of(names)}" if names else ""


def new_count_of(thing: str, are_new: list[bool]) -> str:
    """How many faults or hints there are, and how many of them are new."""
    return f"{count_of(len(are_new), thing)}, {sum(are_new)} new" if are_new else ""
