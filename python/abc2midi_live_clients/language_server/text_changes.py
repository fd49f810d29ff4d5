"""The changes of a text as an editor sends them. One that cannot be read is refused before any of them is made."""

from typing import Any, NamedTuple, Optional


class BadChange(Exception):
    """Changes of a text that cannot be read."""


class Position(NamedTuple):
    """A line and a unit in it, both from 0. `encodings` has the units."""

    line: int
    character: int


class Range(NamedTuple):
    """The text from one position to another."""

    start: Position
    end: Position


class Change(NamedTuple):
    """A range that becomes a text, or the whole text if there is no range."""

    range: Optional[Range]
    text: str


def changes_of(sent: Any) -> list[Change]:
    """Returns changes as they are made. Those before a whole text have no effect, and are left out."""
    if not isinstance(sent, list):
        raise BadChange("the changes are no list")
    changes = [change_of(each) for each in sent]
    wholes = [n for n, change in enumerate(changes) if change.range is None]
    return changes[wholes[-1] if wholes else 0 :]


def change_of(sent: Any) -> Change:
    """Returns a change."""
    if not isinstance(sent, dict) or not isinstance(sent.get("text"), str):
        raise BadChange("a change has no text")
    given = sent.get("range")
    return Change(None if given is None else range_of(given), sent["text"])


def range_of(sent: Any) -> Range:
    """Returns a range."""
    if not isinstance(sent, dict):
        raise BadChange("a range has no start and end")
    found = Range(position_of(sent.get("start")), position_of(sent.get("end")))
    if found.end < found.start:
        raise BadChange("a range ends before its start")
    return found


def position_of(sent: Any) -> Position:
    """Returns a position."""
    numbers = [sent.get(name) for name in ("line", "character")] if isinstance(sent, dict) else []
    line, character = numbers if numbers else (None, None)
    if type(line) is not int or type(character) is not int or line < 0 or character < 0:
        raise BadChange("a position is no line and character")
    return Position(line, character)
