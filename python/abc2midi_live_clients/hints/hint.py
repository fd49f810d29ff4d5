"""A hint."""

from __future__ import annotations

from typing import NamedTuple


class Hint(NamedTuple):
    """A hint on a text: its line and column, counted from 1, columns in bytes; its name; and a sentence for the user. The lines of a
    hint on a tune alone count from 0."""

    line: int
    column: int
    name: str
    text: str


def counted(number: int, thing: str, things: str = "") -> str:
    """Returns a count and what is counted."""
    return f"{number} {thing if number == 1 else things or thing + 's'}"
