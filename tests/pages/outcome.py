"""What a trial of the pages gives."""

from __future__ import annotations

from typing import Iterator, NamedTuple, Optional


class Outcome(NamedTuple):
    """What was tried, and what is wrong with it, or None."""

    what: str
    wrong: Optional[str] = None
    is_skipped: bool = False


Outcomes = Iterator[Outcome]


def difference(found: list[str], wanted: list[str]) -> Optional[str]:
    """The first line that differs, or None."""
    for number in range(max(len(found), len(wanted))):
        one, other = (lines[number] if number < len(lines) else "nothing" for lines in (found, wanted))
        if one != other:
            return f"line {number + 1} is '{one[:200]}', wanted '{other[:200]}'"
    return None
