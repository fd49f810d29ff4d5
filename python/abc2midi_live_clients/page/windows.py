"""The windows that have a book: those that hold a connection, and those that ask again and again; and the last changes
of their text, for those that did not see them yet."""

import time
from collections import deque
from collections.abc import Iterable, Iterator

from ..common.json_object import Json

MOST_STREAMS = 4  # a browser holds six connections to one host, and windows need some to ask by
SECONDS_BETWEEN_QUESTIONS = 10  # after which a window that asks counts as closed
MOST_CHANGES = 200
MOST_CHARACTERS = 1 << 24  # of their lines together, or of the last one


class Windows:
    """A count of windows."""

    def __init__(self) -> None:
        self.streams = 0
        self.asked: dict[str, float] = {}  # by the name of a window that asks again and again: when it did

    def begin_stream(self, name: str) -> bool:
        """Counts a window that holds a connection, if it may."""
        if not self.has_room():
            return False
        self.asked.pop(name, None)
        self.streams += 1
        return True

    def end_stream(self) -> None:
        """The connection of a window ended."""
        self.streams -= 1

    def has_room(self) -> bool:
        """Whether one more window may hold a connection."""
        return self.streams < MOST_STREAMS

    def ask(self, name: str) -> None:
        """A window asked."""
        self.asked[name] = time.monotonic()

    def count(self) -> int:
        """How many windows there are."""
        latest = time.monotonic() - SECONDS_BETWEEN_QUESTIONS
        self.asked = {name: when for name, when in self.asked.items() if when > latest}
        return self.streams + len(self.asked)


class RecentChanges:
    """Changes in the order in which they were made. The oldest ones go when there are too many or they are too long."""

    def __init__(self) -> None:
        self.kept: deque[Json] = deque()
        self.characters = 0

    def __iter__(self) -> Iterator[Json]:
        return iter(self.kept)

    def extend(self, changes: Iterable[Json]) -> None:
        """Adds changes."""
        for change in changes:
            self.kept.append(change)
            self.characters += characters_of(change)
        while len(self.kept) > MOST_CHANGES or self.characters > MOST_CHARACTERS and len(self.kept) > 1:
            self.characters -= characters_of(self.kept.popleft())


def characters_of(change: Json) -> int:
    """How long the lines of a change are."""
    return sum(map(len, change["edit"]["lines"]))
