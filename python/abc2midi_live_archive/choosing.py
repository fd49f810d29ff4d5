"""Chooses books by patterns of their paths, as a shell has them."""

from __future__ import annotations

from collections.abc import Sequence
from fnmatch import fnmatchcase
from typing import NamedTuple

from .sources import Source


class Patterns(NamedTuple):
    """The patterns of the books that a run takes, and of those that it leaves out. Without patterns it takes all."""

    include: Sequence[str] = ()
    exclude: Sequence[str] = ()

    def take(self, source: Source) -> bool:
        """Returns whether a run takes a book."""
        is_included = not self.include or any(fits(source.below, pattern) for pattern in self.include)
        return is_included and not any(fits(source.below, pattern) for pattern in self.exclude)


def fits(path: str, pattern: str) -> bool:
    """Returns whether a path has a pattern. One without `/` is that of the last part. A `*` is any text, also one with `/`."""
    return fnmatchcase(path if "/" in pattern else path.rpartition("/")[2], pattern)
