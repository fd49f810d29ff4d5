"""What does units of work, whichever way: a pool of processes here, or a cluster."""

from __future__ import annotations

from abc import ABC, abstractmethod
from collections.abc import Iterator
from typing import NamedTuple

from .units import Outcome, Result, Unit

MOST_DEATHS = 3  # of workers over one unit that is alone
MOST_BYTES_AHEAD = 1 << 28  # of books that were read here and are not done
DIED = "each worker that compiled it died; it may be out of memory"


class Done(NamedTuple):
    """A unit and what came of it."""

    unit: Unit
    result: Result


class Workers(ABC):
    """Workers. `under_way` has the units that they were given and have not done, by the names of their books."""

    def __init__(self) -> None:
        self.under_way: dict[str, Unit] = {}

    @abstractmethod
    def do(self, units: Iterator[Unit]) -> Iterator[Done]:
        """Yields units as they are done, in any order, and takes more only as fast as they are."""

    def has_room(self, most: int) -> bool:
        """Returns whether the workers can have one more unit, of `most` at once, if the books of those that they have are few bytes."""
        size = sum(len(unit.data or b"") for unit in self.under_way.values())
        return len(self.under_way) < most and size < MOST_BYTES_AHEAD

    @abstractmethod
    def stop(self) -> None:
        """Ends the workers, also in the middle of a unit."""


def died(unit: Unit) -> Done:
    """Returns the result of a unit over which too many workers died."""
    return Done(unit, Result(Outcome.FAILED, DIED))
