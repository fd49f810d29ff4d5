"""The limits of a book: how much memory and time it may take, so that none can stop a run."""

from __future__ import annotations

import re
import resource
from typing import NamedTuple

UNITS = {"": 1, "K": 1 << 10, "M": 1 << 20, "G": 1 << 30}
LEAST_MEMORY = 512 << 20  # an allocator reserves some hundred megabytes before the first book


class Limits(NamedTuple):
    """What a book may take: bytes of memory in each process that compiles it, and seconds by the clock."""

    memory: int = 4 << 30
    seconds: float = 600.0

    @property
    def too_large(self) -> str:
        """Why a book is not compiled that needs more memory."""
        return f"it needs more than {size_text(self.memory)} of memory, the limit of --memory-per-book"

    @property
    def too_slow(self) -> str:
        """Why a book is not compiled that takes more time."""
        return f"it takes more than {self.seconds:g} seconds, the limit of --seconds-per-book"


def size_of(text: str) -> int:
    """Returns a number of bytes, as `500M` or `2G`. Raises ValueError."""
    found = re.fullmatch(r"([0-9]{1,9})([KMG]?)B?", text, re.IGNORECASE)
    if not found:
        raise ValueError(text)
    return int(found[1]) * UNITS[found[2].upper()]


def size_text(size: int) -> str:
    """Returns a number of bytes as `size_of` reads it."""
    unit = next(unit for unit in "GMK" if size >= UNITS[unit])
    return f"{size / UNITS[unit]:g} {unit}B"


def limit_memory(size: int) -> None:
    """Limits the private memory of this process and of those that it starts from now on: an allocation beyond it fails."""
    _, most = resource.getrlimit(resource.RLIMIT_DATA)
    resource.setrlimit(resource.RLIMIT_DATA, (size if most == resource.RLIM_INFINITY else min(size, most), most))
