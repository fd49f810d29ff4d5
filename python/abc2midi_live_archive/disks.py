"""Has what was written reach a disk."""

from __future__ import annotations

import ctypes
import os


def sync_file_system(descriptor: int) -> None:
    """Waits until all that was written to the file system of an open file is on its disk. For many small files that takes much less time
    than to wait for each. Raises OSError."""
    library = ctypes.CDLL(None, use_errno=True)
    if library.syncfs(descriptor):
        number = ctypes.get_errno()
        raise OSError(number, os.strerror(number))
