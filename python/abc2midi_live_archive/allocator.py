"""The allocator of the workers: mimalloc or jemalloc if one is installed, with large pages.

It is chosen as scripts/installed/launcher chooses that of the program: the same folders, libraries and settings."""

from __future__ import annotations

import os

NAMES = ("libmimalloc.so.2", "libjemalloc.so.2")
LARGE_PAGES = {  # for mimalloc, jemalloc and the GNU C library from 2.35 on
    "MIMALLOC_LARGE_OS_PAGES": "1",
    "MALLOC_CONF": "thp:always",
    "GLIBC_TUNABLES": "glibc.malloc.hugetlb=1",
}


def choose_allocator() -> None:
    """Has the processes that this one starts from now on use another allocator, and large pages. Settings that are there stay."""
    if os.environ.get("ABC2MIDI_LIVE_ALLOCATOR") == "system":
        return
    folders = f"/usr/lib/{os.uname().machine}-linux-gnu", "/usr/lib64"  # Debian's, and that of others
    found = (f"{folder}/{name}" for name in NAMES for folder in folders if os.access(f"{folder}/{name}", os.R_OK))
    library = next(found, None)
    if library:
        os.environ["LD_PRELOAD"] = ":".join(filter(None, (os.environ.get("LD_PRELOAD"), library)))
    for name, value in LARGE_PAGES.items():
        os.environ.setdefault(name, value)
