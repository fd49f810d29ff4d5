"""The C library as `ctypes` sees it: its types and calls, as the header abc2midi_live.h has them."""

from __future__ import annotations

import ctypes
from ctypes import POINTER, c_char_p, c_size_t, c_uint8, c_uint32, c_uint64, c_void_p
from functools import lru_cache

from .errors import LibraryMissing

OK, MISUSED, BAD_RANGE, BAD_LINE, TOO_LARGE, OUT_OF_MEMORY, NOT_FOUND, SHORT_BUFFER, TOO_LONG = range(9)  # what calls return
NO_KEY = 128  # of an entry of a play
JOINED, TIED = 1, 2  # bits of the ties of an entry of a play


class CSession(ctypes.Structure):
    """`abc_live_session`: all zero if there is none. It is not to be copied."""

    _fields_ = [("at", c_void_p), ("state", c_uint8)]


class CWork(ctypes.Structure):
    """`abc_live_work`: all zero at first."""

    _fields_ = [("scanned", c_uint64), ("folded", c_uint64), ("built", c_uint64)]


class CFault(ctypes.Structure):
    """`abc_live_fault`."""

    _fields_ = [("line", c_uint32), ("column", c_uint32), ("code", c_uint32)]


class CToken(ctypes.Structure):
    """`abc_live_token`."""

    _fields_ = [("from", c_uint32), ("to", c_uint32), ("kind", c_uint32), ("depth", c_uint32)]


class CEntry(ctypes.Structure):
    """`abc_live_entry`."""

    _fields_ = [
        ("on", c_uint64),
        ("off", c_uint64),
        ("line", c_uint32),
        ("from", c_uint32),
        ("to", c_uint32),
        ("kind", c_uint8),
        ("key", c_uint8),
        ("velocity", c_uint8),
        ("ties", c_uint8),
    ]


SESSION, WORK, FAULT, TOKEN, ENTRY = POINTER(CSession), POINTER(CWork), POINTER(CFault), POINTER(CToken), POINTER(CEntry)
NUMBER, COUNT = POINTER(c_uint32), POINTER(c_size_t)
BYTES = [c_char_p, c_size_t]  # and how many they are, or how many fit
NUMBERS = [NUMBER, c_size_t]
MAJOR = 1  # of the versions of the library that have these calls
CALLS = {  # all return a code, but `version`
    "version": [],
    "open": [SESSION],
    "close": [SESSION],
    "insert": [SESSION, c_uint32, *BYTES, WORK],
    "replace": [SESSION, c_uint32, c_uint32, *BYTES, WORK],
    "delete": [SESSION, c_uint32, c_uint32, WORK],
    "written": [SESSION, *NUMBERS, COUNT],
    "removed": [SESSION, *NUMBERS, COUNT],
    "numbers": [SESSION, *NUMBERS, COUNT],
    "output": [SESSION, c_uint32, *BYTES, COUNT],
    "title_count": [SESSION, COUNT],
    "title": [SESSION, c_size_t, NUMBER, *BYTES, COUNT],
    "faults": [SESSION, FAULT, c_size_t, COUNT],
    "fault_name": [c_uint32, *BYTES, COUNT],
    "line_count": [SESSION, NUMBER],
    "line": [SESSION, c_uint32, *BYTES, COUNT],
    "tokens": [SESSION, c_uint32, TOKEN, c_size_t, COUNT, WORK],
    "tracks": [SESSION, c_uint32, COUNT, c_size_t, COUNT],
    "play": [SESSION, c_uint32, ENTRY, c_size_t, COUNT],
}


@lru_cache(maxsize=None)
def load(name: str) -> ctypes.CDLL:
    """Loads a library, by its path or by the name that the system knows. Raises LibraryMissing."""
    try:
        library = ctypes.CDLL(name)
        for call, arguments in CALLS.items():
            function = getattr(library, f"abc_live_{call}")
            function.restype, function.argtypes = c_uint32, arguments
    except (OSError, AttributeError) as error:
        raise LibraryMissing(str(error)) from error
    major = library.abc_live_version() // 1_000_000
    if major != MAJOR:
        raise LibraryMissing(f"{name} has the major version {major}, not {MAJOR}")
    return library
