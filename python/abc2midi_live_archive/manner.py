"""How the command line wants books compiled."""

from __future__ import annotations

import argparse
import hashlib
import os
from typing import Optional

import abc2midi_live
from abc2midi_live import LibraryMissing, ProgramMissing

from .limits import Limits
from .planning import Manner
from .units import WRITTEN, Backend, Numbering

FORM = 2  # of what a run finds: another number has all books compiled again
NEEDS_LIBRARY = "--losses and --strict need the C library"


def manner_of(words: argparse.Namespace) -> Manner:
    """How books are compiled. Raises ProgramMissing."""
    with_losses, numbering = bool(words.losses or words.strict), Numbering(words.number_by)
    backend = find_backend(words, with_losses)
    manner = Manner(
        backend=backend,
        with_hints=words.hints,
        collects=words.collect,
        options="",
        limits=Limits(words.memory_per_book, words.seconds_per_book),
        syncs=bool(words.scheduler),
        with_losses=with_losses,
        numbering=numbering,
    )
    return manner._replace(options=options_of(manner))


def options_of(manner: Manner) -> str:
    """What a book was compiled with, as the catalogue has it. With other options a book is compiled again."""
    chosen = {"hints": manner.with_hints, "losses": manner.with_losses}
    chosen |= {manner.numbering.value: manner.numbering is not Numbering.NUMBER, manner.reading: manner.reading != WRITTEN}
    return " ".join([str(FORM), abc2midi_live.version(), digest_of(manner.backend), *(name for name, is_so in chosen.items() if is_so)])


def find_backend(words: argparse.Namespace, needs_library: bool) -> Backend:
    """What compiles. It is looked for once, and not by each worker. Raises ProgramMissing."""
    if words.library or words.program:
        return Backend(absolute(words.library), absolute(words.program))
    try:
        return Backend(library=abc2midi_live.find_library())
    except LibraryMissing as missing:
        if needs_library:
            raise ProgramMissing(f"{NEEDS_LIBRARY}: {missing}") from missing
        try:
            return Backend(program=abc2midi_live.find_program())
        except ProgramMissing as also:
            raise ProgramMissing(f"{missing}; {also}") from also


def absolute(name: Optional[str]) -> Optional[str]:
    """The path of a file; a name without a folder is for the system to find."""
    return os.path.abspath(name) if name and "/" in name else name


def digest_of(backend: Backend) -> str:
    """A short name of what compiles: another library may compile otherwise."""
    name = backend.library or backend.program or ""
    try:
        with open(name, "rb") as file:
            return hashlib.sha256(file.read()).hexdigest()[:16]
    except OSError:
        return os.path.basename(name)
