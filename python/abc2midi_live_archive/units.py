"""Units of work: a book to compile, and what came of it. Both travel between processes and machines."""

from __future__ import annotations

import enum
from collections.abc import Mapping
from typing import Any, NamedTuple, Optional

from .limits import Limits


WRITTEN = "written"  # the reading in which what is written sounds, and no more


class Numbering(enum.Enum):
    """What the file of a tune is named for."""

    NUMBER = "number"  # of the `X:` line
    PLACE = "place"  # among the tunes of its book, from 1


class Backend(NamedTuple):
    """What compiles: a C library or a program, by its path. With neither a worker takes what it finds."""

    library: Optional[str] = None
    program: Optional[str] = None


class Unit(NamedTuple):
    """A book to compile: its name in the archive, its file or its bytes, and what an earlier run knows of it."""

    book: str
    path: str
    data: Optional[bytes]  # None: the worker reads the file
    folder: Optional[str]  # for the MIDI files; None: they are returned
    backend: Backend
    with_hints: bool
    known_digest: Optional[str]  # of the book, if an earlier run compiled it with the same options
    known_sizes: Mapping[int, int]  # of the files that the earlier run stored, by their numbers
    limits: Limits = Limits()
    follows: bool = True  # a symbolic link instead of the file
    syncs: bool = False  # the files are on their disk when the unit is done
    with_losses: bool = False
    numbering: Numbering = Numbering.NUMBER
    reading: str = WRITTEN


class Kind(enum.Enum):
    """Who finds a remark."""

    FAULT = "fault"
    HINT = "hint"


class Remark(NamedTuple):
    """A fault or a hint: its place, counted from 1, its name, the sentence of a hint, and the line around it, with the character of
    this excerpt, from 0, at the place."""

    kind: str
    line: int
    column: int
    name: str
    sentence: Optional[str]
    excerpt: str
    mark: int


class TuneRow(NamedTuple):
    """A tune, as the catalogue has it: its `X:` line, its place among the tunes of its book, what its text says, and, if it has a file,
    what that file has. `state` is how much of it sounds, if that was looked for."""

    number: int
    title: str
    line: int
    place: int = 1
    reading: str = WRITTEN
    titles: Optional[str] = None
    last_line: Optional[int] = None
    composer: Optional[str] = None
    origin: Optional[str] = None
    rhythm: Optional[str] = None
    source: Optional[str] = None
    transcriber: Optional[str] = None
    book_title: Optional[str] = None
    annotations: Optional[str] = None
    key_text: Optional[str] = None
    tonic: Optional[str] = None
    mode: Optional[str] = None
    tempo_text: Optional[str] = None
    unit: Optional[str] = None
    has_lyrics: Optional[bool] = None
    has_chord_names: Optional[bool] = None
    has_grace_notes: Optional[bool] = None
    has_overlays: Optional[bool] = None
    file: Optional[str] = None  # its path in the archive
    size: Optional[int] = None
    sha256: Optional[str] = None
    key: Optional[str] = None
    meter: Optional[str] = None
    tempo: Optional[float] = None
    ticks: Optional[int] = None
    seconds: Optional[float] = None
    voices: Optional[int] = None
    notes: Optional[int] = None
    notes_digest: Optional[str] = None
    state: Optional[str] = None


Row = tuple[Any, ...]  # the columns of a `TuneRow` without their names: it travels between processes in half of the time
FILE, SHA256 = (TuneRow._fields.index(name) for name in ("file", "sha256"))


class Effect(enum.Enum):
    """How a tune, or something in it, sounds beside what is written."""

    COMPLETE = "complete"
    SILENT = "silent"
    OTHER = "other"  # than written


class Loss(NamedTuple):
    """What of the tune at a place does not sound as it is written: how often, and the lines, with blanks between them."""

    place: int
    kind: str
    effect: str
    times: int
    lines: str


class Outcome(enum.Enum):
    """How a unit ended."""

    COMPILED = "compiled"
    CURRENT = "current"  # the book is as an earlier run left it
    UNREADABLE = "cannot be read"
    UNWRITABLE = "cannot be written"
    FAILED = "cannot be compiled"


class Result(NamedTuple):
    """What came of a unit. `files` has the bytes of the MIDI files if they are returned."""

    outcome: Outcome
    why: str = ""
    digest: str = ""
    size: int = 0
    lines: int = 0
    parts: int = 1
    seconds: float = 0.0
    tunes: tuple[Row, ...] = ()
    file_count: int = 0
    remarks: tuple[Remark, ...] = ()
    fault_count: int = 0
    hint_count: int = 0
    losses: tuple[Loss, ...] = ()
    hidden: int = 0  # tunes without a file, since an earlier one of the book has their number
    files: Optional[dict[int, bytes]] = None


def path_of_file(book: str, number: int) -> str:
    """Returns the path of a MIDI file in the archive."""
    return f"{book}/{number}.mid"


def number_of_file(path: str) -> int:
    """Returns the number in the path of a MIDI file."""
    return int(path[path.rindex("/") + 1 : -len(".mid")])
