"""Does a unit of work: reads a book, compiles its parts, stores the files or returns them, and says what it found."""

from __future__ import annotations

import hashlib
import time
from collections.abc import Iterator, Sequence
from dataclasses import dataclass, field
from typing import Any, NamedTuple, Optional

import abc2midi_live
from abc2midi_live import Fault, Session
from abc2midi_live.lines import MOST_BYTES, lines_of_book
from abc2midi_live_clients.common.line_places import is_inside_character, text_of
from abc2midi_live_clients.common.session_book import Tune, line_to_send
from abc2midi_live_clients.hints import Finder

from .cutting import Part, cut_book
from .reading import read_file
from .sources import reason
from .storing import has_files, store_files
from .tunes.fields import fields_of, file_header_of
from .tunes.losses import Losses, state_of
from .tunes.music import facts_of
from .tunes.numbering import Text, insert_part
from .units import FILE, Backend, Kind, Loss, Outcome, Remark, Result, Row, TuneRow, Unit, path_of_file

MOST_REMARKS = 10_000  # of a book that the catalogue has
MOST_EXCERPT = 120  # characters
NO_FILE = (None,) * (TuneRow._fields.index("state") - FILE)


@dataclass
class Compiled:
    """What the parts of a book gave so far."""

    unit: Unit
    files: dict[int, bytes] = field(default_factory=dict)
    tunes: list[Row] = field(default_factory=list)
    faults: list[Fault] = field(default_factory=list)
    hints: list[Remark] = field(default_factory=list)
    losses: list[Loss] = field(default_factory=list)
    hidden: int = 0


def do_unit(unit: Unit) -> Result:
    """Does a unit. Whatever is wrong with the book or the folder is in the result."""
    try:
        return do_book(unit)
    except (MemoryError, abc2midi_live.OutOfMemory):
        return Result(Outcome.FAILED, unit.limits.too_large)
    except abc2midi_live.Error as error:
        return Result(Outcome.FAILED, str(error))
    except Exception as error:  # a mistake of this package: it is one of this book alone
        return Result(Outcome.FAILED, f"{type(error).__name__}: {error}")


def do_book(unit: Unit) -> Result:
    """Does a unit. Raises what compiling raises."""
    started = time.perf_counter()
    try:
        data = read_file(unit.path, unit.follows) if unit.data is None else unit.data
    except OSError as error:
        return Result(Outcome.UNREADABLE, reason(error))
    digest = hashlib.sha256(data).hexdigest()
    try:
        if digest == unit.known_digest and (unit.folder is None or has_files(unit.folder, unit.known_sizes)):
            return Result(Outcome.CURRENT, digest=digest)
        result = compile_book(data, digest, unit)
        if unit.folder is not None and result.files is not None:
            store_files(unit.folder, result.files, unit.syncs)
            result = result._replace(files=None)
    except OSError as error:
        return Result(Outcome.UNWRITABLE, reason(error))
    return result._replace(seconds=time.perf_counter() - started)


def compile_book(data: bytes, digest: str, unit: Unit) -> Result:
    """Returns what a book has, with its files."""
    whole = lines_of_book(data)
    lines = [line_to_send(line) for line in whole] if max(map(len, whole), default=0) > MOST_BYTES else whole
    cut = cut_book(lines)
    found = Compiled(unit, faults=[Fault(line, 1, "TooLarge") for line in cut.too_long])
    if lines is not whole:
        found.faults.extend(Fault(n, MOST_BYTES + 1, "BadLine") for n, line in enumerate(whole, 1) if len(line) > MOST_BYTES)
    for n, part in enumerate(cut.parts):
        with open_session(unit.backend) as session:
            compile_part(session, part, n == 0, found)
    found.faults.sort(key=lambda fault: fault[:2])
    faults = (fault_remark(fault, whole) for fault in found.faults[:MOST_REMARKS])
    return Result(
        Outcome.COMPILED,
        digest=digest,
        size=len(data),
        lines=len(whole),
        parts=len(cut.parts),
        tunes=tuple(found.tunes),
        file_count=len(found.files),
        remarks=(*faults, *found.hints[:MOST_REMARKS]),
        fault_count=len(found.faults),
        hint_count=len(found.hints),
        files=found.files,
        losses=tuple(found.losses),
        hidden=found.hidden,
    )


def open_session(backend: Backend) -> Session:
    """Opens a session with an empty text."""
    return abc2midi_live.open(library=backend.library, program=backend.program)


def compile_part(session: Session, part: Part, is_first: bool, found: Compiled) -> None:
    """Adds what a part of a book has."""
    text = insert_part(session, part, found.unit.numbering, len(found.tunes))
    faults = [fault for fault in text.faults if is_first or fault.line > part.header]
    tunes = [Tune(number, text_of(title), start + 1) for (number, title), start in zip(text.titles, text.starts)]
    add_tunes(session, part, text, tunes, found)
    found.faults.extend(placed(faults, part))
    if found.unit.with_hints:
        remarks = Finder(found.unit.backend.library).hints(part.lines, tunes, faults)
        found.hints.extend(
            Remark(Kind.HINT.value, part.line_of_book(line), column, name, sentence, *excerpt(part.lines[line - 1], column))
            for line, column, name, sentence in remarks
            if is_first or line > part.header
        )


def add_tunes(session: Session, part: Part, text: Text, tunes: Sequence[Tune], found: Compiled) -> None:
    """Adds the tunes of a part, and their files. A number belongs to its first tune in the book that is not too long."""
    too_long = {fault.line for fault in text.faults if fault.name == "TuneTooLong"}
    file_header = file_header_of(part.lines[: text.starts[0] if text.starts else 0])
    losses = Losses(session, part, text.faults, found.unit.reading) if found.unit.with_losses else None
    for tune, number, start, end in zip(tunes, text.numbers, text.starts, [*text.starts[1:], len(part.lines)]):
        data = session.output(number) if tune.line not in too_long and number not in found.files else None
        if data is not None:
            found.files[number] = data
        elif tune.line not in too_long:
            found.hidden += 1
        line, place = part.line_of_book(tune.line), len(found.tunes) + 1
        fields = fields_of(part.lines[start:end], line, file_header)
        state = None
        if losses:
            lost = losses.of_tune(place, start, start + fields.last_line - line + 1, number if data is not None else None)
            state = state_of(lost)
            found.losses.extend(lost)
        columns = file_columns(found.unit.book, number, data)
        found.tunes.append((tune.number, tune.title, line, place, found.unit.reading, *fields, *columns, state))


def file_columns(book: str, number: int, data: Optional[bytes]) -> tuple[Any, ...]:
    """Returns what the row of a tune has of its file, from its path on."""
    if data is None:
        return NO_FILE
    return (path_of_file(book, number), len(data), hashlib.sha256(data).hexdigest(), *facts_of(data))


def placed(faults: Sequence[Fault], part: Part) -> Iterator[Fault]:
    """Yields the faults of a part at their places in the book. Of `BadByte` at each byte of a character only the first one counts."""
    for fault in faults:
        if fault.name != "BadByte" or not is_inside_character(part.lines[fault.line - 1], fault.column):
            yield fault._replace(line=part.line_of_book(fault.line))


def fault_remark(fault: Fault, lines: Sequence[bytes]) -> Remark:
    """Returns a fault with its line."""
    return Remark(Kind.FAULT.value, *fault, None, *excerpt(lines[fault.line - 1], fault.column))


def excerpt(line: bytes, column: int) -> tuple[str, int]:
    """Returns the line around a column, and the character at the column, from 0."""
    line = line.removesuffix(b"\r")
    text = text_of(line)
    at = column - 1 if len(text) == len(line) else len(line[: column - 1].decode("utf-8", "ignore"))
    start = max(0, min(at - MOST_EXCERPT // 2, len(text) - MOST_EXCERPT))
    return text[start : start + MOST_EXCERPT], at - start
