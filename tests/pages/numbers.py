"""Compares the numbers of README.md with docs/measurements.md."""

from __future__ import annotations

import re
from typing import Iterator, Optional

from .markdown import TOP, text_of
from .outcome import Outcome, Outcomes

PAGE = TOP / "README.md"
MEASUREMENTS = TOP / "docs/measurements.md"
HEADING = "| Measure it |"
OTHER = "`abc2midi`"
SCRIPT = re.compile(r"`((?:\./|scripts/)[\w/]+)[^`]*`")
NUMBER = re.compile(r"\d[\d,.]*(?: to \d[\d,.]*)? (?:ms|s|MB|times|min)\b")
MOST_LINES = 90


def rows() -> Iterator[list[str]]:
    """The cells of each row of the table whose last column has the commands."""
    lines = iter(text_of(PAGE).split("\n"))
    next(line for line in lines if line.endswith(HEADING))
    next(lines)
    for line in lines:
        if not line.startswith("|"):
            return
        yield [cell.strip() for cell in line.strip("|").split("|")]


def measured_by(script: str) -> str:
    """The sections of the page of measurements that name a script."""
    sections = re.split(r"^(?=## )", text_of(MEASUREMENTS), flags=re.M)
    return "\n".join(section for section in sections if script in section)


def measured_cells(measured: str, other: bool) -> str:
    """The numbers of tables of the other program, or of this one: the first cell of a row or of its column names the other."""
    found = []
    for table in re.findall(r"^\|.*\|$(?:\n\|.*\|$)+", measured, re.M):
        heads, _, *lines = ([cell.strip() for cell in line.strip("|").split("|")] for line in table.split("\n"))
        for cells in lines:
            found += [cell for head, cell in zip(heads[1:], cells[1:]) if (OTHER in head or OTHER in cells[0]) == other]
    return "\n".join(found)


def missing_numbers(words: str, measured: str) -> Optional[str]:
    """What is wrong with the numbers of some words, or None: the measurements have each as a whole."""
    found = NUMBER.findall(words)
    missing = [number for number in found if not re.search(rf"(?<![\d,.]){re.escape(number)}\b", measured)]
    return f"docs/measurements.md has no {', '.join(missing)}" if missing else None if found else "there is no number in it"


def numbers() -> Outcomes:
    """The numbers of the table beside `abc2midi`, by the command of each row; other measured numbers; and the length of the page."""
    script = ""
    for cells in rows():
        named = SCRIPT.search(cells[-1])
        script = named[1] if named else script
        measured = measured_by(script)
        yield Outcome(f"README.md: {script}", None if measured else f"docs/measurements.md does not name {script}")
        for cell, other in zip(cells[1:3], (False, True)):
            yield Outcome(f"README.md: {cell}", missing_numbers(cell, measured_cells(measured, other)))
    for line in text_of(PAGE).split("\n"):
        if " times the " in line:
            yield Outcome(f"README.md: {line[:100]}", missing_numbers(line, text_of(MEASUREMENTS)))
    lines = PAGE.read_text("utf-8").count("\n")
    yield Outcome("README.md: its length", None if lines <= MOST_LINES else f"it has {lines} lines, more than {MOST_LINES}")
