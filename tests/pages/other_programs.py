"""Compares docs/abc2midi.md with the help and the manual page of `abc2midi`, if that is installed, and with what the program does."""

from __future__ import annotations

import gzip
import re
import shutil
import subprocess
import tempfile
from pathlib import Path
from typing import Optional

from .markdown import SPAN, TOP, text_of
from .outcome import Outcome, Outcomes

PAGE = TOP / "docs/abc2midi.md"
MANUAL = Path("/usr/share/man/man1/abc2midi.1.gz")
LINES_HEADING = "## `%%MIDI` lines"
OPTION = re.compile(r"(?<=[\s[])-[A-Za-z]+\b")
LINE = re.compile(r"^%%MIDI ([a-z]+)", re.M)
READ = "program"  # of the `%%MIDI` lines, the one that the program reads
TUNE = ("X:1", "T:Scale", "L:1/4", "K:C", "CDEF|GABc|")
AT = 4  # the line before which a `%%MIDI` line is inserted, in the header
SECONDS = 600


def first_column(heading: str) -> set[str]:
    """The words in code font in the first column of the table below a heading."""
    section = text_of(PAGE).partition(f"\n{heading}\n")[2].partition("\n## ")[0]
    rows = (line.split("|")[1] for line in section.split("\n") if line.startswith("| `"))
    return {span for cell in rows for span in SPAN.findall(cell)}


def missing(wanted: set[str], heading: str) -> Optional[str]:
    """What is wrong with a table that has to name these, or None."""
    names = sorted(wanted - first_column(heading))
    return f"the table does not name {', '.join(names)}" if names else None if wanted else "nothing was found to compare with"


def manual_lines() -> set[str]:
    """The names of the `%%MIDI` lines of the manual page."""
    return set(LINE.findall(gzip.decompress(MANUAL.read_bytes()).decode("utf-8", "replace")))


def without_effect(program: str) -> Optional[str]:
    """What is wrong with the lines that have no effect, or None: the file of a tune is the same with each of them."""
    names = sorted(first_column(LINES_HEADING))
    words = [f"insert 1 {len(TUNE)}", *TUNE, "hex 1"]
    for name in names:
        words += [f"insert {AT} 1", f"%%MIDI {name} 40", "hex 1", f"delete {AT} {AT}"]
    with tempfile.TemporaryDirectory() as folder:
        given = "".join(f"{line}\n" for line in words)
        ran = subprocess.run([program, "--dir", folder], input=given, capture_output=True, text=True, timeout=SECONDS, check=True)
    files = [line for line in ran.stdout.split("\n") if line.startswith("4D54")]
    acting = {name for name, file in zip(names, files[1:]) if file != files[0]}
    return None if acting == {READ} and len(files) == len(names) + 1 else f"these have an effect: {', '.join(sorted(acting))}"


def other_programs(program: Optional[str]) -> Outcomes:
    """The options and the `%%MIDI` lines of `abc2midi`, and that the program ignores all lines but one."""
    if shutil.which("abc2midi"):
        usage = subprocess.run(["abc2midi"], capture_output=True, text=True).stdout
        yield Outcome("docs/abc2midi.md: options", missing(set(OPTION.findall(usage)), "## Options"))
    else:
        yield Outcome("docs/abc2midi.md: options: abc2midi is not installed", is_skipped=True)
    if MANUAL.exists():
        yield Outcome("docs/abc2midi.md: %%MIDI lines", missing(manual_lines(), LINES_HEADING))
    else:
        yield Outcome("docs/abc2midi.md: %%MIDI lines: the manual page of abc2midi is not installed", is_skipped=True)
    if program:
        yield Outcome("docs/abc2midi.md: lines without effect", without_effect(program))
    else:
        yield Outcome("docs/abc2midi.md: lines without effect: no program was named", is_skipped=True)
