"""Compiles the examples of docs/features.md, and compares what they sound as, and their faults, with the page."""

from __future__ import annotations

import re
import subprocess
import tempfile
from importlib.machinery import SourceFileLoader
from importlib.util import module_from_spec, spec_from_loader
from typing import Any, NamedTuple, Optional

from .markdown import SPAN, TOP, text_of
from .outcome import Outcome, Outcomes

PAGE = TOP / "docs/features.md"
HEADING = "| Example | Sounds here as |"
HEADER = ("X:1", "M:4/4", "L:1/4", "K:C")
SECONDS = 600


class Example(NamedTuple):
    """A row of the table: music, other music that sounds so, and the faults of the first."""

    music: str
    sound: str
    faults: list[str]


def comparer() -> Any:
    """The script that reads the notes of MIDI files."""
    loader = SourceFileLoader("real_tunes", str(TOP / "scripts/measure/real_tunes"))
    module = module_from_spec(spec_from_loader("real_tunes", loader))  # type: ignore[arg-type]
    loader.exec_module(module)
    return module


def names_of_faults() -> set[str]:
    """The names of all faults."""
    return set(re.findall(r"^\| `(\w+)` ", (TOP / "docs/faults.md").read_text("utf-8"), re.M))


def examples() -> list[Example]:
    """The rows of the table."""
    known = names_of_faults()
    rows = text_of(PAGE).partition(HEADING)[2].partition("\n\n")[0].split("\n")[2:]
    found = []
    for row in rows:
        cells = re.split(r"(?<!\\)\|", row.strip("|"))
        music, sound = (SPAN.findall(cell)[0].replace("\\|", "|") for cell in cells[:2])
        found.append(Example(music, sound, [name for name in SPAN.findall(cells[2]) if name in known]))
    return found


def compile_music(program: str, music: str) -> tuple[bytes, list[str]]:
    """The file of a tune with this music, and the names of its faults, each once."""
    lines = [f"insert 1 {len(HEADER) + 1}", *HEADER, music, "faults", "hex 1"]
    with tempfile.TemporaryDirectory() as folder:
        given = "".join(f"{line}\n" for line in lines)
        ran = subprocess.run([program, "--dir", folder], input=given, capture_output=True, text=True, timeout=SECONDS, check=True)
    file = next(line for line in ran.stdout.split("\n") if line.startswith("4D54"))
    return bytes.fromhex(file), list(dict.fromkeys(re.findall(r"^\d+:\d+ (\w+)$", ran.stdout, re.M)))


def wrong_example(program: str, example: Example, reader: Any) -> Optional[str]:
    """What is wrong with a row, or None."""
    (file, faults), (other, _) = (compile_music(program, music) for music in (example.music, example.sound))
    if faults != example.faults:
        return f"the faults are {', '.join(faults) or 'none'}"
    notes = [score.notes for score in map(reader.score_of, (file, other))]
    return None if notes[0] == notes[1] != [] else f"it sounds otherwise than {example.sound}"


def features(program: Optional[str]) -> Outcomes:
    """Each row, if there is a program."""
    if not program:
        yield Outcome("docs/features.md: its examples: no program was named", is_skipped=True)
        return
    reader = comparer()
    for example in examples():
        yield Outcome(f"docs/features.md: {example.music}", wrong_example(program, example, reader))
