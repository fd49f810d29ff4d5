"""The values that completion offers: those of fields, decorations, and programs."""

import json
from pathlib import Path
from typing import Any, NamedTuple

from .general_midi import PROGRAMS

TABLE: dict[str, Any] = json.loads(Path(__file__).parents[1].joinpath("common/completion.json").read_text("utf-8"))  # which the page reads, too


class Item(NamedTuple):
    """What may be written: its text, what it means, after which character of the line it replaces what is there, what is shown for it,
    and its text with places to fill in."""

    text: str
    meaning: str
    start: int
    label: str = ""
    snippet: str = ""


def values_of(letter: str, before: str, start: int, voices: list[str]) -> list[Item]:
    """Returns the values of a field. After the first word of a `K:` or `V:` they are its properties."""
    value = before[start:]
    word = len(before) - len(value.replace("\t", " ").rpartition(" ")[2])
    if letter in "KV" and word > start:
        return properties(before[word:], word)
    values = dict.fromkeys(voices, "voice") if letter == "V" else TABLE["values"][letter]
    found = [Item(text, meaning, start) for text, meaning in values.items()]
    return [*found, *properties(value, start)] if letter == "K" else found


def properties(word: str, start: int) -> list[Item]:
    """Returns the properties of a key or a voice, or the clefs after `clef=`."""
    if word.startswith("clef="):
        return [Item(clef, "clef", start + len("clef=")) for clef in TABLE["clefs"]]
    return [Item(text, meaning, start) for text, meaning in TABLE["properties"].items()]


def decorations(before: str, start: int) -> list[Item]:
    """Returns what may be written between exclamation marks. Only dynamics are played."""
    words = TABLE["decorations"].items()
    return [Item(f"!{word}!", meaning, start) for word, meaning in words if f"!{word}!".startswith(before[start:])]


def programs(before: str, start: int) -> list[Item]:
    """Returns the programs of General MIDI whose number or name has what is written."""
    written = before[start:].casefold()
    rows = [(str(number), name) for number, name in enumerate(PROGRAMS)]
    found = [(n, name) for n, name in rows if (n.startswith(written) if written.isdigit() else written in name.casefold())]
    return [Item(n, name, start, label=f"{n} {name}") for n, name in found]
