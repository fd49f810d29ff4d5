"""The names of the programs of General MIDI, from program 0 on. The page has the same table."""

import json
from pathlib import Path

TABLE: dict[str, list[str]] = json.loads(Path(__file__).parents[1].joinpath("common/completion.json").read_text("utf-8"))["instruments"]
PROGRAMS = [name for names in TABLE.values() for name in names]
