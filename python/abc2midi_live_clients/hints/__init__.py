"""Hints: what the program does not report as a fault, and may still not be what was meant. docs/hints.md describes each.

Each module has the hints of its names; `finder` puts those of a text together, and looks again at changed tunes alone."""

from __future__ import annotations

from .book import number_is_used
from .finder import MOST_AT_ONCE, Finder
from .hint import Hint

__all__ = ["MOST_AT_ONCE", "NAMES", "Finder", "Hint", "number_is_used"]

# Each hint, with the module that finds it.
NAMES = (
    "SameNumber",  # book
    "NoTune",
    "LoneReturns",
    "FreeMusic",
    "NotUtf8",
    "NotPlayed",  # words
    "TextBlock",
    "Overlay",
    "LostSharp",
    "BagpipeKey",
    "LostFlat",  # foreign
    "GermanNote",
    "Markup",
    "SurplusSyllables",  # lyrics
    "MidiLine",  # directives
    "LostProgram",
    "OpenRepeat",  # repeats
    "LostEnding",
    "PartInRepeat",
    "MusicBeforeVoice",  # voices
    "VoiceLengths",
    "BarLength",  # bars
    "ShortTuplet",
    "TieToOtherKey",  # ties
    "ManyTunes",  # finder
)
