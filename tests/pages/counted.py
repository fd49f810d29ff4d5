"""Compares what the pages count or list of the sources with the sources."""

from __future__ import annotations

import re

from .markdown import SPAN, TOP, text_of
from .outcome import Outcome, Outcomes

# The page, what begins the list of what is trusted, and what ends it.
TRUSTED = (("README.md", "**[Trusted]", "\n## "), ("docs/verification.md", "## What you have to trust", "\n### "))
LAYER = re.compile(r"^(\w+)(?: staticlib)?:((?: \w+)+)$", re.M)
EXPORT = re.compile(r"^#\[unsafe\(no_mangle\)\]$", re.M)
EXPORTS = re.compile(r"`#\[unsafe\(no_mangle\)\]` gives the names to ([\w-]+) functions")
BLOCK = re.compile(r"\bunsafe \{")
BLOCKS = re.compile(r"`grep -rn 'unsafe \{' crates --include='\*\.rt'` finds (\w+)\.")
NUMBERS = {"four": 4, "five": 5, "six": 6, "seven": 7, "twenty": 20, "twenty-one": 21, "twenty-two": 22, "twenty-three": 23, "twenty-four": 24, "twenty-five": 25}


def toolkit_crates() -> set[str]:
    """The crates of the toolkit that the crates of the repository use."""
    uses = LAYER.findall((TOP / "crates.txt").read_text("utf-8"))
    return {name for _, used in uses for name in used.split()} - {layer for layer, _ in uses}


def trusted() -> Outcomes:
    """Whether the pages that list what is trusted name each crate of the toolkit that is used."""
    for page, start, end in TRUSTED:
        part = text_of(TOP / page).partition(start)[2].partition(end)[0]
        missing = sorted(toolkit_crates() - set(SPAN.findall(part)))
        yield Outcome(f"{page}: what is trusted", f"it does not name {', '.join(missing)}" if missing else None)


def counts() -> Outcomes:
    """Whether the page on the proof counts the exports of the C library and the `unsafe` blocks."""
    page = text_of(TOP / "docs/verification.md")
    for what, sentence, pattern, crates in (("exports", EXPORTS, EXPORT, "c_library"), ("`unsafe` blocks", BLOCKS, BLOCK, "*")):
        found = sum(len(pattern.findall(path.read_text("utf-8"))) for path in TOP.glob(f"crates/{crates}/src/**/*.rt"))
        said = sentence.search(page)
        wrong = None if said and NUMBERS.get(said[1]) == found else f"there are {found}"
        yield Outcome(f"docs/verification.md: the number of {what}", wrong)
