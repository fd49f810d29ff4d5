"""Looks for words that the pages and the contracts do not use."""

from __future__ import annotations

import re
from pathlib import Path
from typing import Iterator

from .markdown import FENCED, SPAN, TOP, pages, text_of
from .outcome import Outcome, Outcomes

# A phrase that a page does not use, as a pattern, and what it says instead.
PHRASES = {
    r"(?:is|are|was|were) told": "the program prints it, or reports it",
    r"stands(?! out)": "'is', or 'is in'",
    r"behind": "'after'",
    r"in the place of": "'instead of'",
    r"that which": "the noun",
    r"wanting|want of memory|there is no memory": "'out of memory', or 'an allocation fails'",
    r"hand(?:s|ed)? out|lent": "'returns', 'borrows' or 'takes'",
    r"puts? in place": "'commits', or 'replaces'",
    r"taken up again": "'resumed'",
    r"(?<!y)our own": "'Not in ABC 2.1.'",
    r"so many": "a number",
    r"tells?(?: \w+)* apart": "'differs', or 'equivalent'",
}
# A word that labels no clause: a label is the noun that the clause is about, or one of the common five.
LABELS = ("behind", "given", "held", "kept", "lent", "made", "named", "says", "stand", "stands", "tell", "tells", "told", "wanting")
CLAUSE = re.compile(rf"^\s*(?:ensures|requires)\*? ({'|'.join(LABELS)}) \{{")
OUTSIDE_TEXT = re.compile(r"^(?: {4,}|\t).*$", re.M)


def phrases_in(text: str) -> Iterator[str]:
    """The phrases of a text that a page does not use, with what it says instead. Code does not count."""
    for code in (FENCED, OUTSIDE_TEXT, SPAN):
        text = code.sub("", text)
    for phrase, instead in PHRASES.items():
        for found in re.findall(rf"\b(?:{phrase})\b", " ".join(text.split()), re.I):
            yield f"'{found}' is not used; it says {instead}"


def labels_in(path: Path) -> Iterator[str]:
    """The labels of a source that no clause has."""
    for number, line in enumerate(path.read_text(encoding="utf-8").split("\n"), 1):
        found = CLAUSE.match(line)
        if found:
            yield f"{path.relative_to(TOP)}:{number} labels a clause '{found[1]}'; a label says what the clause is about"


def words() -> Outcomes:
    """Whether each page uses no such phrase, and whether each crate labels no clause by such a word."""
    for page in pages():
        yield Outcome(f"{page.relative_to(TOP)}: words", next(phrases_in(text_of(page)), None))
    for crate in sorted(TOP.glob("crates/*/src")):
        labels = (wrong for path in sorted(crate.glob("**/*.rt")) for wrong in labels_in(path))
        yield Outcome(f"{crate.relative_to(TOP)}: labels", next(labels, None))
