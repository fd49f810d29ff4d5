"""The pages of the repository, and what is in them."""

from __future__ import annotations

import re
import subprocess
from pathlib import Path
from typing import Iterator, NamedTuple

TOP = Path(__file__).resolve().parent.parent.parent
COMMENT = re.compile(r"<!--[\s\S]*?-->")
FENCED = re.compile(r"^```(\w*)\n([\s\S]*?)^```$", re.M)
INDENTED = re.compile(r"^(?: {4,}|\t)(.*)$", re.M)
SPAN = re.compile(r"`([^`\n]+)`")
LINK = re.compile(r"\[[^\]]*\]\(([^)\s]+)\)")


class Block(NamedTuple):
    """A block of code between fences: its kind, and its text."""

    kind: str
    text: str


def pages() -> list[Path]:
    """The pages of the repository."""
    named = subprocess.run(["git", "ls-files", "*.md"], cwd=TOP, capture_output=True, text=True).stdout.split()
    return [TOP / name for name in named] or sorted([*TOP.glob("*.md"), *TOP.glob("docs/*.md")])


def text_of(page: Path) -> str:
    """The text of a page, without comments."""
    return COMMENT.sub("", page.read_text(encoding="utf-8"))


def fenced_blocks(page: Path) -> list[Block]:
    """The blocks of a page that are between fences."""
    return [Block(*found) for found in FENCED.findall(text_of(page))]


def links(page: Path) -> list[str]:
    """The links of a page, without those in code."""
    text = text_of(page)
    for code in (FENCED, INDENTED, SPAN):
        text = code.sub("", text)
    return LINK.findall(text)


def code(page: Path) -> Iterator[str]:
    """Each line of code of a page, and each code span."""
    text = text_of(page)
    for block in fenced_blocks(page):
        yield from block.text.split("\n")
    text = FENCED.sub("", text)
    yield from INDENTED.findall(text)
    yield from SPAN.findall(INDENTED.sub("", text))


def anchors(page: Path) -> set[str]:
    """The anchors of a page's headings, as the sites that show Markdown make them."""
    found: set[str] = set()
    for heading in re.findall(r"^#{1,6} (.+?)\s*$", FENCED.sub("", text_of(page)), re.M):
        slug = re.sub(r"[^\w\- ]", "", heading.lower()).replace(" ", "-")
        number, name = 0, slug
        while name in found:
            number += 1
            name = f"{slug}-{number}"
        found.add(name)
    return found
