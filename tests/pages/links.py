"""Follows the relative links of the pages, with their anchors."""

from __future__ import annotations

import re
from pathlib import Path
from typing import Optional

from .markdown import TOP, anchors, links, pages
from .outcome import Outcome, Outcomes


def wrong_link(page: Path, link: str) -> Optional[str]:
    """What is wrong with a link of a page, or None."""
    path, _, anchor = link.partition("#")
    target = (page.parent / path).resolve() if path else page
    if not target.exists():
        return f"there is no {path}"
    if TOP not in [target, *target.parents]:
        return f"{path} is outside the repository"
    if re.fullmatch(r"L[0-9]+", anchor) and target.is_file():
        lines = target.read_text(encoding="utf-8").count("\n")
        return None if int(anchor[1:]) <= lines else f"{path} has no line {anchor[1:]}"
    if anchor and (target.suffix != ".md" or anchor not in anchors(target)):
        return f"there is no heading #{anchor} in {target.relative_to(TOP)}"
    return None


def relative_links() -> Outcomes:
    """Each relative link of each page."""
    for page in pages():
        for link in links(page):
            if not re.match(r"[a-z]+:", link):
                yield Outcome(f"{page.relative_to(TOP)}: {link}", wrong_link(page, link))
