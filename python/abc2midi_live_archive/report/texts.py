"""Texts of the report: what of a book, a path or a sentence a page may have."""

from __future__ import annotations

import re
from html import escape


def shown(text: str) -> str:
    """Returns a text for the page."""
    return escape(text.encode("utf-8", "backslashreplace").decode("utf-8"))


def spelled(sentence: str) -> str:
    """Returns a sentence for the page: what is in backquotes is code."""
    return re.sub(r"`([^`]+)`", r"<code>\1</code>", shown(sentence))


def section(title: str, content: str, note: str = "") -> str:
    """Returns a part of the page."""
    return f'<section><h2>{shown(title)}</h2>\n<p class="soft">{shown(note)}</p>\n{content}</section>\n'
