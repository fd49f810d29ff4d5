"""What an editor can fold: tunes, their headers, their parts and voices, and lines of comments or of free text."""

from collections.abc import Iterator
from itertools import groupby
from typing import Any, Optional

from abc2midi_live import TokenKind

from ..common.json_object import Json
from .document import Document, TuneLines
from .voice_and_part_names import PART, names_in
from .workspace import Workspace

COMMENT, FREE_TEXT = "comment", "free text"


def folding_ranges(workspace: Workspace, params: Any) -> list[Json]:
    """The ranges of lines that can be folded."""
    document = workspace.document(params)
    found = dict.fromkeys(ranges_of(document))
    return [folding_range(document, *lines) for lines in found if lines[0] < lines[1]]


def ranges_of(document: Document) -> Iterator[tuple[int, int, str]]:
    """Yields the first and the last line of each range, and its kind."""
    for tune in document.tunes():
        yield tune.start, tune.end - 1, "region"
        yield from inside(document, tune)
    kinds = ((line, kind_of(document, line)) for line in range(len(document.lines)))
    for kind, rows in groupby(kinds, lambda row: row[1]):
        lines = [line for line, _ in rows]
        if kind:
            yield lines[0], lines[-1], "comment" if kind == COMMENT else "region"


def inside(document: Document, tune: TuneLines) -> Iterator[tuple[int, int, str]]:
    """Yields the ranges of the voices and parts that begin at a line of their own: a part up to the next part, a voice up to the next
    voice or part."""
    names = [name for name in names_in(document, tune) if not name.is_in_header and name.token.start == 0]
    for place, name in enumerate(names):
        after = (each.line for each in names[place + 1 :] if name.letter != PART or each.letter == PART)
        yield name.line, next(after, tune.end) - 1, "region"


def kind_of(document: Document, line: int) -> Optional[str]:
    """Returns whether a line is a comment or free text alone."""
    tokens = document.tokens(line)
    if len(tokens) != 1:
        return None
    return {TokenKind.COMMENT: COMMENT, TokenKind.FREE_TEXT: FREE_TEXT}.get(tokens[0].kind)


def folding_range(document: Document, first: int, last: int, kind: str) -> Json:
    """Returns a range as the protocol has it."""
    start, end = document.text.position(first, 0).line, document.text.position(last, 0).line
    return {"startLine": start, "endLine": end, "kind": kind}
