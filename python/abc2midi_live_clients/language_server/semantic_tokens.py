"""The colours of a text, by the tokens that the library reads."""

from collections.abc import Iterator
from typing import Any, NamedTuple

from abc2midi_live import TokenKind

from ..common.json_object import Json
from .document import Document
from .text_changes import Position, range_of
from .token_styles import STYLES
from .token_texts import TokenText
from .workspace import Workspace

TYPES = sorted({style.semantic for style in STYLES.values()})
LEGEND: Json = {"tokenTypes": TYPES, "tokenModifiers": []}


class Piece(NamedTuple):
    """A part of a line in one colour: its first character, the one after its last, and its kind."""

    start: int
    end: int
    kind: TokenKind


def of_document(workspace: Workspace, params: Any) -> Json:
    """The semantic tokens of a whole tune book."""
    document = workspace.document(params)
    return {"data": data_of(document, 0, len(document.lines))}


def of_range(workspace: Workspace, params: Any) -> Json:
    """The semantic tokens of the lines of a range."""
    document, place = workspace.document(params), range_of(params["range"])
    return {"data": data_of(document, document.place(place.start)[0], document.place(place.end)[0] + 1)}


def data_of(document: Document, first: int, stop: int) -> list[int]:
    """Returns tokens as the protocol has them: each relative to the one before."""
    data: list[int] = []
    last = Position(0, 0)
    for line in range(first, min(stop, len(document.lines))):
        for start, end, kind in pieces(document.tokens(line)):
            place, after = document.text.position(line, start), document.text.position(line, end)
            if place.line == after.line:  # a carriage return inside a comment ends a line of the editor
                lines = place.line - last.line
                column = place.character - (0 if lines else last.character)
                data += [lines, column, after.character - place.character, TYPES.index(STYLES[kind].semantic), 0]
                last = place
    return data


def pieces(tokens: list[TokenText]) -> Iterator[Piece]:
    """Yields the pieces of a line that have a style. None overlaps another: those of a chord are around its parts."""
    for token in tokens:
        if token.kind == TokenKind.CHORD:
            parts = [each for each in tokens if each.is_part and token.start <= each.start < token.end]
            yield from around(token, parts)
        elif token.kind in STYLES and not token.is_part:
            yield Piece(token.start, token.end, token.kind)


def around(chord: TokenText, parts: list[TokenText]) -> Iterator[Piece]:
    """Yields the parts of a chord, and what is around them."""
    at = chord.start
    for part in parts:
        if at < part.start:
            yield Piece(at, part.start, TokenKind.CHORD)
        if part.kind in STYLES:
            yield Piece(part.start, part.end, part.kind)
        at = part.end
    if at < chord.end:
        yield Piece(at, chord.end, TokenKind.CHORD)
