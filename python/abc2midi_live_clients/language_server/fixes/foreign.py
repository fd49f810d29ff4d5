"""Fixes of what is written as in another notation: quotes, sharps, flats, German notes, markup."""

import re
from collections.abc import Callable, Iterator
from typing import Optional

from abc2midi_live import TokenKind

from ...hints.foreign import MARKUP, PASSED
from ..token_texts import TokenText
from .fix import Fix, Known, LineChange

STRAIGHT = {**dict.fromkeys("\u201c\u201d\u201e\u201f\u2033", '"'), **dict.fromkeys("\u2018\u2019\u201a\u201b\u2032", "'")}
ODD_SPACES = frozenset("\xa0\u1680\u202f\u205f\u3000" + "".join(map(chr, range(0x2000, 0x200B))))
NOTE_LETTERS = frozenset("ABCDEFGabcdefg")
CAPITALS = frozenset("ABCDEFG")
GERMAN = {"H": "B", "h": "b"}
MARKUP_TEXT, PASSED_TEXT = (re.compile(pattern.pattern.decode(), re.IGNORECASE) for pattern in (MARKUP, PASSED))


def straight_quotes(known: Known) -> Optional[Fix]:
    """Writes straight quotes for those of a word processor, in the whole line."""
    return signs_of_line(known, "Write straight quotes", STRAIGHT)


def plain_blanks(known: Known) -> Optional[Fix]:
    """Writes blanks for spaces that a keyboard does not have, in the whole line."""
    return signs_of_line(known, "Write a blank", dict.fromkeys(ODD_SPACES, " "))


def signs_of_line(known: Known, title: str, put: dict[str, str]) -> Optional[Fix]:
    """Writes others for some signs that have no meaning, in the whole line, if the fault is at one of them."""
    if known.line[known.remark.start : known.remark.end] not in put:
        return None
    odd = (token for token in known.tokens_of_line() if token.kind == TokenKind.BAD_BYTE and token.text in put)
    return Fix(title, tuple(known.change(token.start, token.end, put[token.text]) for token in odd))


def closing_quotes(known: Known) -> Optional[Fix]:
    """Writes straight quotes from a straight one on that nothing closes, if one of a word processor does."""
    start = known.remark.start
    curly = [place for place in range(start, len(known.line)) if known.line[place] in STRAIGHT]
    if known.line[start : start + 1] != '"' or not any(STRAIGHT[known.line[place]] == '"' for place in curly):
        return None
    return Fix("Write straight quotes", tuple(known.change(place, place + 1, STRAIGHT[known.line[place]]) for place in curly))


def through_tune(known: Known, title: str, changes_of: Callable[[list[TokenText]], Iterator[LineChange]], is_preferred: bool) -> Optional[Fix]:
    """Makes the changes of all lines of a tune."""
    changes = tuple(change for line in known.lines() for change in changes_of(known.document.tokens(line)))
    return Fix(title, changes, is_preferred) if changes else None


def sharps(known: Known) -> Optional[Fix]:
    """Writes each sharp of a tune before its note."""
    return through_tune(known, "Write each sharp before its note", sharps_of, is_preferred=True)


def sharps_of(tokens: list[TokenText]) -> Iterator[LineChange]:
    """Yields the changes of a line: a sign before a note, or after one that has no sign, becomes a `^` before it."""
    for before, token, after in zip([None, *tokens], tokens, [*tokens[1:], None]):
        if token.text != "#" or token.kind not in (TokenKind.NO_EFFECT, TokenKind.BAD_BYTE):
            continue
        if before and before.end == token.start and before.kind == TokenKind.NOTE and before.text[0] in NOTE_LETTERS:
            yield LineChange(token.line, before.start, token.end, f"^{before.text}")
        elif after and after.kind == TokenKind.NOTE and after.text[0] in NOTE_LETTERS:
            yield LineChange(token.line, token.start, token.end, "^")


def flats(known: Known) -> Optional[Fix]:
    """Writes each flat of a tune before its note."""
    return through_tune(known, "Write each flat before its note", flats_of, is_preferred=False)


def flats_of(tokens: list[TokenText]) -> Iterator[LineChange]:
    """Yields the changes of a line: a `b` beside a capital letter becomes a `_` before it. Chords stay."""
    notes = [token for token in tokens if not token.is_part]
    for note, flat in zip(notes, notes[1:]):
        if note.end == flat.start and {note.kind, flat.kind} == {TokenKind.NOTE} and note.text in CAPITALS and flat.text[0] == "b":
            yield LineChange(note.line, note.start, flat.start + 1, f"_{note.text}")


def german_notes(known: Known) -> Optional[Fix]:
    """Writes B for each German note H of a tune."""
    return through_tune(known, "Write B for H", german_of, is_preferred=False)


def german_of(tokens: list[TokenText]) -> Iterator[LineChange]:
    """Yields the changes of a line."""
    for token in tokens:
        if token.kind == TokenKind.NO_EFFECT and token.text in GERMAN:
            yield LineChange(token.line, token.start, token.end, GERMAN[token.text])


def without_markup(known: Known) -> Optional[Fix]:
    """Deletes the markup in the music of a tune. A line with nothing else becomes a comment, since a blank line ends the tune."""
    changes = tuple(change for line in known.lines() for change in markup_of(known, line))
    return Fix("Delete the markup", changes) if changes else None


def markup_of(known: Known, line: int) -> Iterator[LineChange]:
    """Yields the changes of a line, if it is music."""
    tokens = known.document.tokens(line)
    if not tokens or tokens[0].kind in (TokenKind.NUMBER_FIELD, TokenKind.TITLE_FIELD, TokenKind.OTHER_FIELD, TokenKind.KEY_FIELD, TokenKind.DIRECTIVE, TokenKind.COMMENT):
        return
    text = known.text(line)
    places = [found.span() for found in MARKUP_TEXT.finditer(PASSED_TEXT.sub(lambda over: " " * len(over[0]), text))]
    if places and not MARKUP_TEXT.sub("", text).strip():
        yield LineChange(line, 0, len(text), "%")
    else:
        yield from (LineChange(line, start, end, "") for start, end in places)


FOREIGN_FIXES: dict[str, Callable[[Known], Optional[Fix]]] = {
    "LostSharp": sharps,
    "LostFlat": flats,
    "GermanNote": german_notes,
    "Markup": without_markup,
}
