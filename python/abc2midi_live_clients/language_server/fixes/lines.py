"""Fixes of whole lines: numbers, keys, fields, directives, and lines outside tunes."""

from collections.abc import Callable
from itertools import takewhile
from typing import Optional

from abc2midi_live import TokenKind

from ..voice_and_part_names import BLANKS
from .fix import Fix, Known, LineChange

LETTERS = frozenset("abcdefghijklmnopqrstuvwxyz")
BLOCK_KINDS = (TokenKind.BLANK, TokenKind.COMMENT)
FIELDS = (TokenKind.TITLE_FIELD, TokenKind.OTHER_FIELD, TokenKind.KEY_FIELD, TokenKind.DIRECTIVE, TokenKind.COMMENT)


def renumbering(known: Known) -> Optional[Fix]:
    """Gives a tune the next number that is free."""
    numbers = {tune.line - 1: tune.number for tune in known.document.book.tunes()}
    number = known.free_number(numbers.get(known.number, 0))
    if not known.line.startswith("X:") or number is None:
        return None
    value = known.code[2:].lstrip(BLANKS)
    start = len(known.code) - len(value)
    return Fix(f"Give this tune the number {number}", (known.change(start, start + len(value.rstrip(BLANKS)), str(number)),))


def key_line(known: Known) -> Fix:
    """Writes a key after the other fields of the header."""
    at, end = known.number + 1, known.lines().stop
    while at < end and known.document.tokens(at) and known.document.tokens(at)[0].kind in FIELDS:
        at += 1
    return Fix("Write K:C", (known.insertion(at, "K:C"),))


def bagpipe_key(known: Known) -> Optional[Fix]:
    """Writes the key with the sharps of the bagpipe."""
    at = known.line.find("K:", known.remark.start)
    start = at + 2 + len(known.line[at + 2 :]) - len(known.line[at + 2 :].lstrip(BLANKS))
    if at < 0 or known.line[start : start + 2] not in ("HP", "Hp"):
        return None
    return Fix("Write K:D", (known.change(start, start + 2, "D"),))


def without_blanks(known: Known) -> Optional[Fix]:
    """Writes a field without the blanks in its value."""
    letter, value = known.code[:2], known.code[2:].strip(BLANKS)
    bare = value.replace(" ", "").replace("\t", "")
    return known.written(letter + bare) if known.remark.start == 0 and bare != value else None


def quoted_tempo(known: Known) -> Optional[Fix]:
    """Puts the words of a tempo in quotes."""
    value = known.code[2:].strip(BLANKS)
    is_words = value and set(value.lower()) <= LETTERS | set(BLANKS)
    return known.written(f'Q:"{value}"') if known.code.startswith("Q:") and is_words else None


def capital_part(known: Known) -> Optional[Fix]:
    """Writes the name of a part as a capital letter."""
    value = known.code[2:].strip(BLANKS)
    is_letter = len(value) == 1 and value in LETTERS
    return known.written(f"P:{value.upper()}") if known.code.startswith("P:") and is_letter else None


def last_program(known: Known) -> Optional[Fix]:
    """Writes the last program for one that lists from 1 call 128."""
    return known.written("%%MIDI program 127") if known.code.split() == ["%%MIDI", "program", "128"] else None


def program_line(known: Known) -> Optional[Fix]:
    """Writes the directive that the hint names, if the line has no more."""
    named = known.remark.text.split("`")[1:2]
    is_alone = known.line.lstrip(BLANKS).startswith(("%%", "I:"))
    is_whole = bool(named) and named[0].split()[-1].isdigit()
    return Fix(f"Write {named[0]}", (known.change(0, len(known.line), named[0]),)) if is_whole and is_alone else None


def free_music(known: Known) -> Optional[Fix]:
    """Joins music to the tune before it, or begins a tune."""
    return joining(known) if "write a `%`" in known.remark.text else heading(known)


def joining(known: Known) -> Optional[Fix]:
    """Writes a `%` on the blank lines before music, so that they do not end its tune."""
    stop = known.number
    while stop > 0 and known.text(stop - 1).strip(BLANKS):
        stop -= 1
    start = stop
    while start > 0 and not known.text(start - 1).strip(BLANKS):
        start -= 1
    changes = tuple(LineChange(line, 0, len(known.text(line)), "%") for line in range(start, stop))
    return Fix("Write % on the blank line", changes) if changes else None


def heading(known: Known) -> Optional[Fix]:
    """Begins a tune with music, or with the fields above it."""
    at = known.number
    while at > 0 and known.text(at - 1)[1:2] == ":" or at > 0 and known.text(at - 1).startswith("%"):
        at -= 1
    number = known.free_number(max((tune.number for tune in known.document.book.tunes()), default=0))
    return Fix(f"Write X:{number}", (known.insertion(at, f"X:{number}"),)) if number else None


def first_number(known: Known) -> Optional[Fix]:
    """Begins the first tune of a text, with its first music or the fields above that."""
    fix = heading(known) if "`X:1`" in known.remark.text else None
    return fix._replace(is_preferred=False) if fix else None


def text_block(known: Known) -> Fix:
    """Writes a `%` before each line of a text that is read as music."""
    block = takewhile(lambda line: not known.text(line).startswith("%%end"), known.lines())
    return Fix("Write % before each line", tuple(LineChange(line, 0, 0, "%") for line in block if is_read(known, line)))


def is_read(known: Known, line: int) -> bool:
    """Returns whether a line is more than blanks and comments."""
    return any(token.kind not in BLOCK_KINDS for token in known.document.tokens(line))


def line_ends(known: Known) -> Fix:
    """Writes a line feed for each carriage return inside a line."""
    places = (place for place, sign in enumerate(known.line) if sign == "\r")
    return Fix("End the lines with line feeds", tuple(known.change(place, place + 1, "\n") for place in places))


LINE_FIXES: dict[str, Callable[[Known], Optional[Fix]]] = {
    "SameNumber": renumbering,
    "BadReference": renumbering,
    "MissingKey": key_line,
    "BadKey": bagpipe_key,
    "BagpipeKey": bagpipe_key,
    "BadMeter": without_blanks,
    "BadUnit": without_blanks,
    "BadTempo": quoted_tempo,
    "BadPart": capital_part,
    "BadProgram": last_program,
    "LostProgram": program_line,
    "FreeMusic": free_music,
    "NoTune": first_number,
    "TextBlock": text_block,
    "LoneReturns": line_ends,
}
