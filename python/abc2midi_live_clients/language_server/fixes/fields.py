"""Fixes of the values of fields: orders of parts, voices, tempos."""

from collections.abc import Callable, Container
from typing import Optional

from abc2midi_live import TokenKind

from ..voice_and_part_names import BLANKS, PART, PARTS, VOICE
from .fix import Fix, Known, LineChange

NUMBERS = ("octave", "transpose")  # properties with a number
USUAL_TEMPO = "1/4=120"
MOST_DIGITS = 9


def field(known: Known) -> tuple[int, str]:
    """Returns the field at a fault, without brackets, and its first character."""
    token = known.token()
    if token and token.kind == TokenKind.INLINE_FIELD:
        return token.start + 1, token.text[1:-1]
    return (token.start, token.text) if token else (0, "")


def known_order(known: Known) -> Optional[Fix]:
    """Writes an order of parts without the signs that it may not have."""
    value = field(known)[1][2:].strip(BLANKS)
    order = order_of(value.upper(), PARTS)
    return known.written(f"P:{order}", is_preferred=False) if order and order != value else None


def order_without_unknown(known: Known) -> Optional[Fix]:
    """Writes the order of parts of a tune without the letters that no part has."""
    names = known.names(PART)
    orders = [name.token for name in names if name.is_in_header]
    order = order_of(orders[-1].text[2:], {name.text for name in names if not name.is_in_header}) if orders else ""
    if not order:
        return None
    line, start, text = orders[-1].line, orders[-1].start, orders[-1].text.rstrip(BLANKS)
    change = LineChange(line, start, start + len(text), f"P:{order}")
    return Fix(f"Write P:{order}", (change,), is_preferred=False)


def order_of(value: str, parts: Container[str]) -> str:
    """Returns the letters of some parts in an order, with their groups and numbers."""
    found, depth, has_item = "", 0, False  # an item, which a number may follow
    for sign in value:
        if sign in PARTS:
            has_item = sign in parts
            found += sign if has_item else ""
        elif sign == "(":
            found, depth, has_item = found + sign, depth + 1, False
        elif sign == ")" and depth:
            depth, has_item = depth - 1, not found.endswith("(")
            found = found + sign if has_item else found[:-1]
        elif has_item and sign.isdecimal() and (sign != "0" or found[-1].isdecimal()):
            found += sign
    ended = found.rstrip("(")
    return ended + ")" * (depth - len(found) + len(ended))


def voice(known: Known) -> Optional[Fix]:
    """Writes a number for a voice without a name, or 0 for a property without a number."""
    start, text = field(known)
    if not text[2:].strip(BLANKS):
        taken = {name.text for name in known.names(VOICE)}
        number = next(number for number in range(1, len(taken) + 2) if str(number) not in taken)
        return Fix(f"Write V:{number}", (known.change(start + 2, start + len(text), str(number)),), is_preferred=False)
    words = [word for word in text[2:].split() if word.partition("=")[0] in NUMBERS and not has_number(word)]
    places = [(start + text.index(word), word) for word in dict.fromkeys(words)]
    changes = tuple(known.change(at, at + len(word), f"{word.partition('=')[0]}=0") for at, word in places)
    return Fix("Write 0 for what is no number", changes, is_preferred=False) if changes else None


def has_number(word: str) -> bool:
    """Returns whether a property has a number, in quotes or without."""
    value = word.partition("=")[2].strip('"')
    digits = value[1:] if value[:1] in ("+", "-") else value
    return digits.isdecimal() and len(digits) <= MOST_DIGITS


def tempo(known: Known) -> Optional[Fix]:
    """Writes a usual tempo, after its words in quotes. One in a header has its fault at the tune."""
    start, text = field(known)
    line = known.number
    if not text.startswith("Q:"):
        line, start, text = tempo_of_header(known)
    if not text:
        return None
    words = text[2:].split('"')
    put = f'Q:"{words[1]}" {USUAL_TEMPO}' if len(words) > 2 else f"Q:{USUAL_TEMPO}"
    return Fix(f"Write {put}", (LineChange(line, start, start + len(text.rstrip(BLANKS)), put),), is_preferred=False)


def tempo_of_header(known: Known) -> tuple[int, int, str]:
    """Returns the last tempo of the header, which counts: its line, its first character and its text, empty if there is none."""
    found = (known.number, 0, "")
    for token in known.tokens_from_here():
        if token.kind == TokenKind.KEY_FIELD:
            break
        if token.kind == TokenKind.OTHER_FIELD and token.text.startswith("Q:"):
            found = token.line, token.start, token.text
    return found


FIELD_FIXES: dict[str, Callable[[Known], Optional[Fix]]] = {
    "BadOrder": known_order,
    "UnknownPart": order_without_unknown,
    "BadVoice": voice,
    "TempoRange": tempo,
}
