"""Fixes of music: signs that lack their partner, signs without a meaning, ties and repeats."""

from collections.abc import Callable
from typing import Optional

from abc2midi_live import TokenKind

from ..token_texts import TokenText
from .fix import Fix, Known, LineChange
from .foreign import closing_quotes, plain_blanks, straight_quotes

CLOSING = {'"': '"', "!": "!", "{": "}", "[": "]"}
ENDS_OF_WORDS = frozenset(' \t\r|%"!{}[]')


def closing(known: Known) -> Optional[Fix]:
    """Closes what begins at a sign: after the word there, as in `"Em DEFD`, or at a quote of a word processor."""
    if fix := closing_quotes(known):
        return fix
    sign, start = CLOSING.get(known.line[known.remark.start : known.remark.start + 1]), known.remark.start + 1
    end = next((n for n in range(start, len(known.line)) if known.line[n] in ENDS_OF_WORDS), len(known.line))
    if not sign or end == start:
        return None
    return Fix(f"Close with {sign} after {known.line[start:end]}", (known.change(end, end, sign),))


def stray_sign(known: Known) -> Optional[Fix]:
    """Writes an old decoration, a quote or a space as ABC has it, or deletes a sign without a meaning."""
    return decoration(known) or straight_quotes(known) or plain_blanks(known) or deletion(known)


def decoration(known: Known) -> Optional[Fix]:
    """Writes `!trill!` for `+trill+`."""
    start = known.remark.start
    end = known.line.find("+", start + 1)
    word = known.line[start + 1 : end]
    if not known.line.startswith("+", start) or end < 0 or not word.isascii() or not word.isalpha():
        return None
    return Fix(f"Write !{word}!", (known.change(start, end + 1, f"!{word}!"),))


def deletion(known: Known) -> Optional[Fix]:
    """Deletes a sign. A `&` stays: what follows it is a melody of its own. So do the length after a sharp, and carriage returns."""
    sign = known.line[known.remark.start : known.remark.end]
    if not sign.strip() or sign == "&" or known.line[: known.remark.start].endswith("#"):
        return None
    shown = sign if sign.isprintable() else " ".join(f"U+{ord(each):04X}" for each in sign)
    return Fix(f"Delete {shown}", (known.change(known.remark.start, known.remark.end, ""),), is_preferred=False)


def tie(known: Known) -> Optional[Fix]:
    """Writes a tie directly after its note."""
    tokens = [token for token in known.tokens_of_line() if token.end <= known.remark.start]
    while tokens and tokens[-1].kind == TokenKind.BLANK:
        tokens.pop()
    if not tokens or tokens[-1].kind not in (TokenKind.NOTE, TokenKind.CHORD) or tokens[-1].end == known.remark.start:
        return None
    return Fix("Write - after its note", (known.change(tokens[-1].end, known.remark.start + 1, "-"),))


def rest_for_chord(known: Known) -> Optional[Fix]:
    """Writes a rest of the same length for a chord without notes."""
    token = known.token()
    end = token.text.find("]") if token else -1
    if not token or end < 0:
        return None
    return Fix("Write a rest", (known.change(token.start, token.start + end + 1, "z"),), is_preferred=False)


def closed_repeat(known: Known) -> Optional[Fix]:
    """Closes a repeat at the next double bar, or at the last bar line before what begins anew."""
    last = end = None
    for token in list(known.tokens_from_here())[1:]:
        if is_new_start(token):
            break
        if token.kind == TokenKind.BAR_LINE:
            last, end = token, token
            if len(token.text) > 1:
                break
        elif token.kind in (TokenKind.NOTE, TokenKind.CHORD, TokenKind.REST, TokenKind.BAR_REST):
            end = token
    if end is None:
        return None
    put = {"|:": "::"}.get(end.text, ":|") if end is last else ":|"
    start = end.start if end is last else end.end
    return Fix("Close the repeat with :|", (LineChange(end.line, start, end.end, put),), is_preferred=False)


def is_new_start(token: TokenText) -> bool:
    """Returns whether a token begins another voice or part, so that a repeat does not reach over it."""
    text = token.text[1:] if token.kind == TokenKind.INLINE_FIELD else token.text
    return token.kind in (TokenKind.INLINE_FIELD, TokenKind.OTHER_FIELD) and text.startswith(("V:", "P:"))


MUSIC_FIXES: dict[str, Callable[[Known], Optional[Fix]]] = {
    "Unclosed": closing,
    "BadByte": stray_sign,
    "LooseTie": tie,
    "EmptyChord": rest_for_chord,
    "OpenRepeat": closed_repeat,
}
