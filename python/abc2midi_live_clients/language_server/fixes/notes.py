"""Fixes of notes: lengths, octaves, chords, tuplets, endings, ties, and music before a voice."""

from collections.abc import Callable
from fractions import Fraction
from typing import Optional

from abc2midi_live import TokenKind

from ..token_texts import TokenText
from ..voice_and_part_names import VOICE
from .fix import Fix, Known, LineChange

LENGTH = "0123456789/"
TIMED = (TokenKind.NOTE, TokenKind.CHORD, TokenKind.REST)
BETWEEN_BROKEN = (TokenKind.INLINE_FIELD, TokenKind.BAR_REST, TokenKind.BROKEN_RHYTHM)
ACCIDENTALS, OCTAVES = "^_=", "',"
MOST_OCTAVES = {"'": (4, 3), ",": (4, 5)}  # after a capital and a small letter, that are in the range of MIDI without a shift
TUPLETS = range(2, 10)  # notes of a tuplet that is written as `(3`
LAST_PASS = 32
UNITS_OF_A_BAR = 8  # of 4/4, by the usual unit


def chord_here(known: Known) -> Optional[TokenText]:
    """Returns the chord that has the fault."""
    chords = (token for token in known.tokens_of_line() if token.kind == TokenKind.CHORD)
    return next((chord for chord in chords if chord.start <= known.remark.start < chord.end), None)


def replaced(known: Known, token: TokenText, text: str) -> Optional[Fix]:
    """Writes a token in another way, which is a choice."""
    change = known.change(token.start, token.end, text)
    return Fix(f"Write {text}", (change,), is_preferred=False) if text and text != token.text else None


def unit_length(known: Known) -> Optional[Fix]:
    """Writes the length of one unit, which the note has: of the note, or of its chord."""
    token, chord = known.token(), chord_here(known)
    own = replaced(known, token, token.text.rstrip(LENGTH)) if token and token != chord else None
    return own or (replaced(known, chord, chord.text.rstrip(LENGTH)) if chord else None)


def nearer_octave(known: Known) -> Optional[Fix]:
    """Writes a note with no more octaves than are in the range of MIDI."""
    token = known.token()
    letter = token.text.lstrip(ACCIDENTALS)[:1] if token else ""
    if not token or not letter:
        return None
    head, _, rest = token.text.partition(letter)
    length = rest.lstrip(OCTAVES)
    octaves = rest.count("'") - rest.count(",")
    sign = "'" if octaves > 0 else ","
    most = MOST_OCTAVES[sign][letter.islower()]
    return replaced(known, token, head + letter + sign * most + length) if abs(octaves) > most else None


def sixteen_notes(known: Known) -> Optional[Fix]:
    """Deletes the notes of a chord that are left out."""
    parts = [token for token in known.document.tokens(known.number) if token.is_part]
    chord = chord_here(known)
    last = max((part.end for part in parts if chord and part.end < chord.end), default=0)
    change = known.change(known.remark.start, last, "")
    return Fix("Delete the notes after the sixteenth", (change,), is_preferred=False) if last > known.remark.start else None


def timed_rest(known: Known) -> Optional[Fix]:
    """Writes a rest of a length for one of whole bars."""
    token = known.token()
    bars = int(token.text[1:] or 1) if token else 0
    return replaced(known, token, f"z{UNITS_OF_A_BAR * bars}") if token and bars else None


def numbered_ending(known: Known) -> Optional[Fix]:
    """Writes the numbers of an ending that are passes, and ranges so that they rise."""
    token = known.token()
    if not token:
        return None
    numbers = (sorted(map(int, part.split("-"))) for part in token.text.lstrip("[").split(","))
    ranges = ("-".join(map(str, dict.fromkeys(ends))) for ends in numbers if 1 <= ends[0] and ends[-1] <= LAST_PASS)
    passes = ",".join(ranges)
    return replaced(known, token, ("[" if token.text.startswith("[") else "") + passes) if passes else None


# ---- tuplets and broken rhythm


def tuplet_of_notes(known: Known) -> Optional[Fix]:
    """Writes the mark of a tuplet for the notes up to a blank or a bar line."""
    token, count = known.token(), 0
    for each in known.tokens_of_line():
        if token and each.start >= token.end:
            if each.kind not in TIMED:
                break
            count += 1
    return replaced(known, token, f"({count}") if token and count in TUPLETS else None


def counted_tuplet(known: Known) -> Optional[Fix]:
    """Writes into the mark of the tuplet before how many notes it has."""
    before = [token for token in known.tokens_of_line() if token.end <= known.remark.start]
    mark = next((token for token in reversed(before) if token.kind == TokenKind.TUPLET), None)
    count = sum(token.kind in TIMED for token in before if mark and token.start >= mark.end)
    notes, time = (*mark.text[1:].split(":"), "")[:2] if mark else ("", "")
    return replaced(known, mark, f"({notes}:{time}:{count}") if mark and count else None


def rests_of_tuplet(known: Known) -> Optional[Fix]:
    """Writes a rest for each note that a tuplet lacks before the bar line."""
    mark, count = known.token(), 0
    last: Optional[TokenText] = None
    for token in known.tokens_from_here():
        if token.kind == TokenKind.BAR_LINE:
            break
        if token.kind in TIMED:
            count, last = count + 1, token
    numbers = (*mark.text[1:].split(":"), "", "") if mark else ("", "", "")
    missing = int(numbers[2] or numbers[0] or 0) - count
    if last is None or missing <= 0:
        return None
    rests = "z" * missing
    return Fix(f"Write {rests} at its end", (LineChange(last.line, last.end, last.end, rests),), is_preferred=False)


def broken_lengths(known: Known) -> Optional[Fix]:
    """Writes the lengths of the notes on both sides of a mark of broken rhythm."""
    mark = known.token()
    near = [token for token in known.tokens_of_line() if token.kind in (*TIMED, *BETWEEN_BROKEN)]
    at = near.index(mark) if mark in near else 0
    around = [*near[at - 1 : at], *near[at + 1 : at + 2]] if at else []
    if not mark or [token.kind in TIMED for token in around] != [True, True]:
        return None
    shorter = Fraction(1, 2 ** len(mark.text))
    factors = (2 - shorter, shorter) if mark.text.startswith(">") else (shorter, 2 - shorter)
    before, after = (known.change(token.start, token.end, lengthened(token.text, factor)) for token, factor in zip(around, factors))
    return Fix("Write the lengths out", (before, known.change(mark.start, mark.end, ""), after), is_preferred=False)


def lengthened(text: str, factor: Fraction) -> str:
    """Returns a note with its length times a factor."""
    head = text.rstrip(LENGTH)
    over, slash, under = text[len(head) :].partition("/")
    length = Fraction(int(over or 1), 2 ** (1 + under.count("/")) if slash and not under.strip("/") else int(under or 1)) * factor
    number = str(length.numerator) if length.numerator != 1 or length == 1 else ""
    return head + ("" if length == 1 else number if length.denominator == 1 else f"{number}/{length.denominator}")


# ---- ties and voices


def no_tie(known: Known) -> Optional[Fix]:
    """Deletes a tie to a rest, or writes a slur for one to another note of the line."""
    place = known.remark.start
    if known.line[place : place + 1] != "-":
        return None
    deleted = known.change(place, place + 1, "")
    if "delete it" in known.remark.text:
        return Fix("Delete the tie", (deleted,))
    timed = [token for token in known.tokens_of_line() if token.kind in TIMED]
    before, after = [token for token in timed if token.end == place], [token for token in timed if token.start > place]
    if not before or not after:
        return None
    begin, end = known.change(before[0].start, before[0].start, "("), known.change(after[0].end, after[0].end, ")")
    return Fix("Write a slur", (begin, deleted, end), is_preferred=False)


def voice_of_music(known: Known) -> Optional[Fix]:
    """Begins the first voice of the tune before music that is in none."""
    place, names = known.remark.start, known.names(VOICE)
    if not names:
        return None
    name = names[0].text
    change = known.change(place, place, f"[V:{name}]") if place else known.insertion(known.number, f"V:{name}")
    return Fix(f"Write V:{name}", (change,), is_preferred=False)


NOTE_FIXES: dict[str, Callable[[Known], Optional[Fix]]] = {
    "BadLength": unit_length,
    "KeyRange": nearer_octave,
    "BigChord": sixteen_notes,
    "FreeBarRest": timed_rest,
    "BadEnding": numbered_ending,
    "BadTuplet": tuplet_of_notes,
    "NestedTuplet": counted_tuplet,
    "ShortTuplet": rests_of_tuplet,
    "BadBroken": broken_lengths,
    "TieToOtherKey": no_tie,
    "MusicBeforeVoice": voice_of_music,
}
