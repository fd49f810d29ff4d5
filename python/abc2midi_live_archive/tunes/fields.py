"""The fields of a tune as they are written, and what its music has that a reader of a collection looks for.

Lines, comments and values are those of the rules of the program. A value is decoded as the titles are: UTF-8, or Windows-1252 if it is
not UTF-8. Fields of one letter are joined by line feeds."""

from __future__ import annotations

import re
from collections.abc import Iterator, Sequence
from functools import lru_cache
from typing import NamedTuple, Optional

from abc2midi_live_clients.common.line_places import text_of

from ..cutting import end_of_header, is_blank
from .keys import NO_KEY, key_of
from .note_unit import UnitFields, unit_of

TEXTS = "CORSZBN"  # the letters of the fields from the composer to the annotations
BARS = (b"|", b":")
NOTES = frozenset(b"ABCDEFGabcdefgxz")  # with a bar line in column 2 they are music
LYRICS = frozenset(b"wW")
TITLE, KEY, METER, UNIT, TEMPO = b"TKMLQ"
BLANK, COMMENT_LINE = "blank", "comment"
READ = frozenset(TEXTS.encode()) | LYRICS
OF_HEADER = READ | {TITLE, KEY, METER, UNIT, TEMPO}  # the fields that are read there
LETTERS = frozenset(range(65, 91)) | frozenset(range(97, 123)) | {43}  # that begin a field: letters and +
LAST_LOW = 37  # the code of %: a line that begins with a greater one is no comment and not blank
COMMENT = re.compile(rb"(?<!\\)%.*")
DIRECTIVE = re.compile(rb"%%(?:MIDI[ \t]+program[ \t]+[0-9]{1,9}|propagate-accidentals[ \t]+(?:not|octave|pitch))[ \t]*(?:%.*)?\r?", re.DOTALL)
# In lines of music: a text, a decoration, an inline field, a chord, grace notes, an overlay.
SIGN = re.compile(rb'"([^"\n]*)"|![^!\n]*!|\[[A-Za-z]:[^\]\n]*\]|\[([^\[\]|\n]*)\]|(\{[^}\n]*\})|(&)')
BEGINNING = re.compile(rb'["!\[{&]')
ENDS = {b'"': b'"', b"!": b"!", b"[": b"]", b"{": b"}"}  # of what has one, by its first byte
CHORD_NAMES = frozenset(b"ABCDEFG")  # their first letters
# Without quotes, overlays, decorations, comments and inline fields any grace notes without brackets are grace notes.
GRACE, INLINE = re.compile(rb"\{[^{}\[\]\n]*\}"), re.compile(rb"\[[A-Za-z]:")
# Most tunes have a header of fields alone, without comments, and then lines of music up to the first blank line.
PLAIN_HEADER = re.compile(rb"(?:(?!K)[A-Za-z]:(?:[^|:%\r\n][^%\r\n]*)?\n)*K:[^%\r\n]*(?:\n|\Z)")
NO_MUSIC = re.compile(rb"\n(?:[A-Za-z+]:|[ \t]*(?:%|\r?(?:\n|\Z)))")  # begins a line that is a field, a comment or blank


class Fields(NamedTuple):
    """What the text of a tune says. A field that it does not have is None."""

    titles: Optional[str]
    last_line: int
    composer: Optional[str]
    origin: Optional[str]
    rhythm: Optional[str]
    source: Optional[str]
    transcriber: Optional[str]
    book_title: Optional[str]
    annotations: Optional[str]
    key_text: Optional[str]
    tonic: Optional[str]
    mode: Optional[str]
    tempo_text: Optional[str]
    unit: str
    has_lyrics: bool
    has_chord_names: bool
    has_grace_notes: bool
    has_overlays: bool


class Signs(NamedTuple):
    """Which of these music has."""

    chord_names: bool = False
    grace_notes: bool = False
    overlays: bool = False


class Block:
    """The values of a tune's fields by their letters, with line feeds between those of one letter, its lines of music, and how many
    lines it has."""

    def __init__(self, lines: Sequence[bytes]):
        """Reads a tune from its `X:` line to the first blank line."""
        self.values: dict[str, str] = {}
        self.music = b""
        self.size = len(lines)
        text = b"\n".join(lines)
        header = PLAIN_HEADER.match(text)
        if not (header and self.is_plain(text, header.end())):
            self.read_lines(lines)

    def is_plain(self, text: bytes, end: int) -> bool:
        """Reads a tune with a plain header, which ends at a place, and lines of music alone. Returns whether it is one."""
        found = NO_MUSIC.search(text, end - 1)
        stop = found.start() if found else len(text)
        if found and (text[stop + 2 : stop + 3] == b":" or b"%" in found.group()) or not text.isascii():
            return False
        values = self.values
        for line in text[:end].decode("ascii").removesuffix("\n").split("\n"):
            letter, value = line[0], line[2:].strip(" \t")
            values[letter] = f"{values[letter]}\n{value}" if letter in values else value
        self.music = text[end:stop]
        self.size = text.count(b"\n", 0, stop) + 1
        return True

    def read_lines(self, lines: Sequence[bytes]) -> None:
        """Reads any tune, line by line."""
        values: dict[int, list[str]] = {}
        music = []
        wanted = OF_HEADER
        for n, line in enumerate(lines):
            if line[1:2] == b":" and (line[2:3] not in BARS or is_field(line)) and line[0] in LETTERS:
                letter = line[0]
                if letter in wanted:
                    values.setdefault(letter, []).append(value_of(line))
                    if letter == KEY:  # the end of the header
                        wanted = READ
            elif line and line[0] > LAST_LOW or not (is_low := is_comment_or_blank(line)):
                music.append(line)
                wanted = READ
            elif is_low is BLANK:
                self.size = n
                break
        self.music = b"\n".join(music)
        self.values = {chr(letter): "\n".join(each) for letter, each in values.items()}


def is_field(line: bytes) -> bool:
    """Returns whether a line with a colon in column 2 is a field, and no music."""
    return line[0] in LETTERS and not (line[2:3] in (b"|", b":") and line[0] in NOTES)


def is_comment_or_blank(line: bytes) -> str:
    """Returns which of both a line is, or nothing."""
    return BLANK if is_blank(line) else COMMENT_LINE if line.lstrip(b" \t")[:1] == b"%" else ""


def value_of(line: bytes) -> str:
    """Returns the value of a field: without its comment, and without blanks at its ends."""
    value = line[2:].removesuffix(b"\r")
    if b"%" in value:
        value = COMMENT.sub(b"", value)
    return text_of(value.strip(b" \t"))


def fields_of(lines: Sequence[bytes], line: int, file_header: UnitFields) -> Fields:
    """Returns the fields of a tune by its lines, from its `X:` line, which is this line of its book, to the next one."""
    block = Block(lines)
    value = block.values.get
    key_text = value("K")
    key = key_of(key_text) if key_text else NO_KEY
    unit = opening_unit(value("M"), value("L"), file_header)
    has_lyrics = "w" in block.values or "W" in block.values
    last, texts = line + block.size - 1, map(value, TEXTS)
    return Fields._make((value("T"), last, *texts, key_text, *key, value("Q"), unit, has_lyrics, *signs_of(block.music)))


@lru_cache(1024)
def opening_unit(meters: Optional[str], units: Optional[str], file_header: UnitFields) -> str:
    """Returns the unit note length with which a tune opens, by the values of its fields."""
    fields = (tuple(values.split("\n")) if values is not None else () for values in (meters, units))
    return unit_of(UnitFields(*fields), file_header)


def file_header_of(opening: Sequence[bytes]) -> UnitFields:
    """Returns what the lines before the first tune say of the unit note length, if they are a file header."""
    lines = [line for line in opening[: end_of_header(opening)] if not is_blank(line)]
    first = next((n for n, line in enumerate(lines) if line.lstrip(b" \t")[:1] != b"%" or DIRECTIVE.fullmatch(line)), len(lines))
    fields = [line for line in lines[first:] if line[1:2] == b":" and is_field(line)]
    if first == len(lines) or not (lines[first] in fields or DIRECTIVE.fullmatch(lines[first])):
        return UnitFields()
    return UnitFields(*(tuple(value_of(line) for line in fields if line[0] == letter) for letter in (METER, UNIT)))


def signs_of(music: bytes) -> Signs:
    """Returns which signs lines of music have."""
    if not has_signs(music):
        return NO_SIGNS
    is_deciding = b'"' in music or b"&" in music or b"!" in music or b"%" in music
    if not is_deciding and GRACE.search(music) and not INLINE.search(music):
        return GRACE_NOTES_ALONE
    found = [False, False, False]
    look_for_signs(COMMENT.sub(b"", music) if b"%" in music else music, found)
    return Signs(*found)


def has_signs(music: bytes) -> bool:
    """Returns whether a piece of music has a byte of one of the signs."""
    return b"{" in music or b'"' in music or b"&" in music


def look_for_signs(music: bytes, found: list[bool]) -> None:
    """Notes which signs a piece of music has, also in its chords."""
    for text, chord, grace, overlay in signs_in(music):
        if grace:
            found[1] = True
        elif text:
            found[0] = found[0] or text[0] in CHORD_NAMES
        elif overlay:
            found[2] = True
        elif has_signs(chord):
            look_for_signs(chord, found)


def signs_in(music: bytes) -> Iterator[tuple[bytes, ...]]:
    """Yields the groups of each sign. In a line without a further end no other beginning of that kind is tried, so the time is linear."""
    at, without_end = 0, {first: 0 for first in ENDS}
    while beginning := BEGINNING.search(music, at):
        at, first = beginning.start(), beginning.group()
        sign = SIGN.match(music, at) if at >= without_end.get(first, 0) else None
        if sign:
            yield sign.groups(b"")
            at = sign.end()
        else:
            end = music.find(b"\n", at) % (len(music) + 1)
            if music.find(ENDS[first], at + 1, end) < 0:
                without_end[first] = end
            at += 1


NO_SIGNS, GRACE_NOTES_ALONE = Signs(), Signs(grace_notes=True)
