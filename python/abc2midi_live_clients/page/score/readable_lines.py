"""What `abcm2ps` may read of a tune: lines of which it can make staves and words, and nothing else.

Every line is allowed by its form; what is not is taken out. `abcm2ps` counts columns after it has replaced escapes. It runs as
PostScript what comes after an escaped line end, and the quoted name of a clef. So no backslash is left but the last of a line, and
no value of a form that is not listed here."""

import re
import unicodedata
from collections.abc import Sequence
from typing import NamedTuple

from ...common.line_places import utf8

COMMENT = "%"  # replaces a line that is taken out
TEXT_FIELDS, MUSIC_FIELDS, FILE_FIELDS = frozenset("CTOWw"), frozenset("KLMPQUVXs"), frozenset("CLMOQU")
INLINE_FIELDS = frozenset("KLMPQV")

FIELD = re.compile(r"(?![A-Ga-gxz]:[|:])([A-Za-z+]):")
ALMOST_A_DIRECTIVE = re.compile(r"\s*(?:%|[Ii]\s*:|$)")
IS_COMMENT = re.compile(r"(?!%%)\s*%")
HEADER_LINE = re.compile(r"%%|[A-Za-z+]:")
INLINE = re.compile(r"\[(\s*)([A-Za-z])(\s*):([^\]]*)")
QUOTED = re.compile(r'"([^"]*)("?)')
LAST_BACKSLASH = re.compile(r"\\[ \t]*(?:%.*)?\Z", re.DOTALL)
CONTROL = re.compile(r"[\x00-\x08\x0a-\x1f\x7f-\x9f\u2028\u2029\ufeff]")
HALF = re.compile("[\ud800-\udfff]")
ODD_BYTE = re.compile("[\udca0-\udcff]")  # as a window sends it

STAVES = r"%%\s*(?:score|staves)\s[\w\s()\[\]{}|*+-]*"
SWITCHES = "continueall|flatbeams|graceslurs|squarebreve|straightflags|timewarn|keywarn|linewarn|dblrepbar|measurebox|contbarnb"
DIRECTIVE = re.compile(rf"{STAVES}|%%\s*(?:{SWITCHES})\s+[01]\s*|%%\s*(?:measurenb|barsperstaff)\s+[0-9]{{1,2}}\s*")

WORD = re.compile(r'[^\s"]*"[^"]*"?|\S+')  # of a key or a voice
PLAIN_WORD = re.compile(r"[_^=]?[\w#^+\-,'/.*|]{1,40}")
CLEF = re.compile(r"clef=(?:treble|alto|tenor|bass|perc|none|auto|[GCFP])[1-5]?(?:[+_^-](?:8|15))?")
PROPERTIES = "octave|transpose|middle|m|shift|score|sound|stem|stems|stafflines|staffscale|merge|cue|dyn|lyrics|gchord|gstem"
PROPERTY = re.compile(rf"(?:{PROPERTIES})=[\w#=^+\-,'/.|]{{1,24}}")
VOICE_NAME = re.compile(r'(?:name|nm|subname|sname|snm)=(?:"[^"]*"|[\w.-]{1,40})')
WORDS = (PLAIN_WORD, CLEF, PROPERTY, VOICE_NAME)
VALUES = {
    "L": re.compile(r"[\d/\s]*"),
    "M": re.compile(r"\s*(?:none\s*|[Cco][|.]?\s*|[\d+/().][\d+/().\s]*)?"),
    "P": re.compile(r"[\w().\s]*"),
    "Q": re.compile(r'(?:"[^"]*"|[\w/=.\s])*'),
    "U": re.compile(r'\s*[H-Zh-w~]\s*=\s*[!+][\w<>().^+/-]{1,30}[!+]\s*'),
}

MARKS = dict(zip("`'^~\"cvuH=/o,;.", "\u0300\u0301\u0302\u0303\u0308\u0327\u030c\u0306\u030b\u0304\u0338\u030a\u0327\u0328\u0307"))
LIGATURES = {"aa": "å", "AA": "Å", "ae": "æ", "AE": "Æ", "oe": "œ", "OE": "Œ", "ss": "ß", "/o": "ø", "/O": "Ø"}
LIGATURES |= {"dh": "ð", "th": "þ"}
ESCAPE = re.compile(
    r"\\(?:u([0-9A-Fa-f]{4})|([0-3][0-7]{2})|(aa|AA|ae|AE|oe|OE|ss|/[oO]|dh|th)|([`'^~\"cvuH=/o,;.])([A-Za-z])|([-%&\\$]))"
    r"|\$[0-4]"
)
LITERAL = {"-": "\u2010", "%": "\uff05", "&": "&", "\\": " ", "$": "$"}  # others that look so, if a byte means something else


class TuneLine(NamedTuple):
    """A line that may be read, and the line of the tune, in which columns count: both have the same columns in bytes."""

    readable: str
    text: str


def header_lines(lines: Sequence[str]) -> list[str]:
    """The lines of a file header that may be read: none if the first line but comments is no field and no directive."""
    printed_lines = [line for line in map(printed, lines) if not IS_COMMENT.match(line)]
    if not printed_lines or not HEADER_LINE.match(printed_lines[0]):
        return []
    found = [(line, FIELD.match(line)) for line in printed_lines]
    kept = [field_line(line, field[1], FILE_FIELDS) if field else directive(line) for line, field in found]
    return [line for line in kept if line != COMMENT]


def tune_lines(lines: Sequence[str]) -> list[TuneLine]:
    """As many lines as a tune has. One that may not be read is a comment."""
    found, continued = [], ""  # the letter of the field that `+:` would continue
    for text in map(printed, lines):
        field = FIELD.match(text)
        letter = field[1] if field else ""
        if letter == "+":
            line = text_line(text) if continued in TEXT_FIELDS else COMMENT
        elif letter:
            line = field_line(text, letter, TEXT_FIELDS | MUSIC_FIELDS)
        else:
            line = directive(text) if ALMOST_A_DIRECTIVE.match(text) else music_line(text)
        continued = continued if letter == "+" else letter
        found.append(TuneLine(line, text))
    return found


def printed(line: str) -> str:
    """A line without controls, which may end lines. Bytes that are no text are letters of Latin-1."""
    return HALF.sub("?", CONTROL.sub(" ", ODD_BYTE.sub(lambda odd: chr(ord(odd[0]) - 0xDC00), line)))


def directive(line: str) -> str:
    """A directive on the arrangement of staves, or a comment."""
    return line if DIRECTIVE.fullmatch(line) else COMMENT


def field_line(line: str, letter: str, fields: frozenset[str]) -> str:
    """A field of one of these letters, or a comment."""
    if letter not in fields:
        return COMMENT
    if letter in TEXT_FIELDS:
        return text_line(line)
    if letter == "X":
        return "X:1"  # the number is not drawn
    if letter == "s":
        return f"{line[:2]}{music_line(line[2:])}"
    value = line[2:].partition("%")[0].replace("\\", " ")
    if letter in "KV":
        return f"{line[:2]}{words(value)}"
    return f"{line[:2]}{value}" if VALUES[letter].fullmatch(value) else COMMENT


def words(value: str) -> str:
    """The words of a key or a voice that may be read, with blanks instead of the others."""
    return WORD.sub(lambda word: word[0] if any(form.fullmatch(word[0]) for form in WORDS) else blanks(word[0]), value)


def blanks(text: str) -> str:
    """As many blanks as a text has bytes."""
    return " " * len(utf8(text))


def text_line(line: str) -> str:
    """A field of words, with the characters that its escapes mean."""
    return line[:2] + ESCAPE.sub(meant, line[2:]).replace("\\", " ")


def meant(escape: "re.Match[str]") -> str:
    """The character that an escape means, a blank if that is a control, nothing for a change of the font."""
    code, octal, ligature, mark, letter, literal = escape.groups()
    if code or octal:
        return printed(HALF.sub(" ", chr(int(code, 16) if code else int(octal, 8))).replace("\t", " "))
    if ligature:
        return LIGATURES[ligature]
    if mark:
        return unicodedata.normalize("NFC", letter + MARKS[mark])[:1]
    return LITERAL[literal] if literal else ""


def music_line(line: str) -> str:
    """A line of music. Fields in it that may not be read are remarks; the texts in quotes have the characters that their escapes
    mean, and blanks up to their old length."""
    last = LAST_BACKSLASH.search(line)
    body = line[: last.start()] if last else line
    body = INLINE.sub(inline_field, QUOTED.sub(annotation, body)).replace("\\", " ")
    return f"{body}\\" if last else body


def annotation(quoted: "re.Match[str]") -> str:
    """A text in quotes without escapes, as many bytes long as before."""
    text = ESCAPE.sub(meant, quoted[1]).replace("\\", " ").replace('"', " ")
    return f'"{text}{" " * (len(utf8(quoted[1])) - len(utf8(text)))}{quoted[2]}'


def inline_field(field: "re.Match[str]") -> str:
    """A field in music, or a remark instead."""
    before, letter, after, value = field.groups()
    value = value.replace("\\", " ")
    if letter in ("K", "V"):
        return f"[{before}{letter}{after}:{words(value)}"
    if letter in INLINE_FIELDS and VALUES[letter].fullmatch(value):
        return f"[{before}{letter}{after}:{value}"
    return f"[{before}r{after}:{blanks(value)}"
