"""What is known at a place of a tune book: the note there, its faults and hints, and its tune."""

from fractions import Fraction
from typing import Any, NamedTuple, Optional

from abc2midi_live import Entry, EntryKind, TokenKind

from ..common.clock import clock
from ..common.json_object import Json
from ..common.midi_duration import seconds_of
from .diagnostics import remarks_in
from .document import Document, title_of
from .text_changes import position_of
from .token_texts import TokenText
from .workspace import Workspace

TICKS = 4 * 480  # of a whole note
NATURALS = {"C": 0, "D": 2, "E": 4, "F": 5, "G": 7, "A": 9, "B": 11}
SIGNS = {-2: "𝄫", -1: "♭", 0: "", 1: "♯", 2: "𝄪"}
SHARPS = ("C", "C♯", "D", "D♯", "E", "F", "F♯", "G", "G♯", "A", "A♯", "B")


class Note(NamedTuple):
    """A note or a rest: its name, and what else is known of it. Both are empty if none is there."""

    name: str
    sound: str


def hover(workspace: Workspace, params: Any) -> Optional[Json]:
    """What is known at a place, as Markdown if the editor shows that, with the range of the token there."""
    document = workspace.document(params)
    line, character = document.character(position_of(params["position"]))
    token = token_at(document, line, character)
    place = line, character
    found = [remark.text for remark in remarks_in(document, line, line) if remark.meets(place, place)]
    note = about_note(document, token) if token else Note("", "")
    parts = [*found, *about_tune(document, line, found)]
    if workspace.client.has_markdown:
        kind, first, parts = "markdown", f"**{note.name}**{note.sound}" if note.name else "", [escaped(part) for part in parts]
    else:
        kind, first = "plaintext", note.name + note.sound
    parts = [first, *parts] if first else parts
    where = {"range": document.range(line, token.start, line, token.end)} if token else {}
    return {"contents": {"kind": kind, "value": "\n\n".join(parts)}, **where} if parts else None


def token_at(document: Document, line: int, character: int) -> Optional[TokenText]:
    """Returns the token at a character: in a chord its part. A blank is none."""
    found = [token for token in document.tokens(line) if token.start <= character < token.end]
    return found[-1] if found and found[-1].kind != TokenKind.BLANK else None


def about_note(document: Document, token: TokenText) -> Note:
    """Returns the pitch, the key and the length of a note, or the length of a rest; nothing of other tokens."""
    tune = document.tune_at(token.line)
    column = document.column(token.line, token.start)
    played = (entry for track in document.play(tune) for entry in track) if tune else ()
    entry = next((each for each in played if (each.line, each.from_column) == (token.line + 1, column)), None)
    if entry is None or entry.kind not in (EntryKind.NOTE, EntryKind.REST):
        return Note("", "")
    length = f", length {Fraction(entry.off - entry.on, TICKS)}"
    if entry.kind == EntryKind.REST:
        return Note("rest", length)
    return Note(pitch_of(entry, token.text), f", {sound_of(entry)}{length}")


def sound_of(entry: Entry) -> str:
    """Returns the key and the velocity of a note."""
    return "silent" if entry.key is None else f"MIDI key {entry.key}, velocity {entry.velocity}"


def pitch_of(entry: Entry, text: str) -> str:
    """Returns the pitch of a note, as C4 for the middle C: by its letter, or with a sharp if a shift moved it far from that."""
    letter = text.lstrip("^_=")[:1].upper()
    if entry.key is None:
        return letter
    sign = (entry.key - NATURALS.get(letter, 0) + 6) % 12 - 6
    if letter in NATURALS and sign in SIGNS:
        return f"{letter}{SIGNS[sign]}{(entry.key - sign) // 12 - 1}"
    return f"{SHARPS[entry.key % 12]}{entry.key // 12 - 1}"


def about_tune(document: Document, line: int, found: list[str]) -> list[str]:
    """Returns the title and the length of the tune that has a line, or why it has no file."""
    tune = document.tune_at(line)
    if not tune:
        return []
    title = title_of(tune)
    if not document.has_file(tune):
        reason = document.why_no_file(tune)
        return [title if reason in found else f"{title}: {reason}"]
    data = document.book.midi(tune.number)
    return [f"{title}, {clock(seconds_of(data))}" if data else title]


def escaped(text: str) -> str:
    """Returns a text as Markdown, but for its quotes of code."""
    return "`".join(
        part if n % 2 else "".join(f"\\{sign}" if sign in "\\*_[]<>#&" else sign for sign in part)
        for n, part in enumerate(text.split("`"))
    )
