"""What of a tune does not sound as it is written: signs without a sound, faults, and notes that no pass plays.

It needs the tokens and the plays of the C library."""

from __future__ import annotations

from bisect import bisect_left
from collections.abc import Mapping, Sequence
from typing import Optional, cast

from abc2midi_live import Fault, PlayTooLong, Session, TokenKind
from abc2midi_live.library import LibrarySession
from abc2midi_live.records import PlayColumns
from abc2midi_live_clients.common.line_places import is_inside_character

from ..cutting import Part
from ..units import WRITTEN, Effect, Loss

MOST_LINES = 100  # of a kind of loss that are listed
NO_FILE = "no file"  # the kind of a whole tune
UNPLAYED, OVERLAYS = "notes never played", "overlays"
CHORD_NAMES, GRACE_NOTES, DECORATIONS, JUMPS, LYRICS = "chord names", "grace notes", "decorations", "jumps", "lyrics"
MACROS, DIRECTIVES, TEXT_BLOCKS = "macros and symbols", "MIDI directives", "text blocks"
SILENT: Mapping[str, frozenset[str]] = {  # the kinds of signs that make no sound, by the reading
    WRITTEN: frozenset((CHORD_NAMES, GRACE_NOTES, DECORATIONS, LYRICS, MACROS, DIRECTIVES, UNPLAYED, NO_FILE))
}
OTHER: Mapping[str, frozenset[str]] = {WRITTEN: frozenset((JUMPS, OVERLAYS, TEXT_BLOCKS))}  # that sound other than they are written
SILENT_FAULTS = frozenset(("BadByte", "BadLine", "BigChord", "EmptyChord", "KeyRange", "TooLarge", "TuneTooLong", "UnknownPart"))
NO_LOSSES = frozenset(("BadReference",))  # faults after which everything sounds
CHORD_LETTERS = frozenset(b"ABCDEFG")
SYMBOLS = frozenset(b".~HIJKLMNOPQRSTUVWhijklmnopqrstuvw")  # of one byte that stand for decorations
JUMP_WORDS = frozenset((b"D.C.", b"D.S.", b"dacapo", b"dacoda", b"segno", b"coda", b"fine", b"D.C.alcoda", b"D.C.alfine", b"D.S.alcoda", b"D.S.alfine"))
FIELDS = {b"w": LYRICS, b"W": LYRICS, b"s": DECORATIONS, b"m": MACROS, b"U": MACROS}
COMMENTS = {b"%%MIDI": DIRECTIVES, b"%%begintext": TEXT_BLOCKS}
KINDS = {kind.value: kind for kind in TokenKind}
SIGNS = frozenset((TokenKind.QUOTED, TokenKind.GRACE, TokenKind.DECORATION, TokenKind.NO_EFFECT, TokenKind.OTHER_FIELD, TokenKind.COMMENT))


class Losses:
    """The losses of the tunes of a part of a book that is in a session."""

    def __init__(self, session: Session, part: Part, faults: Sequence[Fault], reading: str):
        self.session = cast(LibrarySession, session)
        self.part, self.reading = part, reading
        self.faults = sorted(fault for fault in faults if not is_repeated(fault, part.lines[fault.line - 1]))
        self.lines_of_faults = [fault.line for fault in self.faults]

    def of_tune(self, place: int, start: int, stop: int, number: Optional[int]) -> list[Loss]:
        """Returns what is lost of the tune at a place of the book, by its lines in the part, counted from 0 and without `stop`. It has
        the file of a number, or none."""
        if number is None:
            return [Loss(place, NO_FILE, Effect.SILENT.value, 1, str(self.part.line_of_book(start + 1)))]
        played = self.played(number)
        found: dict[str, list[int]] = {}
        for line in range(start + 1, stop + 1):
            for kind in self.in_line(line, played):
                found.setdefault(kind, []).append(line)
        for fault in self.faults[bisect_left(self.lines_of_faults, start + 1) : bisect_left(self.lines_of_faults, stop + 1)]:
            kind = self.kind_of_fault(fault)
            if kind:
                found.setdefault(kind, []).append(fault.line)
        return [self.loss(place, kind, lines) for kind, lines in sorted(found.items())]

    def played(self, number: int) -> Optional[frozenset[int]]:
        """Returns the places of the notes that a number plays, or None if it plays too many to list."""
        try:
            play = self.session.play_columns(number)
        except PlayTooLong:
            return None
        return frozenset(play.places if play else ())

    def in_line(self, line: int, played: Optional[frozenset[int]]) -> list[str]:
        """Returns the kinds of the losses in a line, each as often as it is there."""
        text = self.part.lines[line - 1]
        starts, ends, kinds, _ = self.session.token_columns(line)
        found = []
        for start, end, number in zip(starts, ends, kinds):
            kind = KINDS.get(number, TokenKind.OTHER)
            if kind is TokenKind.NOTE:
                if played is not None and PlayColumns.place(line, start) not in played:
                    found.append(UNPLAYED)
                continue
            if kind in SIGNS:
                loss = kind_of_sign(kind, text[start - 1 : end - 1])
                if loss in SILENT[self.reading] or loss in OTHER[self.reading]:
                    found.append(loss)
        return found

    def kind_of_fault(self, fault: Fault) -> str:
        """Returns the kind of the loss that a fault is, or nothing if everything sounds."""
        if fault.name == "BadByte" and self.part.lines[fault.line - 1][fault.column - 1 : fault.column] == b"&":
            return OVERLAYS
        return "" if fault.name in NO_LOSSES else fault.name

    def loss(self, place: int, kind: str, lines: Sequence[int]) -> Loss:
        """Returns a loss of a tune, by the lines of the part at which it is."""
        is_silent = kind in SILENT[self.reading] or kind in SILENT_FAULTS
        shown = [self.part.line_of_book(line) for line in sorted(set(lines))[:MOST_LINES]]
        effect = Effect.SILENT if is_silent else Effect.OTHER
        return Loss(place, kind, effect.value, len(lines), " ".join(map(str, shown)))


def is_repeated(fault: Fault, line: bytes) -> bool:
    """Returns whether a fault is that of another byte of a character whose first one has it."""
    return fault.name == "BadByte" and is_inside_character(line, fault.column)


def kind_of_sign(kind: TokenKind, text: bytes) -> str:
    """Returns what a sign of a line stands for, or nothing if it is not for the ear."""
    if kind is TokenKind.QUOTED:
        return CHORD_NAMES if text[1] in CHORD_LETTERS else ""
    if kind is TokenKind.GRACE:
        return GRACE_NOTES
    if kind is TokenKind.DECORATION:
        return JUMPS if text.strip(b"!") in JUMP_WORDS else DECORATIONS
    if kind is TokenKind.NO_EFFECT:
        return DECORATIONS if text[0] in SYMBOLS else ""
    if kind is TokenKind.OTHER_FIELD:
        return FIELDS.get(text[:1], "")
    return next((loss for start, loss in COMMENTS.items() if text.startswith(start)), "")


def state_of(losses: Sequence[Loss]) -> str:
    """Returns how a tune sounds beside what is written, by its losses."""
    effects = {loss.effect for loss in losses}
    return next((effect.value for effect in (Effect.OTHER, Effect.SILENT) if effect.value in effects), Effect.COMPLETE.value)
