"""A tune as the hints see it: its fields, and for each voice its music, bar lines and endings in the order of the text."""

from __future__ import annotations

from bisect import bisect_left
from collections import Counter, defaultdict
from functools import cached_property
from typing import TYPE_CHECKING, NamedTuple, Optional

from .line import BAD_BYTE, BAR_LINE, BAR_REST, COMMENT, DIRECTIVE, ENDING, FIELDS, INLINE_FIELD, MUSIC, TUPLET, UNCLOSED
from .line import LINE_END, NO_SIGN, Line, Segment, Sign, value, words_of
from .reader import Reading

if TYPE_CHECKING:
    from abc2midi_live.records import PlayColumns

REFUSED = {ENDING: "BadEnding", TUPLET: "BadTuplet"}  # signs, with the faults that refuse them
BREAKS = frozenset((BAD_BYTE, UNCLOSED))
ODD_LENGTHS = frozenset(("BadLength", "BadTuplet", "NestedTuplet", "BadBroken"))  # faults in the length of a note
WHOLE = 1920  # ticks
NEAR = 256  # entries of a play after which most repeats begin again
OCTAVES = 108  # semitones by which silent notes come into the range of MIDI
UNNAMED = b""  # the voice without a name

Place = tuple[int, int]  # a line of a tune, from 0, and a column, from 1


class Meter(NamedTuple):
    """A meter, and the length of its bar in ticks; a free one has none."""

    over: int
    under: int
    ticks: int


FREE = Meter(0, 1, 0)


class Tuplet(NamedTuple):
    """An unfinished tuplet: the place of its mark, how many notes it has, and how many of them are missing."""

    place: Place
    notes: int
    missing: int
    passed_bar: bool = False


class Item(NamedTuple):
    """A segment of a line in its voice."""

    line: int
    tokens: Line
    segment: Segment
    sign: Sign  # that ends it; NO_SIGN if it is refused
    meter: Meter
    is_odd: bool  # it has a fault in the length of a note
    breaks: bool  # its sign is a fault after which the next note is unknown, or a bar line in a tuplet

    def place(self) -> Place:
        """Returns the place of its first note, chord or rest."""
        return self.line, self.tokens.starts[self.segment.timed[0]]

    def is_rest(self) -> bool:
        """Returns whether it has no note."""
        return not any(map(self.tokens.notes, self.segment.timed))


class Voice:
    """A voice: its items by section, its meter, and its unfinished tuplet at the place that is read."""

    def __init__(self, meter: Meter) -> None:
        self.sections: defaultdict[int, list[Item]] = defaultdict(list)  # in the order of the text
        self.meter = meter
        self.tuplet: Optional[Tuplet] = None

    def count(self, tuplet: Tuplet, line: Line, timed: list[int]) -> Optional[Tuplet]:
        """Counts notes, chords and rests in its tuplet. Returns it, None if it is complete."""
        missing = tuplet.missing - sum(line.kinds[at] != BAR_REST for at in timed)
        self.tuplet = tuplet._replace(missing=missing) if missing > 0 else None
        return self.tuplet

    def first_music(self) -> Optional[Item]:
        """Returns the first of its music, if it has any."""
        return next((item for items in self.sections.values() for item in items if item.segment.timed), None)


class TuneText:
    """A tune, read line by line."""

    def __init__(self, read: Reading):
        self.lines, self.first, self.play, self.replay = read.lines, read.first, read.play, read.replay
        self.faults: defaultdict[Place, list[str]] = defaultdict(list)
        self.odd: defaultdict[int, list[int]] = defaultdict(list)  # by lines the columns of odd lengths
        for line, column, name in read.faults:
            self.faults[line - self.first, column].append(name)
            if name in ODD_LENGTHS:
                self.odd[line - self.first].append(column)
        self.in_block = lines_in_blocks(self.lines)
        self.fields: list[tuple[Place, bytes]] = []  # all fields in order, those in brackets too
        self.others: list[tuple[int, int]] = []  # what is not played, by its line and token
        self.overlays: list[Place] = []
        self.short_tuplets: list[Tuplet] = []
        self.parts: list[Place] = []  # of the body; part n begins section n + 1
        self.programs: list[tuple[int, bytes]] = []  # the directives of the body, each with its voice
        self.meter = FREE
        self.voices: dict[bytes, Voice] = {}
        for n, tokens in read.header:
            self.meter = self._meter_of((n - self.first, 1), tokens.field(), self.meter)
        self._read_header(read.body)
        for n in range(read.body, len(self.lines)):
            self._read_line(n, self.lines[n])
        tuplets = [voice.tuplet for voice in self.voices.values()]
        self.short_tuplets += [tuplet for tuplet in tuplets if tuplet and not tuplet.passed_bar]

    # ---- the play

    @cached_property
    def played(self) -> dict[int, int]:
        """By each place the entry with which it is played first."""
        places = self.play.places if self.play else []
        return dict(zip(reversed(places), reversed(range(len(places)))))

    @cached_property
    def _times(self) -> Counter[int]:
        """How often each place is played."""
        return Counter(self.play.places if self.play else ())

    def place(self, line: int, column: int) -> int:
        """Returns a place of the tune as a play has it."""
        return self.play.place(line + self.first, column) if self.play else 0

    def is_played(self, item: Item) -> bool:
        """Returns whether music is played."""
        return self.place(item.line, item.segment.start) in self.played

    def is_played_once(self, item: Item) -> bool:
        """Returns whether music is played just once. A look at the next entries spares most tunes the count of all."""
        place, places = self.place(item.line, item.segment.start), self.play.places if self.play else []
        after = self.played.get(place, 0) + 1
        return place not in places[after : after + NEAR] and self._times[place] == 1

    def note_length(self, place: Place) -> int:
        """Returns the length of a note, 0 if it is not played."""
        at = self.played.get(self.place(*place))
        return self.play.off(at) - self.play.on(at) if self.play and at is not None else 0

    def length(self, item: Item) -> Optional[int]:
        """Returns the length of music, if it is played."""
        play, line, segment = self.play, item.line + self.first, item.segment
        if not play:
            return None
        start, end = self.played.get(play.place(line, segment.start)), self.played.get(play.place(line, segment.end))
        return None if start is None or end is None else play.off(end) - play.on(start)

    @cached_property
    def transposed(self) -> list[tuple[int, PlayColumns]]:
        """The plays of the tune some octaves lower and higher, each with its shift in semitones."""
        plays = [(shift, self.replay(shift)) for shift in (-OCTAVES, OCTAVES)]
        return [(shift, play) for shift, play in plays if play and self.play and len(play.places) == len(self.play.places)]

    # ---- fields

    def _is_refused(self, place: Place, text: bytes, *names: str) -> bool:
        """Returns whether a token has a fault of some names."""
        line, first = place
        if not self.faults:
            return False
        return any(name in names for column in range(first, first + len(text)) for name in self.faults.get((line, column), ()))

    def _meter_of(self, place: Place, text: bytes, before: Meter) -> Meter:
        """Returns the meter after a field, and the free one if it is refused: then bars are not compared."""
        if not text.startswith(b"M:"):
            return before
        return FREE if self._is_refused(place, text, "BadMeter") else meter_of(value(text))

    def _voice_of(self, place: Place, text: bytes) -> bytes:
        """Returns the voice of a field, empty if it is refused, or another field."""
        words = words_of(value(text)) if text.startswith(b"V:") else []
        return words[0] if words and not self._is_refused(place, text, "BadVoice", "TooManyVoices") else b""

    def _read_header(self, stop: int) -> None:
        """Reads the header, which ends before a line."""
        declared = []
        for n, line in enumerate(self.lines[:stop]):
            place, text = (n, 1), line.field()
            if text:
                self.fields.append((place, text))
                self.meter = self._meter_of(place, text, self.meter)
                declared.append(self._voice_of(place, text))
        self.voices.update((name, Voice(self.meter)) for name in declared if name)
        self._begin_voice(next(iter(self.voices), UNNAMED))

    def _begin_voice(self, name: bytes) -> None:
        """Makes a voice the current one."""
        self.current = name
        self.voice = self.voices.setdefault(name, Voice(self.meter))

    # ---- the body

    def _read_line(self, n: int, line: Line) -> None:
        """Reads a line of the body."""
        if line.kind == MUSIC and n not in self.in_block:
            self.others += [(n, at) for at in line.others]
            odd, before = sorted(self.odd.get(n, ())), 0
            for segment in line.segments:
                after = bisect_left(odd, segment.column)
                self._read_segment(n, line, segment, after > before)
                before = after
            if len(odd) > before:
                self._read_segment(n, line, LINE_END, is_odd=True)
        elif line.kind in FIELDS:
            self._read_field((n, 1), line.field())
        elif line.kind == DIRECTIVE:
            self.programs.append((n, self.current))

    def _read_field(self, place: Place, text: bytes) -> None:
        """Reads a field of the body, as `M:3/4`."""
        self.fields.append((place, text))
        self.voice.meter = self._meter_of(place, text, self.voice.meter)
        if text.startswith(b"P:") and not self._is_refused(place, text, "BadPart"):
            self.parts.append(place)
        elif text.startswith(b"V:"):
            self._begin_voice(self._voice_of(place, text) or self.current)

    def _read_segment(self, n: int, line: Line, segment: Segment, is_odd: bool) -> None:
        """Reads a segment of a line. A tuplet that a bar line finds unfinished is noted once."""
        voice, sign, place = self.voice, segment.sign, (n, segment.column)
        if sign.kind in REFUSED and self._is_refused(place, sign.text, REFUSED[sign.kind]):
            sign = NO_SIGN
        tuplet = voice.tuplet and voice.count(voice.tuplet, line, segment.timed)
        breaks = sign.kind in BREAKS or tuplet is not None and sign.kind == BAR_LINE
        voice.sections[len(self.parts)].append(Item(n, line, segment, sign, voice.meter, is_odd, breaks))
        if sign.kind == BAR_LINE and tuplet and not tuplet.passed_bar:
            voice.tuplet = tuplet._replace(passed_bar=True)
            self.short_tuplets.append(voice.tuplet)
        elif sign.kind == TUPLET:
            notes = int((sign.text + b"::").split(b":")[2] or sign.text[1:].split(b":")[0])
            voice.tuplet = Tuplet(place, notes, notes)
        elif sign.kind == INLINE_FIELD:
            self._read_field(place, sign.text[1:-1])
        elif sign.text == b"&":
            self.overlays.append(place)


def meter_of(text: bytes) -> Meter:
    """Returns the meter that an accepted value spells."""
    if text in (b"", b"none"):
        return FREE
    text = {b"C": b"4/4", b"C|": b"2/2"}.get(text, text)
    beats, _, unit = text.replace(b"(", b"").replace(b")", b"").partition(b"/")
    over, under = sum(map(int, beats.split(b"+"))), int(unit)
    return Meter(over, under, WHOLE * over // under)


def lines_in_blocks(lines: list[Line]) -> dict[int, int]:
    """Returns by each line between `%%begintext` and `%%endtext`, or their like, the line of the former."""
    found: dict[int, int] = {}
    start, end = 0, b""
    for n, line in enumerate(lines):
        if line.kind != COMMENT:
            if end:
                found[n] = start
        elif end:
            end = b"" if line.token(0).lstrip(b" \t%").startswith(end) else end
        else:
            start, end = n, end_of_block(line.token(0).lstrip(b" \t"))
    return found


def end_of_block(comment: bytes) -> bytes:
    """Returns the word that ends the block that a comment begins, empty if it begins none."""
    words = words_of(comment[2:]) if comment.startswith(b"%%") else []
    name = words[0].removeprefix(b"begin") if words and words[0].startswith(b"begin") else b""
    return b"end" + name if name else b""
