"""What a MIDI file of the program has: its key, meter and tempo, how long it is, its voices and its notes.

A key is that of the file, which has sharps, flats and minor: E Dorian has the signature of D, and is D here."""

from __future__ import annotations

import hashlib
import re
from functools import lru_cache
from typing import NamedTuple, Optional

from abc2midi_live_clients.common.midi_duration import number

FIRST_TRACK, TRACK_HEADER = 14, 8  # bytes: where the first track begins, and the bytes before the events of a track
END, TEMPO, METER, KEY = 0x2F, 0x51, 0x58, 0x59  # kinds of events
PROGRAM = 0xC  # the high half of the first byte of a program
TITLE, AT_END = b"\0\xff\x03", b"\0\xff\x2f\0"  # the begin of a title, and the end of a track
PLAIN = re.compile(rb"((?:\0\xff(?:\x51\x03[\0-\xff]{3}|\x58\x04[\0-\xff]{4}|\x59\x02[\0-\xff]{2}))*)([\x80-\xff]{0,3}[\0-\x7f])\xff\x2f\0")
TICKS_OF_QUARTER, MICROSECONDS = 480, 1_000_000
DEFAULT_TEMPO = MICROSECONDS // 2
DIGEST = 16  # bytes of the digest of notes, a BLAKE2b: it takes half the time of a SHA-256
KINDS = b"l" * 128 + b"h" * 16 + b"n" * 16 + b"h" * 32 + b"p" * 16 + b"h" * 48  # of bytes: low ones, high ones, and the first ones of
# notes and of programs on some channel
NOTE = b"lln"  # with its velocity and its key, backward: a search is faster for what ends with a rare byte
MAJOR = "Cb Gb Db Ab Eb Bb F C G D A E B F# C#".split()  # by their sharps, from -7 on
MINOR = "Abm Ebm Bbm Fm Cm Gm Dm Am Em Bm F#m C#m G#m D#m A#m".split()


class Facts(NamedTuple):
    """What a file has. Its key, meter and tempo, in quarter notes a minute, are the first ones; a free meter is None. `notes_digest` is
    the digest of its notes alone: when each begins and ends in its voice, its pitch and its loudness."""

    key: Optional[str]
    meter: Optional[str]
    tempo: float
    ticks: int
    seconds: float
    voices: int
    notes: int
    notes_digest: str


class Conductor(NamedTuple):
    """What the first track has: it has the tempos, keys and meters, and lasts to the end of the tune. The time is in millionths of a
    second for each tick of a quarter note. `end` is the place after the track."""

    key: Optional[str]
    meter: Optional[str]
    first_tempo: int
    ticks: int
    time: float
    end: int


def facts_of(data: bytes) -> Facts:
    """Returns the facts of a file."""
    at = FIRST_TRACK + TRACK_HEADER
    title = at + 4 + data[at + 3] if data[at : at + 3] == TITLE and data[at + 3] < 0x80 else at
    plain = PLAIN.match(data, title)
    if plain:  # one tempo, key and meter, as most tunes have
        key, meter, first_tempo, _, _, _ = opening_of(plain[1])
        ticks, end = 0, plain.end()
        for byte in plain[2]:
            ticks = ticks << 7 | byte & 0x7F
        time: float = ticks * first_tempo
    else:
        key, meter, first_tempo, ticks, time, end = conductor_of(data, at)
    seconds = round(time / TICKS_OF_QUARTER / MICROSECONDS, 3)
    return Facts(key, meter, round(60 * MICROSECONDS / first_tempo, 2), ticks, seconds, data[11] - 1, *notes_of(data[end:]))


@lru_cache(4096)
def opening_of(events: bytes) -> Conductor:
    """Returns what some events at the begin of a first track say."""
    return conductor_of(events + AT_END, 0)


def conductor_of(data: bytes, at: int) -> Conductor:
    """Returns the first track, whose events begin at a place."""
    key = meter = None
    first_tempo = tempo = DEFAULT_TEMPO
    ticks, time, kind = 0, 0.0, -1
    while kind != END:
        delta, at = number(data, at)
        if delta:
            ticks += delta
            time += delta * tempo
        kind, length, at = data[at + 1], data[at + 2], at + 3
        if kind == TEMPO:
            tempo = int.from_bytes(data[at : at + length], "big")
            first_tempo = first_tempo if ticks else tempo
        elif kind == KEY and key is None:
            key = key_name(data[at], data[at + 1])
        elif kind == METER and meter is None and not ticks:
            meter = f"{data[at]}/{1 << data[at + 1]}"
        elif length >= 0x80:  # a title: no other event is as long
            length, at = number(data, at - 1)
        at += length
    return Conductor(key, meter, first_tempo, ticks, time, at)


def key_name(sharps: int, is_minor: int) -> str:
    """Returns the name of a key of a file."""
    return (MINOR if is_minor else MAJOR)[(sharps + 7) & 0xFF]


def notes_of(tracks: bytes) -> tuple[int, str]:
    """Returns how many notes the tracks of the voices have, and the digest of their notes. The byte that begins a note may be a part
    of a delta time, too; but then one of the next two begins a number or an event, and is no low byte."""
    notes = at = 0
    has_programs = False
    while at < len(tracks):
        start = at + TRACK_HEADER
        at = start + int.from_bytes(tracks[start - 4 : start], "big")
        kinds = tracks[start:at].translate(KINDS)
        notes += kinds[::-1].count(NOTE)
        has_programs = has_programs or b"p" in kinds  # or a long delta time
    return notes, hashlib.blake2b(without_programs(tracks) if has_programs else tracks, digest_size=DIGEST).hexdigest()


def without_programs(tracks: bytes) -> bytes:
    """Returns tracks of voices without their programs. The time before one goes to the event after it."""
    made, at = [], 0
    while at < len(tracks):
        at, waited, events, stop = at + TRACK_HEADER, 0, bytearray(), at + TRACK_HEADER + int.from_bytes(tracks[at + 4 : at + 8], "big")
        while at < stop:
            delta, at = number(tracks, at)
            waited += delta
            is_program = tracks[at] >> 4 == PROGRAM
            end = at + (2 if is_program else 3)
            if not is_program:
                events += number_bytes(waited) + tracks[at:end]
                waited = 0
            at = end
        made.append(b"MTrk" + len(events).to_bytes(4, "big") + events)
    return b"".join(made)


def number_bytes(value: int) -> bytes:
    """Returns a number of variable length."""
    found = [value & 0x7F]
    while value := value >> 7:
        found.append(value & 0x7F | 0x80)
    return bytes(reversed(found))
