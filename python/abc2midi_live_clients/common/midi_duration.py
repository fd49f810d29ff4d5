"""How long a MIDI file of the program plays."""

END, TEMPO = 0x2F, 0x51  # kinds of events
FIRST_EVENT = 22  # after the header of the file and of its first track
MICROSECONDS = 1_000_000


def seconds_of(data: bytes) -> float:
    """The length of a file. Its first track has all tempos, and ends with the file; it has no events of other tracks' kinds."""
    ticks_of_quarter = int.from_bytes(data[12:14], "big")
    at, seconds, tempo = FIRST_EVENT, 0.0, MICROSECONDS // 2
    kind = -1
    while kind != END:
        ticks, at = number(data, at)
        seconds += ticks * tempo / ticks_of_quarter / MICROSECONDS
        kind = data[at + 1]
        length, at = number(data, at + 2)
        if kind == TEMPO:
            tempo = int.from_bytes(data[at : at + length], "big")
        at += length
    return seconds


def number(data: bytes, at: int) -> tuple[int, int]:
    """The number of variable length at a place, and the place after it."""
    byte, at = data[at], at + 1
    value = byte & 0x7F
    while byte >= 0x80:
        byte, at = data[at], at + 1
        value = value << 7 | byte & 0x7F
    return value, at
