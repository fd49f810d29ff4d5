"""SoundFonts made by hand, for tests."""

import struct

KEYS, VELOCITIES, INSTRUMENT, SAMPLE = 43, 44, 41, 53


def chunk(name: bytes, data: bytes) -> bytes:
    """A chunk of a RIFF file."""
    return name + struct.pack("<I", len(data)) + data + b"\0" * (len(data) % 2)


def generator(kind: int, amount: int) -> bytes:
    """A generator of a zone."""
    return struct.pack("<HH", kind, amount & 0xFFFF)


def span(low: int, high: int) -> int:
    """A range of keys or velocities as a generator has it."""
    return low | high << 8


def font(samples: list[int]) -> bytes:
    """A font of one preset, program 5. Its instrument has three zones: for keys to 69 a looped sample, for those from 70 on two of
    different velocities. All are played at A4, 10,000 samples a second. The preset is two semitones higher, the lower keys one more."""
    preset = [generator(51, 2), generator(INSTRUMENT, 0)]
    inner = [
        [generator(48, 100), generator(34, 0)],  # of all zones: ten decibels, and an attack of a second
        [generator(KEYS, span(0, 69)), generator(51, 1), generator(54, 1), generator(SAMPLE, 0)],
        [generator(KEYS, span(70, 127)), generator(VELOCITIES, span(0, 99)), generator(48, 0), generator(SAMPLE, 1)],
        [generator(KEYS, span(70, 127)), generator(VELOCITIES, span(100, 127)), generator(17, -250), generator(SAMPLE, 1)],
    ]
    counts = [sum(len(zone) for zone in inner[:n]) for n in range(len(inner) + 1)]
    headers = [(b"low", 0, 40, 10, 30, 10_000, 69, 0, 0, 1), (b"high", 40, 60, 45, 55, 10_000, 69, -7, 0, 1), (b"EOS", *[0] * 9)]
    tables = [
        chunk(b"phdr", struct.pack("<20sHHHIII", b"Piano", 5, 0, 0, 0, 0, 0) + struct.pack("<20sHHHIII", b"EOP", 0, 0, 1, 0, 0, 0)),
        chunk(b"pbag", struct.pack("<4H", 0, 0, len(preset), 0)),
        chunk(b"pmod", b""),
        chunk(b"pgen", b"".join(preset)),
        chunk(b"inst", struct.pack("<20sH20sH", b"Piano", 0, b"EOI", len(inner))),
        chunk(b"ibag", b"".join(struct.pack("<HH", count, 0) for count in counts)),
        chunk(b"imod", b""),
        chunk(b"igen", b"".join(one for zone in inner for one in zone)),
        chunk(b"shdr", b"".join(struct.pack("<20sIIIIIBbHH", *header) for header in headers)),
    ]
    parts = chunk(b"LIST", b"INFO" + chunk(b"INAM", b"Hand\0"))
    parts += chunk(b"LIST", b"sdta" + chunk(b"smpl", struct.pack(f"<{len(samples)}h", *samples)))
    parts += chunk(b"LIST", b"pdta" + b"".join(tables))
    return chunk(b"RIFF", b"sfbk" + parts)
