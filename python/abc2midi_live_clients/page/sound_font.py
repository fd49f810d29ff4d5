"""A SoundFont 2 file: which samples sound for a program of General MIDI, and their bytes.

It is a RIFF file. The list `pdta` has tables: a preset names zones, a zone names an instrument, which names zones again, and each of
those names a sample. The list `sdta` has all samples, as numbers of 16 bits. Only the tables are kept in memory."""

import os
import struct
from collections.abc import Iterator
from typing import NamedTuple, Optional

from ..common.json_object import Json

FONTS = [f"/usr/share/sounds/sf2/{name}.sf2" for name in ("default-GM", "TimGM6mb", "FluidR3_GM")]
MOST_SAMPLES = 1 << 23  # that one answer has
INSTRUMENT, KEYS, VELOCITIES, SAMPLE = 41, 43, 44, 53  # generators
LOOPED, LOOPED_WHILE_HELD = 1, 3  # ways in which a sample goes on
UNMUFFLED = 13500  # cents: a filter from here on changes nothing
ATTENUATION = 0.04  # decibels of a unit, as the players that fonts are made for read it
TABLES = {
    "phdr": struct.Struct("<20sHHHIII"),
    "pbag": struct.Struct("<HH"),
    "pgen": struct.Struct("<HH"),
    "inst": struct.Struct("<20sH"),
    "ibag": struct.Struct("<HH"),
    "igen": struct.Struct("<HH"),
    "shdr": struct.Struct("<20sIIIIIBbHH"),
}

Generators = dict[int, int]


class BadFont(Exception):
    """A file is no SoundFont that can be read here: a sentence says why."""


class Chunk(NamedTuple):
    """A part of a RIFF file: its name, where its content begins, and how long that is."""

    name: str
    start: int
    size: int


class Table:
    """The rows of a table, as bytes."""

    def __init__(self, data: bytes, form: struct.Struct):
        self.data, self.form = data, form

    def __len__(self) -> int:
        return len(self.data) // self.form.size

    def __getitem__(self, row: int) -> tuple[int, ...]:
        return self.form.unpack_from(self.data, row * self.form.size)


class SoundFont:
    """A SoundFont of this machine."""

    def __init__(self, path: str):
        self.path = path
        self.name = os.path.basename(os.path.realpath(path)).rpartition(".")[0]
        try:
            with open(path, "rb") as file:
                parts = parts_of(file.fileno())
                self.tables = {name: Table(os.pread(file.fileno(), parts[name].size, parts[name].start), form) for name, form in TABLES.items()}
                self.samples_at, self.count = parts["smpl"].start, parts["smpl"].size // 2
        except (KeyError, struct.error, UnicodeDecodeError) as error:
            raise BadFont(f"{path} is no SoundFont 2") from error

    def zones(self, program: int) -> list[Json]:
        """The zones that sound for a program of the first bank, and of which sample: for which keys and velocities, and how."""
        presets, instruments = self.tables["phdr"], self.tables["inst"]
        at = next((n for n in range(len(presets) - 1) if presets[n][1:3] == (program, 0)), None)
        if at is None:
            return []
        found = []
        for outer in self.generators("p", presets[at][3], presets[at + 1][3], INSTRUMENT):
            number = outer[INSTRUMENT]
            if number + 1 < len(instruments):
                inner_zones = self.generators("i", instruments[number][1], instruments[number + 1][1], SAMPLE)
                found += [self.zone(outer, inner) for inner in inner_zones]
        return [zone for zone in found if zone]

    def generators(self, level: str, first: int, last: int, end: int) -> Iterator[Generators]:
        """The generators of each zone that names what is below it. The first zone may have those of all others instead."""
        bags, generators = self.tables[f"{level}bag"], self.tables[f"{level}gen"]
        common: Generators = {}
        for n in range(first, min(last, len(bags) - 1)):
            own: Generators = {generators[row][0]: generators[row][1] for row in range(bags[n][0], min(bags[n + 1][0], len(generators)))}
            if end in own:
                yield {**common, **own}
            elif n == first:
                common = own

    def zone(self, outer: Generators, inner: Generators) -> Optional[Json]:
        """A zone of a preset and one of its instrument, as the page has them; None if no note is in both."""

        def total(generator: int, default: int = 0) -> int:
            return signed(inner.get(generator, default)) + signed(outer.get(generator, 0))

        ranges = [both(outer.get(kind), inner.get(kind)) for kind in (KEYS, VELOCITIES)]
        number = inner[SAMPLE]
        if any(low > high for low, high in ranges) or number >= len(self.tables["shdr"]) - 1:
            return None
        _, start, stop, loop_start, loop_stop, rate, root, correction, _, _ = self.tables["shdr"][number]
        start += offset(inner, 0, 4)
        stop = min(stop + offset(inner, 1, 12), self.count)
        loop = [loop_start + offset(inner, 2, 45) - start, loop_stop + offset(inner, 3, 50) - start]
        is_looped = inner.get(54, 0) & 3 in (LOOPED, LOOPED_WHILE_HELD) and 0 <= loop[0] < loop[1] <= stop - start
        if not 0 <= start < stop or not rate:
            return None
        return {
            **{"keys": ranges[0], "velocities": ranges[1], "start": start, "stop": stop, "rate": rate},
            "loop": loop if is_looped else None,
            "root": inner[58] if 0 <= signed(inner.get(58, 0xFFFF)) <= 127 else root,
            "cents": 100 * total(51) + total(52) + correction,
            "scale": total(56, 100),
            "decibels": ATTENUATION * max(0, total(48)),
            "pan": max(-1, min(1, total(17) / 500)),
            "attack": seconds(total(34, -12000)),
            "hold": seconds(total(35, -12000)),
            "decay": seconds(total(36, -12000)),
            "sustain": max(0, total(37)) / 10,
            "release": seconds(total(38, -12000)),
            "filter": muffling(total(8, UNMUFFLED), total(11), total(29), total(28, -12000)),
        }

    def samples(self, start: int, stop: int) -> bytes:
        """Samples of the file, two bytes each. Raises OSError if it cannot be read."""
        stop = min(stop, self.count, start + MOST_SAMPLES)
        with open(self.path, "rb") as file:
            return os.pread(file.fileno(), 2 * max(0, stop - start), self.samples_at + 2 * start)


def find_font(path: Optional[str] = None) -> Optional[SoundFont]:
    """The SoundFont of a path, or else the first one that is installed. Raises BadFont or OSError if a named one cannot be read."""
    if path:
        return SoundFont(path)
    for known in FONTS:
        try:
            return SoundFont(known)
        except (BadFont, OSError):
            continue
    return None


def parts_of(descriptor: int) -> dict[str, Chunk]:
    """The chunks in the lists of a SoundFont, by name."""
    if os.pread(descriptor, 4, 8) != b"sfbk":
        return {}
    lists = [chunk for chunk in chunks(descriptor, 12, os.fstat(descriptor).st_size) if chunk.name == "LIST"]
    return {part.name: part for each in lists for part in chunks(descriptor, each.start + 4, each.start + each.size)}


def chunks(descriptor: int, start: int, stop: int) -> Iterator[Chunk]:
    """The chunks of a stretch of a file."""
    while start + 8 <= stop:
        name, size = struct.unpack("<4sI", os.pread(descriptor, 8, start))
        yield Chunk(name.decode("ascii"), start + 8, min(size, stop - start - 8))
        start += 8 + size + size % 2


def signed(amount: int) -> int:
    """The amount of a generator as a number with a sign."""
    return amount - 0x10000 if amount > 0x7FFF else amount


def both(outer: Optional[int], inner: Optional[int]) -> list[int]:
    """The range that two ranges share; a missing one has all numbers to 127."""
    pairs = [(amount & 0xFF, amount >> 8) for amount in (outer, inner) if amount is not None]
    return [max([0, *(low for low, _ in pairs)]), min([127, *(high for _, high in pairs)])]


def offset(generators: Generators, fine: int, coarse: int) -> int:
    """How far a place in a sample is moved."""
    return signed(generators.get(fine, 0)) + 32768 * signed(generators.get(coarse, 0))


def seconds(timecents: int) -> float:
    """The seconds of a time; 1,200 timecents are twice as long as none."""
    return float(round(min(2.0 ** (timecents / 1200), 100), 5))


def muffling(cutoff: int, more: int, fallen: int, fall: int) -> Optional[list[float]]:
    """The frequency above which a note is muffled at its begin, the one later, and the seconds between; None if it is not muffled.
    `fallen` is the part of `more` that is gone then, in thousandths."""
    if cutoff >= UNMUFFLED:
        return None
    later = cutoff + round(more * (1 - max(0, min(1000, fallen)) / 1000))
    return [hertz(cutoff + more), hertz(later), seconds(fall)]


def hertz(cents: int) -> float:
    """The frequency of a pitch in cents."""
    return float(round(8.176 * 2 ** (min(cents, UNMUFFLED) / 1200), 1))
