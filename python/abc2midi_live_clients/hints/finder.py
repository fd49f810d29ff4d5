"""Finding the hints of a text again after each change of it."""

from __future__ import annotations

from bisect import bisect_left
from collections.abc import Callable, Iterator, Sequence
from functools import lru_cache
from typing import Optional

from abc2midi_live import Fault
from abc2midi_live.edits import common_front
from abc2midi_live.lines import MOST_BYTES

from ..common.session_book import Tune
from .bars import bars, short_tuplets
from .book import NOT_UTF8, free_music, lone_returns, no_tune, not_utf8, same_numbers
from .directives import midi_lines, programs_without_voice
from .foreign import german_notes, lost_flats, markup
from .hint import Hint
from .lyrics import surplus_syllables
from .reader import reader_here
from .repeats import repeats
from .ties import ties
from .tune import TuneText
from .voices import OF_UNEVEN_VOICES, music_before_voice, voice_lengths
from .words import bagpipe_keys, lost_sharps, not_played, overlays, text_blocks

# The families of hints that look at one tune.
OF_A_TUNE: tuple[Callable[[TuneText], Iterator[Hint]], ...] = (
    not_played,
    text_blocks,
    overlays,
    lost_sharps,
    bagpipe_keys,
    german_notes,
    markup,
    surplus_syllables,
    programs_without_voice,
    repeats,
    music_before_voice,
    voice_lengths,
    bars,
    lost_flats,
    short_tuplets,
    ties,
)
MOST_TUNES = 10_000  # of a book that are looked at
MOST_AT_ONCE = 100  # tunes that a client looks at before it listens again: some tenth of a second

Lines = tuple[bytes, ...]
Found = tuple[Hint, ...]  # the hints on some lines, which count from 0


class Finder:
    """Finds the hints of a text, by the library at a path or the one that is found. Those on tunes that did not change since the
    last time stay. A long book can be looked at little by little."""

    def __init__(self, library: Optional[str] = None) -> None:
        self.library = library
        self.header: Lines = ()
        self.lines: list[bytes] = []
        self.starts: list[int] = []  # the first line of each tune, from 0
        self.known: list[Optional[list[Hint]]] = []  # the hints on each tune, None before it is looked at
        self.unread: list[int] = []  # the tunes that are not looked at yet, the next one last
        self.opening: list[Hint] = []  # the hints on the lines before the tunes
        self.others: list[Hint] = []  # those on the numbers of tunes
        self.uneven: set[int] = set()  # the lines, from 1, of tunes with uneven voices

    def hints(self, lines: Sequence[bytes], tunes: Sequence[Tune], faults: Sequence[Fault]) -> list[Hint]:
        """Returns the hints on a text in the order of their places; `tunes` and `faults` are the program's for that text. Without a
        library these are only the hints for which no ABC is read."""
        self.take(lines, tunes, faults)
        self.look()
        return self.found()

    def take(self, lines: Sequence[bytes], tunes: Sequence[Tune], faults: Sequence[Fault]) -> None:
        """Takes a text, without looking at its tunes."""
        self.others = same_numbers(tunes, faults)
        self.uneven = {fault.line for fault in faults if fault.name == "UnevenVoices"}
        starts = [tune.line - 1 for tune in tunes[: MOST_TUNES + 1]]
        if len(starts) > MOST_TUNES:
            lines = lines[: starts.pop()]
            text = f"from this tune on the clients compare only numbers: {MOST_TUNES} tunes precede it"
            self.others.append(Hint(len(lines) + 1, 1, "ManyTunes", text))
        header, opening = read_opening(tuple(lines[: starts[0]] if starts else lines), bool(tunes), self.library)
        self.opening = placed(opening, 1)
        old, new = self.lines if self.header == header else [], list(lines)
        self._reuse(old, new, starts)
        self.header, self.lines, self.starts = header, new, starts

    def _reuse(self, old: list[bytes], lines: list[bytes], starts: list[int]) -> None:
        """Forgets the hints on all tunes but those in the first and in the last lines that are the same as before."""
        front = common_front(old, lines)
        back = common_front(old[front:][::-1], lines[front:][::-1])
        first = max(0, bisect_left(starts, front) - 1)
        first = first if starts[:first] == self.starts[:first] else 0
        stop = max(first, bisect_left(starts, len(lines) - back), first + len(starts) - len(self.starts))
        tail = self.known[len(self.starts) - len(starts) + stop :]
        by = len(lines) - len(old)
        tail = [found and placed(found, by) for found in tail] if by else tail
        self.known = [*self.known[:first], *[None] * (stop - first), *tail]
        unread = [n for n in reversed(range(len(starts))) if self.known[n] is None]
        self.unread = sorted(unread, key=range(first, stop).__contains__)

    def look(self, most: int = MOST_TUNES) -> bool:
        """Looks at some tunes, those that changed last first. Returns whether all are known."""
        ends = [*self.starts[1:], len(self.lines)]
        for _ in range(min(most, len(self.unread))):
            n = self.unread.pop()
            found = read_tune(tuple(self.lines[self.starts[n] : ends[n]]), self.header, self.library)
            self.known[n] = placed(found, self.starts[n] + 1)
        return not self.unread

    def found(self) -> list[Hint]:
        """Returns the hints that are known, in the order of their places. Of `NotUtf8` the first one counts, and `VoiceLengths`
        in tunes with uneven voices."""
        found = [hint for hints in [self.opening, *self.known] for hint in hints or ()]
        odd = set([hint for hint in found if hint.name == NOT_UTF8][1:])
        odd |= {hint for hint in found if hint.name == OF_UNEVEN_VOICES and self._start(hint) not in self.uneven}
        found = [hint for hint in found if hint not in odd] if odd else found
        return sorted([*found, *self.others]) if self.others else found

    def _start(self, hint: Hint) -> int:
        """Returns the first line, from 1, of the tune of a hint."""
        return self.starts[bisect_left(self.starts, hint.line) - 1] + 1


def placed(found: Sequence[Hint], by: int) -> list[Hint]:
    """Returns hints some lines further on."""
    return [Hint(line + by, column, name, text) for line, column, name, text in found]


def short_lines(lines: Lines) -> Lines:
    """Returns lines as the program gets them: those that it would refuse are comments."""
    return tuple(b"%" if len(line) > MOST_BYTES else line for line in lines)


@lru_cache(maxsize=64)
def read_opening(lines: Lines, has_tunes: bool, library: Optional[str]) -> tuple[Lines, Found]:
    """Returns the file header of the lines before the first tune, and the hints on them."""
    text, lines = lines, short_lines(lines)
    found = [*lone_returns(lines), *(not_utf8(lines) if has_tunes else ())]
    reader = reader_here(library)
    header, music = 0, list[Hint]()
    if reader and lines:
        header, read = reader.file_header(lines), reader.free(lines)
        found += midi_lines(read, range(header))
        music = list(free_music(read, 0, after_tune=False))
    found += music if has_tunes else no_tune(text, music)
    return lines[:header], tuple(sorted(found))


def read_tune(lines: Lines, header: Lines, library: Optional[str]) -> Found:
    """Returns the hints on the lines from an `X:` line to the next one, after a file header."""
    lines = short_lines(lines)
    found = [*lone_returns(lines), *not_utf8(lines)]
    reader = reader_here(library)
    if reader:
        read = reader.read(header, lines)
        tune, end = TuneText(read), len(read.lines)
        found += [hint for family in OF_A_TUNE for hint in family(tune)]
        if b"midi" in b"".join(lines).lower():
            found += midi_lines([*read.lines, *read.free], range(end))
        found += free_music(read.free, end, after_tune=True)
    return tuple(sorted(found))
