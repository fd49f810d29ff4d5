"""Hints about lines for players without effect: `MidiLine`, `LostProgram`."""

from __future__ import annotations

from collections.abc import Iterator
from typing import Optional

from .hint import Hint
from .line import COMMENT, DIRECTIVE, FIELDS, INLINE_FIELD, Line, words_of
from .tune import UNNAMED, TuneText

IN_TUNE = "in a tune or in the first block of the book"
FROM_COLUMN_1 = "from column 1 on, and no channel before the number"
ELSEWHERE = "on a line of its own"
MOST_PROGRAM = 127


def midi_lines(lines: list[Line], kept: range) -> Iterator[Hint]:
    """Yields the programs that are not read, and one hint for all other `%%MIDI` lines; directives in the lines `kept` have
    an effect, as those of a tune or a file header have."""
    others = []
    for n, line in enumerate(lines):
        for column, setting, where in settings_of(line, n in kept):
            number = program_of(setting)
            if number is None:
                others.append((n, column))
            else:
                yield Hint(n, column, "LostProgram", f"this program has no effect; write {directive_of(number)} {where}")
    if others:
        what = "this line for players has" if len(others) == 1 else f"this line for players and {len(others) - 1} more have"
        yield Hint(*others[0], "MidiLine", f"{what} no effect; of `%%MIDI` lines only `%%MIDI program N` is read")


def settings_of(line: Line, is_kept: bool) -> Iterator[tuple[int, list[bytes], str]]:
    """Yields the settings of a line for players that have no effect: their columns, the words after `MIDI`, and where a
    program is to be written instead."""
    if line.kind == COMMENT or line.kind == DIRECTIVE and not is_kept:
        text = line.token(0).lstrip(b" \t")
        words = words_of(text[2:].partition(b"%")[0]) if text.startswith(b"%%") else []
        if is_midi(words):
            yield 1, words[1:], IN_TUNE if line.kind == DIRECTIVE else FROM_COLUMN_1
    if b"I:" not in line.text:
        return
    for at in [0] if line.kind in FIELDS else [at for at, kind in enumerate(line.kinds) if kind == INLINE_FIELD]:
        text = line.token(at).strip(b"[]")
        words = words_of(text[2:].replace(b"=", b" ", 1)) if text.startswith(b"I:") else []
        if is_midi(words):
            yield line.starts[at], words[1:], ELSEWHERE


def is_midi(words: list[bytes]) -> bool:
    """Returns whether words are a setting for players."""
    return bool(words) and words[0].lower() == b"midi"


def program_of(setting: list[bytes]) -> Optional[bytes]:
    """Returns the digits of the program of a setting, without or with a channel before it, if it is one."""
    is_program = len(setting) in (2, 3) and setting[0].lower() == b"program" and all(map(bytes.isdigit, setting[1:]))
    return setting[-1] if is_program else None


def directive_of(digits: bytes) -> str:
    """Returns the directive to write for a program: with its number, if there is a program of that number."""
    number = digits.lstrip(b"0").decode() or "0"
    if len(number) <= len(str(MOST_PROGRAM)) and int(number) <= MOST_PROGRAM:
        return f"`%%MIDI program {number}`"
    return f"`%%MIDI program N`, N from 0 to {MOST_PROGRAM},"


def programs_without_voice(tune: TuneText) -> Iterator[Hint]:
    """Yields the programs in the body before the first `V:` of a tune that plays nothing there and declares no voice."""
    unnamed = tune.voices.get(UNNAMED)
    if unnamed and unnamed.first_music() or len(tune.voices) < 2:
        return
    for n, voice in tune.programs:
        if voice == UNNAMED and tune.lines[n].text.startswith(b"%%MIDI"):
            text = "this program belongs to no voice; write it after the `V:`, or before the `K:` for all voices"
            yield Hint(n, 1, "LostProgram", text)
