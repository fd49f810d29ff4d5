"""A MIDI file as a tune in ABC: `midi2abc` reads it, within the walls in which scores are drawn."""

import base64
import binascii
import re

from ..common.json_object import Json
from .one_at_a_time import OneAtATime
from .own_process import answer_all
from .refused import Refused
from .score.limits import READING_A_FILE
from .score.score import ENVIRONMENT, LIMITS, NICENESS, note_on
from .score.scorer import PROGRAM as DRAWER, found_program
from .score.walled_program import READ_FILE, Killed, TooLarge, TooLate, output_of

PROGRAM = "midi2abc"
INSTALL = "To open a MIDI file, install midi2abc: sudo apt install abcmidi"
SECONDS = 10  # that the program may take by the clock; `limits` has those of the processor
SECONDS_OF_THE_PROCESS = SECONDS + 5
MOST_BYTES = 1 << 20  # of the MIDI file, and of the tune
MOST_LINES = 20_000  # of the tune
NO_TUNE = "midi2abc finds no tune in this file."
UNWRITABLE = re.compile("[\x00-\x08\x0b-\x1f\x7f\ufeff]")


class NoTune(Exception):
    """Why there is no tune, as a sentence."""


def serve() -> None:
    """Answers questions till there are no more: each is a program and the bytes of a MIDI file."""
    answer_all(lambda asked: answer(*asked), NICENESS)


def answer(program: str, data: bytes) -> Json:
    """The lines of the tune, and what to say about walls that are missing; or why there is no tune."""
    try:
        return tune_of(program, data)
    except NoTune as why:
        return {"why": str(why)}


def tune_of(program: str, data: bytes) -> Json:
    """The lines of the tune in a MIDI file, and what to say about walls that are missing. Raises NoTune."""
    try:
        found = output_of([LIMITS, READING_A_FILE, program, "-f", READ_FILE], data, ENVIRONMENT, SECONDS, MOST_BYTES)
    except TooLate as error:
        raise NoTune("midi2abc took too long for this file.") from error
    except TooLarge as error:
        raise NoTune("The tune of this file is too large.") from error
    except Killed as error:
        raise NoTune(f"midi2abc failed on this file: {error}.") from error
    except OSError as error:
        raise NoTune(f"midi2abc cannot be run: {error.strerror}.") from error
    return {"lines": lines_of(found.data), "note": note_on(found.walls).replace(DRAWER, PROGRAM, 1)}


def lines_of(data: bytes) -> list[str]:
    """The lines of the tune that a program wrote, without signs that no text has. Words of a MIDI file are in no known character set. Raises
    NoTune."""
    try:
        text = data.decode()
    except UnicodeDecodeError:
        text = data.decode("cp1252", "replace")
    lines = [UNWRITABLE.sub(" ", line).rstrip() for line in text.split("\n")]
    lines = [line for line in lines if line]  # a blank line would end the tune
    starts = [at for at, line in enumerate(lines) if line.startswith("X:")]
    if len(starts) != 1 or not any(line.startswith("K:") for line in lines):
        raise NoTune(NO_TUNE)
    if len(lines) > MOST_LINES:
        raise NoTune("The tune of this file is too long.")
    return lines[starts[0] :]


class MidiReader(OneAtATime):
    """Reads one MIDI file at a time."""

    def __init__(self) -> None:
        busy = "Another MIDI file is being read. Try again when it is there."
        super().__init__("page.midi_tune", SECONDS_OF_THE_PROCESS, busy, "The process that reads the MIDI file failed")

    def answer(self, asked: Json) -> Json:
        """The tune of a MIDI file that a window sends, or why there is none."""
        data = data_of(asked)
        program = found_program(PROGRAM)  # each time: it may be installed while the page is open
        return self.ask((program, data)) if program else {"why": INSTALL, "missing": True}


def data_of(asked: Json) -> bytes:
    """The bytes of the MIDI file that a window sends."""
    letters = asked.get("data")
    try:
        data = base64.b64decode(letters, validate=True) if isinstance(letters, str) else b""
    except binascii.Error:
        data = b""
    if not data:
        raise Refused(400, "a MIDI file is sent in base 64")
    if len(data) > MOST_BYTES:
        raise Refused(413, f"a MIDI file has at most {MOST_BYTES} bytes")
    return data
