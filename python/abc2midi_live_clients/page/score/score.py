"""The score of a tune: the staves that `abcm2ps` draws, within limits of time, memory and output."""

import json
from pathlib import Path
from typing import NamedTuple, Optional

from ...common.line_places import utf16, utf8
from ..own_process import answer_all
from .limits import DRAWING, FILES, FILTER
from .readable_lines import TuneLine, header_lines, tune_lines
from .svg_markup import NoDrawing, Node, images_of
from .walled_program import OUTER, Killed, Output, TooLarge, TooLate, is_outer_installed, output_of

MOST_LINES, MOST_CHARACTERS = 2_000, 100_000  # of a tune that is drawn; score_view.js sends no more than 5,000 lines
MOST_BYTES = 2 << 20  # of a drawing
SECONDS = 10  # that a drawing may take by the clock; `limits` has those of the processor
NARROWEST, WIDEST = 240, 2_000  # pixels
WIDTH_OF_FULL_SIZE, LEAST_SCALE = 800, 0.7  # staves are smaller if there is less room
ENVIRONMENT: dict[str, str] = {}
LATE = "abcm2ps took too long for this tune."
NICENESS = 5
NO_FILTER = "abcm2ps may open connections and start programs here. To prevent that, install libseccomp: sudo apt install libseccomp2"
NO_FOLDERS = "abcm2ps may read your files here. To prevent that, install bubblewrap: sudo apt install bubblewrap"
NO_NAMESPACES = "abcm2ps may read your files here: this system lets bubblewrap make no user namespaces."
WALLS = {OUTER: "bubblewrap", FILES: "Landlock", FILTER: "a list of system calls"}
LIMITS = str(Path(__file__).resolve().parent / "limits.py")
MARGINS = ["--leftmargin", "4pt", "--rightmargin", "4pt", "--topmargin", "4pt", "--botmargin", "4pt"]
OPTIONS = ["-q", "-S", "+F", "-k", "1024", "--pango", "0", *MARGINS, "--topspace", "0pt", "--staffsep", "36pt"]
TO_OUTPUT = ["-v", "-A", "-O-", "-"]  # `-g` fails on long tunes
SCREEN = ["--pageheight", "25cm"]  # short pages: the page fills those that are seen first
PAPER = ["--pageheight", "24.5cm", "--pagewidth", "18cm", "-s", "0.75"]  # within the margins of A4 and of Letter


class NoScore(Exception):
    """Why there is no score, as a sentence."""


class NoScoreNow(NoScore):
    """Why there is no score at present. The reason is not the tune, so a later try may draw it."""


class Answer(NamedTuple):
    """What became of a tune, as JSON, and whether a later try gives the same."""

    data: bytes
    is_final: bool


class Question(NamedTuple):
    """The lines of a file header and of a tune, how many pixels wide the staves are to be on a screen, None for pages of
    paper, and by how many semitones they are higher than the tune."""

    header: tuple[str, ...]
    tune: tuple[str, ...]
    width: Optional[int]
    transpose: int = 0


def serve() -> None:
    """Answers questions till there are no more: each is a program and a question."""
    answer_all(lambda asked: answer(*asked), NICENESS)


class Score(NamedTuple):
    """The images of a tune, what to say beside them, which may be nothing, and the walls in which they were drawn."""

    images: list[Node]
    note: str
    walls: str


def answer(program: str, question: Question) -> Answer:
    """The images of a tune, or why there are none."""
    try:
        return Answer(json.dumps(score_of(program, question)._asdict()).encode(), True)
    except NoScore as why:
        return Answer(refusal_json(str(why)), not isinstance(why, NoScoreNow))


def refusal_json(why: str, **more: bool) -> bytes:
    """Why there is no score, as JSON."""
    return json.dumps({"why": why, **more}).encode()


def score_of(program: str, question: Question) -> Score:
    """The images that a program draws of a tune, or `NoScore`. A `place` in them is a note: its row is the line of the tune,
    counted from 0, and its column counts there in UTF-16 units."""
    if len(question.tune) > MOST_LINES or sum(map(len, question.tune + question.header)) > MOST_CHARACTERS:
        raise NoScore("This tune is too long to be drawn.")
    header, tune = [*transposition(question.transpose), *header_lines(question.header)], tune_lines(question.tune)
    if not any(line.readable.startswith("K:") for line in tune):
        raise NoScore("abcm2ps draws no tune that has no K: line.")
    drawn = drawing(program, question.width, "\n".join([*header, "", *(line.readable for line in tune), ""]).encode())
    try:
        found = images_of(drawn.data)
    except NoDrawing as error:
        raise NoScore(f"abcm2ps drew nothing that can be shown: {error}.") from error
    placed = [image for image in found if in_tune(image, len(header) + 2, tune)]
    if not placed:
        raise NoScore("This tune has no notes to draw.")
    return Score(placed, note_on(drawn.walls), names_of(drawn.walls))


def transposition(semitones: int) -> list[str]:
    """The line that has `abcm2ps` draw higher, which no book can write."""
    return [f"%%transpose {semitones}"] if semitones else []


def note_on(walls: frozenset[str]) -> str:
    """What to say about walls that are missing; nothing if others are there instead."""
    if FILTER not in walls:
        return NO_FILTER
    if not walls & {OUTER, FILES}:
        return NO_NAMESPACES if is_outer_installed() else NO_FOLDERS
    return ""


def names_of(walls: frozenset[str]) -> str:
    """The walls as a sentence."""
    found = [words for wall, words in WALLS.items() if wall in walls]
    return f"abcm2ps runs within limits of time and memory, and within: {', '.join(found) or 'no other wall'}."


def in_tune(node: Node, first: int, tune: list[TuneLine]) -> bool:
    """Gives the places in a node the lines and the columns of the tune. Returns whether there is a note in it."""
    has_notes = False
    for child in [child for child in node[2:] if isinstance(child, list)]:
        if child[0] != "place":
            has_notes = in_tune(child, first, tune) or has_notes
            continue
        row = child[1].pop("row") - first
        if 0 <= row < len(tune):
            before = utf8(tune[row].text)[: child[1].pop("col")].decode("utf-8", "ignore")
            child[1] |= {"row": row, "column": len(utf16(before)) // 2}
            has_notes = True
        else:
            node.remove(child)
    return has_notes


def form_of(width: Optional[int]) -> list[str]:
    """How `abcm2ps` draws: for a pane of this width in pixels, or on pages of paper."""
    if width is None:
        return PAPER
    pixels = min(max(width, NARROWEST), WIDEST)
    scale = min(max(pixels / WIDTH_OF_FULL_SIZE, LEAST_SCALE), 1)
    return [*SCREEN, "--pagewidth", f"{pixels / 96:.3f}in", "-s", f"{scale:.2f}"]


def drawing(program: str, width: Optional[int], text: bytes) -> Output:
    """What `abcm2ps` writes for a text."""
    command = [LIMITS, DRAWING, program, *OPTIONS, *form_of(width), *TO_OUTPUT]
    try:
        return output_of(command, text, ENVIRONMENT, SECONDS, MOST_BYTES)
    except TooLate as error:
        raise NoScore(LATE) from error
    except TooLarge as error:
        raise NoScore("The score of this tune is too large to be shown.") from error
    except Killed as error:
        raise NoScore(f"abcm2ps failed on this tune: {error}.") from error
    except OSError as error:
        raise NoScoreNow(f"abcm2ps cannot be run: {error.strerror}.") from error
