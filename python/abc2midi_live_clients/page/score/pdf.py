"""The scores of several tunes as a PDF: `abcm2ps` draws pages of A4, and Ghostscript writes them as a PDF, each within limits."""

import base64
from typing import NamedTuple

from ...common.json_object import Json
from ..one_at_a_time import OneAtATime
from ..own_process import answer_all
from ..refused import Refused
from .limits import CONVERTING, DRAWING_PAGES
from .readable_lines import header_lines, tune_lines
from .score import ENVIRONMENT, LIMITS, MOST_CHARACTERS, MOST_LINES, NICENESS, note_on
from .scorer import INSTALL, found_program
from .walled_program import Killed, Output, TooLarge, TooLate, output_of

GHOSTSCRIPT = "gs"  # which the command ps2pdf starts
INSTALL_GHOSTSCRIPT = "To store a PDF, install Ghostscript: sudo apt install ghostscript"
SECONDS = 90  # that each of the two programs may take by the clock
SECONDS_OF_THE_PROCESS = 2 * SECONDS + 60  # with what it does beside them
MOST_BYTES = 64 << 20  # that each of them may write
MOST_TUNES = 10_000
PAPER = ["--pagewidth", "21cm", "--pageheight", "29.7cm", "--leftmargin", "1.5cm", "--rightmargin", "1.5cm", "--topmargin", "1.2cm"]
PAGES = ["-q", "-S", "+F", "-k", "1024", "--pango", "1", *PAPER, "--botmargin", "1.2cm", "-s", "0.75", "-O-", "-"]
TO_PDF = ["-q", "-dSAFER", "-dBATCH", "-dNOPAUSE", "-sDEVICE=pdfwrite", "-sOutputFile=-", "-"]


class NoPdf(Exception):
    """Why there is no PDF, as a sentence."""


class Question(NamedTuple):
    """The lines of a file header, and those of tunes."""

    header: list[str]
    tunes: list[list[str]]


def serve() -> None:
    """Answers questions till there are no more: each is two programs and a question."""
    answer_all(lambda asked: answer(*asked), NICENESS)


def answer(drawer: str, converter: str, question: Question) -> Json:
    """The PDF of some tunes, and which of them are not in it; or why there is none."""
    try:
        return pdf_of(drawer, converter, question)
    except NoPdf as why:
        return {"why": str(why)}


def pdf_of(drawer: str, converter: str, question: Question) -> Json:
    """The PDF of some tunes, and which of them are not in it. Raises NoPdf."""
    texts = [readable(tune) for tune in question.tunes]
    drawn = [text for text in texts if text]
    if not drawn:
        raise NoPdf("No tune here can be drawn: each needs a K: line, and is not too long.")
    text = "\n".join([*header_lines(question.header), "", *drawn]).encode()
    pages, converted = run("abcm2ps", [DRAWING_PAGES, drawer, *PAGES], text), b""
    if b"%%Page:" in pages.data:
        converted, _ = run("Ghostscript", [CONVERTING, converter, *TO_PDF], pages.data)
    if not converted.startswith(b"%PDF"):
        raise NoPdf("These tunes have no notes to draw.")
    left = [place for place, text in enumerate(texts) if not text]
    return {"pdf": base64.b64encode(converted).decode(), "left": left, "note": note_on(pages.walls)}


def readable(tune: list[str]) -> str:
    """What `abcm2ps` reads of a tune; nothing if it cannot draw it."""
    if len(tune) > MOST_LINES or sum(map(len, tune)) > MOST_CHARACTERS:
        return ""
    lines = [line.readable for line in tune_lines(tune)]
    return "\n".join([*lines, "", ""]) if any(line.startswith("K:") for line in lines) else ""


def run(name: str, words: list[str], text: bytes) -> Output:
    """What a program writes, and the walls that it has. Raises NoPdf."""
    try:
        return output_of([LIMITS, *words], text, {**ENVIRONMENT, "TMPDIR": "."}, SECONDS, MOST_BYTES)
    except TooLate as error:
        raise NoPdf(f"{name} took too long for these tunes.") from error
    except TooLarge as error:
        raise NoPdf("The PDF of these tunes is too large.") from error
    except Killed as error:
        raise NoPdf(f"{name} failed on these tunes: {error}.") from error
    except OSError as error:
        raise NoPdf(f"{name} cannot be run: {error.strerror}.") from error


class PdfMaker(OneAtATime):
    """Makes one PDF at a time."""

    def __init__(self) -> None:
        busy = "Another PDF is being made. Try again when it is there."
        super().__init__("page.score.pdf", SECONDS_OF_THE_PROCESS, busy, "The process that makes the PDF failed")

    def needs(self) -> Json:
        """What to install before there can be a PDF, which is nothing if all is there."""
        return {"why": INSTALL if not found_program() else "" if found_program(GHOSTSCRIPT) else INSTALL_GHOSTSCRIPT}

    def answer(self, asked: Json) -> Json:
        """The PDF that a window asks for, which sends the lines of the tunes; or why there is none."""
        question = question_of(asked)
        drawer, converter = found_program(), found_program(GHOSTSCRIPT)
        if not drawer or not converter:
            return {**self.needs(), "missing": True}
        return self.ask((drawer, converter, question))


def question_of(asked: Json) -> Question:
    """The question that a window asks."""
    header, tunes = asked.get("header"), asked.get("tunes")
    if not isinstance(tunes, list) or not 0 < len(tunes) <= MOST_TUNES:
        raise Refused(400, f"a PDF has 1 to {MOST_TUNES} tunes")
    for lines in (header, *tunes):
        if not isinstance(lines, list) or not all(isinstance(line, str) for line in lines):
            raise Refused(400, "a tune to be drawn is a list of lines, and so is the file header")
    return Question(header or [], tunes)
