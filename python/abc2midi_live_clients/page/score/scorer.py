"""The scores that windows ask for: each tune is drawn once, in a process of its own."""

import os
import shutil
import tempfile
import threading
from collections import OrderedDict
from typing import Optional

from ...common.json_object import Json
from ..own_process import ENDED, Overdue, OwnProcess
from ..refused import Refused
from .score import SECONDS, Answer, Question, refusal_json

PROGRAM = "abcm2ps"
INSTALL = "To see the score, install abcm2ps: sudo apt install abcm2ps"
SECONDS_IN_A_ROW = 12  # that a request may wait for the one before
SECONDS_OF_THE_PROCESS = SECONDS + 5  # with what it does before and after the program draws
MOST_KEPT = 8  # answers
MOST_SEMITONES = 36  # by which a score is transposed


class Scorer:
    """Draws one tune at a time, in a process that starts with the first. The last final answers are kept, for other windows and for
    a tune that is looked at again. So a text on which `abcm2ps` takes too long is not drawn twice."""

    def __init__(self) -> None:
        self.turn = threading.Lock()
        self.kept: OrderedDict[Question, bytes] = OrderedDict()
        self.process: Optional[OwnProcess] = None
        self.folder: Optional[tempfile.TemporaryDirectory[str]] = None  # has all files of the process
        self.is_closed = False

    def answer(self, asked: Json) -> bytes:
        """The images of a tune, or why there are none, as JSON, for a window that sends its lines."""
        question = question_of(asked)
        program = found_program()  # each time: it may be installed while the page is open
        if not program:
            return refusal_json(INSTALL, missing=True)
        if not self.turn.acquire(timeout=SECONDS_IN_A_ROW):
            return refusal_json("abcm2ps is busy with other tunes.")
        try:
            if question not in self.kept:
                answer = self.ask_process(program, question)
                if not answer.is_final:
                    return answer.data
                self.kept[question] = answer.data
            self.kept.move_to_end(question)
            while len(self.kept) > MOST_KEPT:
                self.kept.popitem(last=False)
            return self.kept[question]
        finally:
            self.turn.release()

    def ask_process(self, program: str, question: Question) -> Answer:
        """What the process answers."""
        try:
            self.folder = self.folder or tempfile.TemporaryDirectory()
            self.process = self.process or OwnProcess("page.score.score", TMPDIR=self.folder.name)
        except OSError as error:
            return Answer(refusal_json(f"The process that draws scores cannot be started: {error.strerror}."), False)
        try:
            answer: Answer = self.process.ask((program, question), SECONDS_OF_THE_PROCESS)
            return answer
        except ENDED as error:
            self.process.close()
            self.process = None
            is_late = isinstance(error, Overdue)
            return Answer(refusal_json(f"The process that draws scores {'took too long for' if is_late else 'ended on'} this tune."), is_late)
        finally:
            if self.is_closed:
                self.close()

    def close(self) -> None:
        """Ends the process, also while a tune is drawn."""
        self.is_closed = True
        if self.process:
            self.process.close()
        if self.folder:
            self.folder.cleanup()


def found_program(name: str = PROGRAM) -> Optional[str]:
    """A program in a folder of the path; relative ones, as that in which the page was started, do not count."""
    return shutil.which(name, path=os.pathsep.join(filter(os.path.isabs, os.get_exec_path())))


def question_of(asked: Json) -> Question:
    """The question that a window asks."""
    header, tune, width = asked.get("header"), asked.get("tune"), asked.get("width")
    for lines in (header, tune):
        if not isinstance(lines, list) or not all(isinstance(line, str) for line in lines):
            raise Refused(400, "a tune to be drawn is a list of lines, and so is the file header")
    if width is not None and type(width) is not int:
        raise Refused(400, "the width of a score is a number of pixels, or null for paper")
    transpose = asked.get("transpose", 0)
    if type(transpose) is not int or abs(transpose) > MOST_SEMITONES:
        raise Refused(400, f"a score is at most {MOST_SEMITONES} semitones higher or lower than its tune")
    return Question(tuple(header or ()), tuple(tune or ()), width, transpose)
