"""A process of one's own for work that is not to hold up the client."""

import os
import pickle
import subprocess
import sys
import threading
from collections.abc import Callable
from contextlib import suppress
from pathlib import Path
from typing import Any, Optional

import abc2midi_live
import abc2midi_live_clients

ENDED = (EOFError, OSError, ValueError, pickle.UnpicklingError)  # one of these is raised if the process ended


class Overdue(EOFError):
    """The process took too long for an answer, and was killed."""


class OwnProcess:
    """A process that answers questions by the function `serve` of a module of this package, called with these words. It ends with the
    client. It runs no module of the present folder, and reads no variable `PYTHON..` of the environment."""

    def __init__(self, module: str, *words: Optional[str], **environment: str) -> None:
        folders = [str(Path(file).resolve().parent.parent) for file in (abc2midi_live.__file__, abc2midi_live_clients.__file__)]
        start = f"import sys; sys.path[:0] = {folders!r}; from abc2midi_live_clients.{module} import serve; serve(*{words!r})"
        self.process = subprocess.Popen(
            [sys.executable, "-I", "-B", "-c", start], stdin=subprocess.PIPE, stdout=subprocess.PIPE, start_new_session=True,
            env={**os.environ, **environment},
        )  # fmt: skip
        assert self.process.stdin and self.process.stdout
        self.questions, self.answers = self.process.stdin, self.process.stdout

    def ask(self, question: object, seconds: Optional[float] = None) -> Any:
        """The answer to a question. Raises one of `ENDED` if the process ended: Overdue if it took more than `seconds`."""
        if seconds is None:
            return self.answer_to(question)
        is_late = threading.Event()
        limit = threading.Timer(seconds, self.kill_late, [is_late])
        limit.start()
        try:
            return self.answer_to(question)
        except ENDED as error:
            raise Overdue if is_late.is_set() else error from error
        finally:
            limit.cancel()

    def answer_to(self, question: object) -> Any:
        """The answer to a question, whenever it comes. Raises one of `ENDED`."""
        pickle.dump(question, self.questions)
        self.questions.flush()
        return pickle.load(self.answers)

    def kill_late(self, is_late: threading.Event) -> None:
        """Kills a process whose time is over."""
        is_late.set()
        self.process.kill()

    def close(self) -> None:
        """Ends the process."""
        self.process.kill()
        with suppress(OSError):
            self.questions.close()
        self.answers.close()
        self.process.wait()


def answer_all(answer: Callable[[Any], object], niceness: int) -> None:
    """Answers questions till there are no more."""
    os.nice(niceness)
    questions, answers = sys.stdin.buffer, sys.stdout.buffer
    with suppress(EOFError, OSError, pickle.UnpicklingError):
        while True:
            pickle.dump(answer(pickle.load(questions)), answers)
            answers.flush()
