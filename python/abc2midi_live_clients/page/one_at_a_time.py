"""Work of which the server does one at a time, in a process of its own, which ends with it."""

import os
import tempfile
import threading
from typing import Optional

from ..common.json_object import Json
from .own_process import ENDED, OwnProcess


class OneAtATime:
    """Asks the function `serve` of a module of this package one question at a time. `busy` is the answer to a question that comes meanwhile,
    and `failed` begins the sentence on a process that gave none."""

    def __init__(self, module: str, seconds: float, busy: str, failed: str) -> None:
        self.module, self.seconds, self.busy, self.failed = module, seconds, busy, failed
        self.turn = threading.Lock()
        self.process: Optional[OwnProcess] = None
        self.is_closed = False

    def close(self) -> None:
        """Ends the process, also while it works."""
        self.is_closed = True
        process = self.process
        if process:
            process.process.kill()

    def ask(self, question: object) -> Json:
        """What the process answers, or why it gave no answer."""
        if not self.turn.acquire(blocking=False):
            return {"why": self.busy}
        try:
            with tempfile.TemporaryDirectory() as folder:
                return self.ask_process(question, folder)
        except ENDED as error:
            reason = os.strerror(error.errno) if isinstance(error, OSError) and error.errno else "it ended"
            return {"why": f"{self.failed}: {reason}."}
        finally:
            self.turn.release()

    def ask_process(self, question: object, folder: str) -> Json:
        """What a process answers that has all of its files in a folder. Raises one of `ENDED`."""
        process = self.process = OwnProcess(self.module, TMPDIR=folder)
        try:
            if self.is_closed:
                raise EOFError
            found: Json = process.ask(question, self.seconds)
            return found
        finally:
            self.process = None
            process.close()
