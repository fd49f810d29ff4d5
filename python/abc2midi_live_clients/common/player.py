"""Players of MIDI files."""

import os
import shlex
import signal
import subprocess
import threading
import time
from contextlib import suppress
from typing import Optional

STANDARD_ERROR = 2
SECONDS_TO_END = 1  # for a player that is asked to end
SECONDS_BETWEEN_LOOKS = 0.01


def command(text: str) -> list[str]:
    """The words of a command, as the option `--play` has it. Raises ValueError if there is none."""
    words = shlex.split(text)
    if not words:
        raise ValueError
    return words


class Player:
    """A command that plays one MIDI file at a time. Its output goes to standard error. What it starts ends with it."""

    def __init__(self, words: list[str]):
        self.words = words
        self.process: Optional[subprocess.Popen[bytes]] = None
        self.is_reported = False  # that it ended

    def play(self, path: str) -> None:
        """Plays a file, and stops the one before."""
        self.stop()
        words = [*self.words, path]
        self.process = subprocess.Popen(words, stdin=subprocess.DEVNULL, stdout=STANDARD_ERROR, start_new_session=True)
        self.is_reported = False

    def failure(self) -> Optional[str]:
        """How the player ended, if it failed since the last call, else None."""
        ended = result_of(self.process.pid) if self.process and not self.is_reported else None
        if ended is None:
            return None
        self.is_reported = True
        if ended.si_code != os.CLD_EXITED:
            return f"was killed by signal {ended.si_status}"
        return f"ended with status {ended.si_status}" if ended.si_status else None

    def stop(self) -> None:
        """Ends the player and what it started. Nobody waits for those that take long."""
        if self.process:
            signal_group(self.process, signal.SIGTERM)
            threading.Thread(target=end, args=[self.process]).start()
            self.process = None


def result_of(process: int) -> Optional[os.waitid_result]:
    """How a process ended, if it did. Its number stays its own, and that of its group."""
    return os.waitid(os.P_PID, process, os.WEXITED | os.WNOHANG | os.WNOWAIT)


def end(process: "subprocess.Popen[bytes]") -> None:
    """Lets a process end within a while, and kills what is left of its group then."""
    until = time.monotonic() + SECONDS_TO_END
    while result_of(process.pid) is None and time.monotonic() < until:
        time.sleep(SECONDS_BETWEEN_LOOKS)
    signal_group(process, signal.SIGKILL)
    process.wait()


def signal_group(process: "subprocess.Popen[bytes]", number: int) -> None:
    """Sends a signal to the group of a process."""
    with suppress(ProcessLookupError, PermissionError):
        os.killpg(process.pid, number)
