"""A process that does units, and the connection to it.

Each process has a connection of its own, and nobody else has the end at which it writes. So if a process dies in the middle of a
result, the connection ends there, and the reader does not wait for the rest."""

from __future__ import annotations

import os
import signal
import subprocess
import sys
import threading
from collections.abc import Iterable
from contextlib import suppress
from multiprocessing import Pipe
from multiprocessing.connection import Connection
from typing import NamedTuple, Optional

from .units import Outcome, Result, Unit

MAIN = "import sys; sys.path[:] = sys.argv[2:]; from abc2midi_live_archive.worker_main import serve; serve(int(sys.argv[1]))"
SECONDS_TO_DIE = 10.0  # that a killed process may take: while it waits for a broken disk it cannot end


class Started(NamedTuple):
    """A process and this end of its connection."""

    process: "subprocess.Popen[bytes]"
    connection: Connection

    def kill(self) -> None:
        """Kills the process and the program that it started."""
        if self.process.returncode is None:
            kill_groups([*children_of(self.process.pid), self.process.pid])

    def end(self) -> None:
        """Kills the process, waits for its end, and closes the connection."""
        self.kill()
        with suppress(subprocess.TimeoutExpired):
            self.process.wait(SECONDS_TO_DIE)
        self.connection.close()


def children_of(process: int) -> list[int]:
    """Returns the processes that the first thread of a process started and that still run."""
    try:
        with open(f"/proc/{process}/task/{process}/children", encoding="ascii") as file:
            return [int(child) for child in file.read().split()]
    except OSError:  # it has ended, or the system does not say
        return []


def kill_groups(leaders: Iterable[int]) -> None:
    """Kills groups of processes. Each process is the first of its group, since it began a session."""
    for leader in leaders:
        with suppress(ProcessLookupError):
            os.killpg(leader, signal.SIGKILL)


class WorkerProcess:
    """A process that does units, one after another. It is started for the first one, and again after its death. One thread calls
    `do`; any thread may call `stop`."""

    def __init__(self) -> None:
        self.lock = threading.Lock()
        self.started: Optional[Started] = None
        self.is_used = self.is_stopped = False

    def do(self, unit: Unit) -> Optional[Result]:
        """Returns the result of a unit, or None if the process died over it. A unit that failed in a process that had done others
        is tried again in a fresh one, since these may have left less memory. Raises OSError if no process can be started."""
        while started := self.start():
            was_used, self.is_used = self.is_used, True
            result = ask(started, unit)
            if result and result.outcome is not Outcome.FAILED:
                return result
            self.end()
            if not (result and was_used) or result.why == unit.limits.too_slow:
                return result
        return None

    def start(self) -> Optional[Started]:
        """Returns the process. It is started if there is none any more. Returns None after `stop`. Raises OSError."""
        if self.started and self.started.connection.poll():  # nobody asked it: it has ended
            self.end()
        with self.lock:
            if not self.started and not self.is_stopped:
                self.started, self.is_used = start_process(), False
            return None if self.is_stopped else self.started

    def end(self) -> None:
        """Ends the process, if there is one."""
        with self.lock:
            if self.started:
                self.started.end()
                self.started = None

    def stop(self) -> None:
        """Kills the process for good. `do` then returns."""
        self.is_stopped = True
        with self.lock:
            if self.started:
                self.started.kill()


def start_process() -> Started:
    """Starts a process. Ctrl-C in the terminal is not for it, as it has a session of its own. Raises OSError."""
    here, there = Pipe()
    with there:
        descriptor = there.fileno()
        words = [sys.executable, "-I", *["-B"] * sys.dont_write_bytecode, "-c", MAIN, str(descriptor), *filter(None, sys.path)]
        process = subprocess.Popen(words, stdin=subprocess.DEVNULL, pass_fds=[descriptor], start_new_session=True)
    return Started(process, here)


def ask(started: Started, unit: Unit) -> Optional[Result]:
    """Returns the result of a unit, or None if the process ended before it was there as a whole."""
    is_late = threading.Event()

    def kill() -> None:
        is_late.set()
        started.kill()

    timer = threading.Timer(unit.limits.seconds, kill)
    timer.daemon = True
    timer.start()
    try:
        started.connection.send(unit)
        result: Result = started.connection.recv()
        return result
    except (OSError, EOFError):
        return Result(Outcome.FAILED, unit.limits.too_slow) if is_late.is_set() else None
    finally:
        timer.cancel()
