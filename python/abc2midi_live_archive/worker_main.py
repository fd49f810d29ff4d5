"""The process of a worker: takes units from the process that started it, and sends what came of each."""

from __future__ import annotations

import gc
import os
import select
import threading
from contextlib import suppress
from multiprocessing.connection import Connection

from .compiling import do_unit
from .limits import limit_memory
from .units import Outcome, Result, Unit
from .worker_process import children_of, kill_groups

SECONDS_IDLE = 60.0  # after them a worker ends
MOST_UNSEEN = 50_000  # objects that are made before Python looks for cycles of them: rows of tunes are none


def serve(descriptor: int) -> None:
    """Does the units that come over a connection, until there are no more, or nobody is at its other end."""
    os.set_inheritable(descriptor, False)
    gc.set_threshold(MOST_UNSEEN)
    threading.Thread(target=end_with_starter, args=(descriptor,), daemon=True).start()
    with Connection(descriptor) as connection, suppress(EOFError, ConnectionError):
        while connection.poll(SECONDS_IDLE):
            unit: Unit = connection.recv()
            limit_memory(unit.limits.memory)
            answer(connection, unit)


def answer(connection: Connection, unit: Unit) -> None:
    """Does a unit, and sends what came of it: its result may need more memory than the book."""
    try:
        connection.send(do_unit(unit))
    except MemoryError:
        connection.send(Result(Outcome.FAILED, unit.limits.too_large))


def end_with_starter(descriptor: int) -> None:
    """Ends this process and the program that it started as soon as the other end of a connection is closed. It is closed when the
    process there ends, in whatever way."""
    starter = select.poll()
    starter.register(descriptor, select.POLLRDHUP)
    starter.poll()
    kill_groups([*children_of(os.getpid()), os.getpid()])
