"""What ends a client: signals, and the end of the process that started it."""

import os
import signal
import threading
from collections.abc import Callable
from types import FrameType
from typing import Any, Optional

Handler = Callable[[int, Optional[FrameType]], Any]


def when_told_to_end(end: Handler) -> None:
    """Calls `end` on SIGTERM, and on SIGHUP (the terminal closes) unless `nohup` started the client."""
    signal.signal(signal.SIGTERM, end)
    if signal.getsignal(signal.SIGHUP) is not signal.SIG_IGN:
        signal.signal(signal.SIGHUP, end)


def when_the_parent_ends(end: Callable[[], Any]) -> None:
    """Calls `end` if the process that started this one ends, by SIGKILL too: then standard input, which is a pipe of it, ends.
    The thread reads no `sys.stdin`, whose lock would be in the way of an exit."""

    def wait() -> None:
        while os.read(0, 1):
            pass
        end()

    threading.Thread(target=wait, daemon=True).start()
