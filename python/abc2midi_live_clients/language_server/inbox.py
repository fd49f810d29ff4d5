"""The messages of an editor, read before they are handled, so that it can cancel requests that wait."""

import json
import select
from collections import deque
from typing import Any, BinaryIO, Optional

from .messages import BadMessage, read_message

MOST_WAITING = 1_000  # messages that are read before the first of them is handled
CANCEL = "$/cancelRequest"
NO_JSON = object()  # stands for a message that is no JSON


class Inbox:
    """The messages that wait. The stream has no buffer, so that `select` sees all that has come."""

    def __init__(self, stream: BinaryIO):
        self.stream = stream
        self.waiting: deque[Any] = deque()
        self.cancelled: list[Any] = []  # the identifiers of requests that wait
        self.is_at_end = False
        self.bad: Optional[BadMessage] = None  # the end of the input, if it is a message without a length

    def has_more(self, seconds: float) -> bool:
        """Returns whether a message waits, or the input goes on or ends within some time."""
        return bool(self.waiting) or self.is_at_end or bool(select.select([self.stream], [], [], seconds)[0])

    def next(self) -> tuple[Any, bool]:
        """The next message, and whether it is a request that was cancelled. Raises EOFError at the end of the input."""
        while not self.waiting and not self.is_at_end:
            self.read()
        while len(self.waiting) < MOST_WAITING and not self.is_at_end and select.select([self.stream], [], [], 0)[0]:
            self.read()
        if not self.waiting:
            raise self.bad or EOFError
        message = self.waiting.popleft()
        is_cancelled = is_request(message) and message["id"] in self.cancelled
        if is_cancelled:
            self.cancelled.remove(message["id"])
        return message, is_cancelled

    def read(self) -> None:
        """Reads one message."""
        try:
            data = read_message(self.stream)
        except BadMessage as bad:
            self.is_at_end, self.bad = True, bad
            return
        if data is None:
            self.is_at_end = True
            return
        message = parsed(data)
        if isinstance(message, dict) and message.get("method") == CANCEL and "id" not in message:
            self.cancel(message.get("params"))
        else:
            self.waiting.append(message)

    def cancel(self, params: Any) -> None:
        """Notes a request that is cancelled, if it waits."""
        identifier = params.get("id") if isinstance(params, dict) else None
        if any(is_request(message) and message["id"] == identifier for message in self.waiting):
            self.cancelled.append(identifier)


def parsed(data: bytes) -> Any:
    """A message, or `NO_JSON`."""
    try:
        return json.loads(data)
    except (ValueError, RecursionError):
        return NO_JSON


def is_request(message: Any) -> bool:
    """Returns whether a message waits for an answer."""
    return isinstance(message, dict) and "method" in message and "id" in message
