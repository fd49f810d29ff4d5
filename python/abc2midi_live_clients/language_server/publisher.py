"""When the diagnostics of a tune book are sent, and what they are."""

import time

from ..common.json_object import Json
from .diagnostics import diagnostic, remarks_to_send
from .document import Document

REST, MOST_REST = 4, 1.0  # times the seconds that the last diagnostics took; seconds


class Publisher:
    """The documents whose diagnostics are to be sent when no message comes for a while: the longer, the longer they took the last
    time."""

    def __init__(self) -> None:
        self.due: dict[str, None] = {}
        self.seconds_of_rest = 0.0
        self.since = 0.0

    def report(self, uri: str, document: Document, with_links: bool) -> Json:
        """The diagnostics of a tune book."""
        self.since = time.monotonic()
        self.forget(uri)
        diagnostics = [diagnostic(document, remark, with_links) for remark in remarks_to_send(document)]
        version = {} if document.version is None else {"version": document.version}
        return {"uri": uri, "diagnostics": diagnostics, **version}

    def has_sent(self) -> None:
        """The report was sent: measures the next rest by it."""
        self.seconds_of_rest = min(MOST_REST, REST * (time.monotonic() - self.since))

    def forget(self, uri: str) -> None:
        """Nothing is to be sent of a document any more."""
        self.due.pop(uri, None)
