"""The messages of a window over one connection, a WebSocket (RFC 6455): a browser takes milliseconds less for a message than for a request.
Debian's `python3-wsproto` reads and writes the frames. Without it there is no WebSocket, and a page asks by requests alone."""

from __future__ import annotations

from collections.abc import Iterator
from email.message import Message
from importlib.util import find_spec
from typing import IO, TYPE_CHECKING, Any, Union, cast

if TYPE_CHECKING:
    from io import BufferedIOBase

VERSION = {"Sec-WebSocket-Version": "13"}  # a header that tells a page that it may ask for a WebSocket
PIECE = 1 << 16  # bytes that are read at once


class BadMessage(Exception):
    """A message is too long, or it asks for nothing."""


def version() -> dict[str, str]:
    """The header of the version of WebSockets that there are here, or nothing."""
    return VERSION if find_spec("wsproto") else {}


def asks_for_socket(headers: Message) -> bool:
    """Whether a request asks for a WebSocket of a version that there is here."""
    is_upgrade = headers.get("Upgrade", "").lower() == "websocket" and "Sec-WebSocket-Key" in headers
    return is_upgrade and headers.get("Sec-WebSocket-Version") in version().values()


def answering_headers(headers: Message) -> dict[str, str]:
    """The headers that accept a WebSocket."""
    from wsproto.utilities import generate_accept_token

    accepted = generate_accept_token(headers["Sec-WebSocket-Key"].strip().encode("latin-1")).decode()
    return {"Upgrade": "websocket", "Connection": "Upgrade", "Sec-WebSocket-Accept": accepted}


class WebSocket:
    """The messages of a connection, none of which has more than `most` bytes."""

    def __init__(self, reader: IO[bytes], writer: IO[bytes], most: int):
        from wsproto import connection, events

        self.known = events
        self.reader = cast("BufferedIOBase", reader)  # of http.server, which may return less than it is asked for
        self.writer = writer
        self.most = most
        self.connection: Any = connection.Connection(connection.ConnectionType.SERVER)

    def messages(self) -> Iterator[bytes]:
        """The messages that come, until the connection ends. Raises BadMessage."""
        message = b""
        for event in self._events():
            if isinstance(event, self.known.Message):
                message += event.data.encode() if isinstance(event, self.known.TextMessage) else bytes(event.data)
                if len(message) > self.most:
                    raise BadMessage(f"a message has at most {self.most} bytes")
                if event.message_finished:
                    yield message
                    message = b""

    def _events(self) -> Iterator[Any]:
        """What comes. A ping and the end are answered."""
        while piece := self.reader.read1(PIECE):
            self.connection.receive_data(piece)
            for event in self.connection.events():
                if isinstance(event, (self.known.Ping, self.known.CloseConnection)):
                    self.writer.write(self.connection.send(event.response()))
                if isinstance(event, self.known.CloseConnection):
                    return
                yield event

    def send(self, message: Union[str, bytes]) -> None:
        """Sends a message: text, or bytes."""
        event = self.known.TextMessage(message) if isinstance(message, str) else self.known.BytesMessage(message)
        self.writer.write(self.connection.send(event))
