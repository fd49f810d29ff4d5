"""A server for this machine alone: a token in each address, and a limit of connections. Whoever showed the token stays; of the
others the oldest go."""

import secrets
import socket
import sys
import threading
import time
from contextlib import suppress
from http.server import BaseHTTPRequestHandler, ThreadingHTTPServer
from typing import Any

MOST_STRANGERS, MOST_GUESTS, MOST_OPEN = 32, 64, 160  # those that are cut are open till their threads end
SECONDS_OF_A_STRANGER = 5  # for the headers of a request, and for a connection that shows no token
SECONDS_FOR_A_DESCRIPTOR = 0.05


class Connections:
    """Connections, each of which is a stranger's till it shows the token: then it is a guest's."""

    def __init__(self) -> None:
        self.lock = threading.Lock()
        self.strangers: dict[socket.socket, float] = {}  # since when, the oldest first
        self.guests: set[socket.socket] = set()
        self.open: set[socket.socket] = set()

    def begin(self, connection: socket.socket) -> bool:
        """Whether a new connection may stay for now. If there are too many strangers, the oldest goes."""
        with self.lock:
            if len(self.open) >= MOST_OPEN:
                return False
            self.open.add(connection)
            self.strangers[connection] = time.monotonic()
            while len(self.strangers) > MOST_STRANGERS:
                self.cut(next(iter(self.strangers)))
            return True

    def welcome(self, connection: socket.socket) -> bool:
        """Whether a connection that showed the token may stay."""
        with self.lock:
            if connection in self.guests:
                return True
            if connection not in self.strangers or len(self.guests) >= MOST_GUESTS:
                return False
            del self.strangers[connection]
            self.guests.add(connection)
            return True

    def end(self, connection: socket.socket) -> None:
        """A connection is closed."""
        with self.lock:
            self.strangers.pop(connection, None)
            self.guests.discard(connection)
            self.open.discard(connection)

    def cut_the_late(self) -> None:
        """Ends the connections of strangers that take too long."""
        latest = time.monotonic() - SECONDS_OF_A_STRANGER
        with self.lock:
            for connection in [one for one, since in self.strangers.items() if since < latest]:
                self.cut(connection)

    def cut(self, connection: socket.socket) -> None:
        """Ends a connection: whoever waits for its bytes finds its end, and closes it."""
        del self.strangers[connection]
        with suppress(OSError):
            connection.shutdown(socket.SHUT_RDWR)


class GuardedServer(ThreadingHTTPServer):
    """A server whose requests are answered by a class of handlers."""

    daemon_threads = True
    request_queue_size = 128

    def __init__(self, port: int, handler: type[BaseHTTPRequestHandler]):
        super().__init__(("127.0.0.1", port), handler)
        self.token = secrets.token_urlsafe(24)
        self.connections = Connections()
        self.hosts = {f"127.0.0.1:{self.server_port}"}  # not localhost: another user may listen at that port of [::1]

    def get_request(self) -> tuple[socket.socket, Any]:
        """The next connection. If there is no descriptor for it, the server waits a moment for one."""
        try:
            connection, address = super().get_request()
        except OSError:
            time.sleep(SECONDS_FOR_A_DESCRIPTOR)
            raise
        if not self.connections.begin(connection):
            connection.close()
            raise OSError("there are too many connections")
        return connection, address

    def shutdown_request(self, request: Any) -> None:
        """Ends a connection."""
        self.connections.end(request)
        super().shutdown_request(request)

    def service_actions(self) -> None:
        """Ends the connections of strangers that take too long."""
        self.connections.cut_the_late()

    def handle_error(self, *_: Any) -> None:
        """Prints what went wrong in a request, but for a window that was closed."""
        if not isinstance(sys.exc_info()[1], ConnectionError):
            super().handle_error(*_)
