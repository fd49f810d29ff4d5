"""A port for one server after another of a process of tests."""

import errno
import os
import socket

FIRST, COUNT = 11_000, 9_000  # below those that the system chooses, and those that depend on the names of books


class Reserved:
    """A port that no other process of tests reserves: it is bound at a second address of this machine."""

    def __init__(self) -> None:
        self.socket = socket.socket()
        tried = (FIRST + (os.getpid() + number) % COUNT for number in range(COUNT))
        self.number = next(port for port in tried if self.is_bound(port))

    def is_bound(self, port: int) -> bool:
        """Binds the port at the second address, and returns whether that went well."""
        try:
            self.socket.bind(("127.0.0.2", port))
        except OSError as error:
            if error.errno != errno.EADDRINUSE:
                raise
            return False
        return True

    def free_number(self) -> int:
        """The number of the port, or 0, which is any free one, if a server has it now."""
        with socket.socket() as tried:
            tried.setsockopt(socket.SOL_SOCKET, socket.SO_REUSEADDR, 1)
            try:
                tried.bind(("127.0.0.1", self.number))
            except OSError:
                return 0
        return self.number
