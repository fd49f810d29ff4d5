"""A server of files on this machine, as any web server."""

from __future__ import annotations

import functools
import http.server
import threading
from pathlib import Path
from typing import Optional


class Quiet(http.server.SimpleHTTPRequestHandler):
    """Prints nothing."""

    def log_message(self, *words: object) -> None:
        pass


class FileServer:
    """A server of a folder, which can be stopped and started again at its port."""

    def __init__(self, folder: Path):
        self.folder = folder
        self.port = 0
        self.start()

    def start(self) -> None:
        handler = functools.partial(Quiet, directory=str(self.folder))
        self.server: Optional[http.server.ThreadingHTTPServer] = http.server.ThreadingHTTPServer(("127.0.0.1", self.port), handler)
        self.port = self.server.server_port
        threading.Thread(target=self.server.serve_forever, daemon=True).start()

    def stop(self) -> None:
        if self.server:
            self.server.shutdown()
            self.server.server_close()
        self.server = None

    @property
    def origin(self) -> str:
        return f"http://127.0.0.1:{self.port}"
