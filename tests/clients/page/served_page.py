"""The server of the page as a process of its own, for tests that ask it."""

import http.client
import json
import os
import re
import resource
import signal
import socket
import subprocess
import sys
import time
from collections.abc import Callable, Iterator
from contextlib import contextmanager
from email.message import Message
from pathlib import Path
from typing import Any, Optional, Union

import trial
from abc2midi_live_clients.common.json_object import Json
from forked_server import ForkedServer

BOOK = b"X:1\nT:Kesh\nK:G\nGABc &\n\nX:2\nK:C\nCDE -\n"
UNSAVED = "page: the text is not saved; the browser keeps it, and offers it when the page is at port {} again\n"


class Page(trial.Folder):
    """The server as a process of its own, over a book."""

    opening = BOOK

    def setUp(self) -> None:
        super().setUp()
        self.path = self.folder / "book.abc"
        self.path.write_bytes(self.opening)
        self.start(str(self.path))

    def free_port(self) -> int:
        """The port of a server whose test names none: 0 is any free one."""
        return 0

    def start(self, *words: str, port: Optional[str] = "", descriptors: int = 1024, hints: bool = False, font: str = "") -> None:
        """Starts it, with a folder for what it leaves, and a limit of descriptors. With None for a port it has that of its book. Without
        a SoundFont the sounds are plain."""
        options = [*([] if port is None else ["--port", port or str(self.free_port())]), *([] if hints else ["--no-hints"])]
        options += ["--sound-font", font] if font else ["--plain-sounds"]
        environment = {"TMPDIR": str(self.files), "XDG_STATE_HOME": str(self.folder / "state")}
        self.server = self.begun([*words, *options, "--library", trial.library], environment, descriptors)
        self.limit(self.server)
        assert self.server.stdout
        self.address = self.server.stdout.readline().decode().strip()
        found = re.fullmatch(r"http://127\.0\.0\.1:(\d+)/([\w-]{32})/", self.address)
        assert found, self.address
        self.port, self.token = int(found[1]), found[2]

    def begun(self, words: list[str], environment: dict[str, str], descriptors: int) -> "Union[subprocess.Popen[bytes], ForkedServer]":
        """The process of the command with these words."""
        return subprocess.Popen(
            [sys.executable, str(trial.clients / "page"), *words],
            stdout=subprocess.PIPE, stderr=subprocess.PIPE, env={**os.environ, **environment},
            preexec_fn=lambda: resource.setrlimit(resource.RLIMIT_NOFILE, (descriptors, descriptors)),
        )  # fmt: skip

    def request(
        self, name: str, asked: Any = None, headers: Optional[dict[str, str]] = None, path: Optional[str] = None
    ) -> tuple[int, Message, bytes]:
        """The status, the headers and the bytes that answer a request: one that brings `asked`, if there is any."""
        connection = http.client.HTTPConnection("127.0.0.1", self.port, timeout=trial.SECONDS)
        data = asked if asked is None or isinstance(asked, bytes) else json.dumps(asked).encode()
        connection.request("GET" if asked is None else "POST", path or f"/{self.token}/{name}", data, headers or {})
        answer = connection.getresponse()
        found = answer.status, answer.headers, answer.read()
        connection.close()
        return found

    def ask(self, name: str, asked: Any = None) -> Json:
        """The object that answers a request, with its status if it is an error."""
        status, _, data = self.request(name, asked)
        return {**json.loads(data), **({"status": status} if status != 200 else {})}

    def book(self) -> Json:
        return self.ask("book")

    def edit(self, start: int, stop: int, *lines: Any) -> Json:
        """What answers an edit of the present text."""
        state = self.ask("state")
        asked = {"run": state["run"], "version": state["version"], "start": start, "stop": stop, "lines": lines}
        return self.ask("edit", asked)

    def save(self, **more: Any) -> Json:
        """What answers a save of the present text."""
        state = self.ask("state")
        return self.ask("save", {"run": state["run"], "version": state["version"], **more})

    def finish(self, by: signal.Signals = signal.SIGTERM, new: Union[str, Path] = "") -> None:
        """Ends the server, which leaves nothing. It printed nothing, but for the name of a new book, and where unsaved text is."""
        is_unsaved = self.ask("state")["unsaved"]
        self.server.send_signal(by)
        said = self.server.communicate(timeout=trial.SECONDS)
        wanted = f"page: {new}: there is no such file; the page begins with an empty text, and the first save makes the file\n" if new else ""
        wanted += UNSAVED.format(self.port) if is_unsaved else ""
        self.assertEqual((said, self.server.returncode, os.listdir(self.files)), ((b"", wanted.encode()), 0, []))

    def raw(self, data: bytes) -> bytes:
        """What is answered to bytes, after which nothing more comes."""
        with socket.create_connection(("127.0.0.1", self.port), trial.SECONDS) as connection:
            connection.sendall(data)
            connection.shutdown(socket.SHUT_WR)
            return b"".join(iter(lambda: connection.recv(65536), b""))

    @contextmanager
    def window(self, name: str = "window") -> Iterator[Iterator[Json]]:
        """The messages to a window, one after another, while it is open."""
        head = f"GET /{self.token}/events/0/{name} HTTP/1.1\r\nHost: 127.0.0.1:{self.port}\r\n\r\n".encode()
        with socket.create_connection(("127.0.0.1", self.port), trial.SECONDS) as connection:
            connection.sendall(head)
            stream = connection.makefile("rb")
            yield (json.loads(line) for line in stream if line.startswith(b"{"))
            stream.close()

    def told(self, wanted: Callable[[Json], object]) -> Json:
        """Waits till the state of the book is as wanted."""
        until = time.monotonic() + trial.SECONDS
        while not wanted(state := self.ask("state")):
            self.assertLess(time.monotonic(), until, state)
            time.sleep(0.05)
        return state

    def key(self) -> str:
        """The key of the book, which comes with the page."""
        found = re.search(r'<meta name="key" content="([^"]*)">', self.request("")[2].decode())
        assert found
        return found[1]

    def kept_key(self) -> Path:
        """The only file with a key."""
        (kept,) = (self.folder / "state/abc2midi_live/keys").iterdir()
        return kept
