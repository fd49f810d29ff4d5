"""The WebSocket of the page: its frames, what the server answers to messages, and the page with a socket and without one."""

import io
import json
import socket
import struct
import unittest
from collections.abc import Iterator
from contextlib import contextmanager
from email.message import Message
from importlib.util import find_spec
from typing import Any, Optional
from unittest import mock

import browser
import served_page
import test_page_in_browser
import trial
from abc2midi_live_clients.page import web_socket
from abc2midi_live_clients.page.web_socket import BadMessage, WebSocket, answering_headers, version
from forked_server import ForkedServer

KEY, ACCEPTED = "dGhlIHNhbXBsZSBub25jZQ==", "s3pPLMBiTxaQ9kYGzzhZRbK+xOo="  # the example of RFC 6455
TEXT, BINARY, CLOSE, PING = 1, 2, 8, 9  # kinds of frames
MASK = b"\x37\xfa\x21\x3d"  # likewise
NAMES = "return performance.getEntriesByType('resource').map(({ name }) => name.replace(/.*[/]([a-z]+)([/]\\d+)?$/, '$1'))"
WATCHED = "window.sockets = []; window.WebSocket = class extends WebSocket { constructor(address) { super(address); sockets.push(this); } };"


def masked(kind: int, data: bytes, is_last: bool = True) -> bytes:
    """A frame of a browser."""
    length = bytes([0x80 | len(data)]) if len(data) < 126 else bytes([0x80 | 126]) + struct.pack(">H", len(data))
    return bytes([0x80 * is_last | kind]) + length + MASK + bytes(byte ^ MASK[n % 4] for n, byte in enumerate(data))


def setUpModule() -> None:
    """Skips all if the package is missing. Debian's packages may be those of this Python."""
    browser.lacking()
    if not find_spec("wsproto"):
        raise unittest.SkipTest("python3-wsproto is not installed, or not for this Python")


class Frames(unittest.TestCase):
    """Frames by the examples of RFC 6455."""

    def socket(self, sent: bytes, most: int = 100_000) -> tuple[WebSocket, io.BytesIO]:
        """A socket over bytes that a browser sent, and what it answers."""
        answers = io.BytesIO()
        return WebSocket(io.BytesIO(sent), answers, most), answers

    def test_the_key(self) -> None:
        headers = Message()
        headers["Sec-WebSocket-Key"] = KEY
        self.assertEqual(answering_headers(headers)["Sec-WebSocket-Accept"], ACCEPTED)

    def test_messages_that_come(self) -> None:
        """They have any length up to the most, come in several frames, and nothing is read after the end."""
        hello = bytes.fromhex("818537fa213d7f9f4d5158")
        self.assertEqual(list(self.socket(hello, 5)[0].messages()), [b"Hello"])
        self.assertEqual(list(self.socket(hello[:-1])[0].messages()), [])
        for length in (1, 125, 126, 65_535):
            data = bytes(n % 251 for n in range(length))
            self.assertEqual(list(self.socket(masked(BINARY, data), length)[0].messages()), [data], length)
        parts = masked(TEXT, b"Hel", False) + masked(PING, b"Hello") + masked(0, b"lo")
        messages, answers = self.socket(parts + masked(BINARY, b"\xff") + masked(CLOSE, b"\x03\xe8") + masked(TEXT, b"late"))
        self.assertEqual((list(messages.messages()), answers.getvalue()), ([b"Hello", b"\xff"], b"\x8a\x05Hello\x88\x02\x03\xe8"))

    def test_messages_that_go(self) -> None:
        for length, head in ((5, "8205"), (256, "827e0100"), (65_536, "827f0000000000010000")):
            messages, answers = self.socket(b"")
            messages.send(bytes(length))
            self.assertEqual(answers.getvalue(), bytes.fromhex(head) + bytes(length))
        messages, answers = self.socket(b"")
        messages.send("Hello")
        self.assertEqual(answers.getvalue(), b"\x81\x05Hello")

    def test_without_the_package(self) -> None:
        """A page does not ask for a socket."""
        self.assertEqual(version(), {"Sec-WebSocket-Version": "13"})
        with mock.patch.object(web_socket, "find_spec", lambda _: None):
            self.assertEqual(version(), {})

    def test_what_is_too_long(self) -> None:
        """A message, also in parts."""
        for sent in (masked(TEXT, b"12345"), masked(TEXT, b"123", False) + masked(0, b"45")):
            with self.assertRaises(BadMessage):
                list(self.socket(sent, 4)[0].messages())

    def test_frames_that_no_browser_sends(self) -> None:
        """They end the connection, with a reason: one without a mask, and text that is not UTF-8."""
        for sent, status in ((b"\x81\x05Hello", 1002), (masked(TEXT, b"\xff"), 1007)):
            messages, answers = self.socket(sent + masked(TEXT, b"late"))
            self.assertEqual(list(messages.messages()), [])
            self.assertEqual((answers.getvalue()[:1], answers.getvalue()[2:4]), (b"\x88", struct.pack(">H", status)))


class Messages(served_page.Page):
    """What the server answers to messages. It is a fork, which has the packages of this process."""

    def begun(self, words: list[str], environment: dict[str, str], _: int) -> ForkedServer:
        return ForkedServer(words, environment)

    def head(self, **more: Optional[str]) -> bytes:
        """A request for a socket, with some headers otherwise."""
        headers = {"Host": f"127.0.0.1:{self.port}", "Origin": f"http://127.0.0.1:{self.port}", "Upgrade": "websocket", "Connection": "Upgrade"}
        headers |= {"Sec-WebSocket-Version": "13", "Sec-WebSocket-Key": KEY, **{name: value for name, value in more.items() if value}}
        rows = [f"{name}: {value}\r\n" for name, value in headers.items() if name not in more or more[name]]
        return f"GET /{self.token}/socket HTTP/1.1\r\n{''.join(rows)}\r\n".encode()

    @contextmanager
    def connected(self) -> Iterator[Any]:
        """A stream of a window that the server accepted."""
        with socket.create_connection(("127.0.0.1", self.port), trial.SECONDS) as connection:
            connection.sendall(self.head())
            stream = connection.makefile("rwb")
            self.assertEqual(stream.readline(), b"HTTP/1.1 101 Switching Protocols\r\n")
            rows = list(iter(stream.readline, b"\r\n"))
            self.assertIn(f"Sec-WebSocket-Accept: {ACCEPTED}\r\n".encode(), rows)
            yield stream
            stream.close()

    def answer(self, stream: Any, name: str, body: Any, number: int = 7) -> bytes:
        """The data that answers a message."""
        stream.write(masked(1, json.dumps({"number": number, "name": name, "body": body}).encode()))
        stream.flush()
        _, length = stream.read(2)
        return bytes(stream.read(int.from_bytes(stream.read(2), "big") if length == 126 else length))

    def object_of(self, stream: Any, name: str, body: Any) -> Any:
        """The object that answers a message."""
        return json.loads(self.answer(stream, name, body))

    def test_edits_views_and_files(self) -> None:
        """They are answered as requests are, one after another."""
        known = {"run": self.ask("state")["run"], "version": 0}
        sight = {"from": 3, "to": 4, "tune": 1}
        with self.connected() as stream:
            viewed = self.object_of(stream, "view", {**known, "sees": sight})
            self.assertEqual(viewed, {"number": 7, "status": 200, "answer": self.ask("view", {**known, "sees": sight})})
            self.assertEqual(self.answer(stream, "midi/1", {}, 258), b"\x00\x00\x01\x02" + self.request("midi/1")[2])
            made = self.object_of(stream, "edit", {**known, "start": 3, "stop": 4, "lines": ["é"]})
            self.assertEqual((made["status"], made["answer"]), (200, self.ask("news/0/window")["changes"][0]))
            self.assertEqual(self.book()["lines"][3], "é")
            late = self.object_of(stream, "edit", {**known, "start": 3, "stop": 4, "lines": ["C"]})
            self.assertEqual((late["status"], late["answer"]["version"]), (409, 1))
            self.assertEqual([self.object_of(stream, name, {})["status"] for name in ("midi/3", "midi/x", "save", "book")], [404] * 4)
        self.finish()

    def test_messages_that_are_none(self) -> None:
        """They end the connection, and nothing else."""
        for data in (b"[]", b"{", b'{"number": -1, "name": "edit", "body": {}}', b'{"number": 1, "name": "edit"}'):
            with self.connected() as stream:
                stream.write(masked(1, data))
                stream.flush()
                self.assertEqual(stream.read(), b"", data)
        self.assertEqual(self.book()["version"], 0)
        self.finish()

    def test_requests_that_are_refused(self) -> None:
        """Those of another page, and those for something else than a socket."""
        refused = {"Origin": "http://example.org", "Host": "example.org"}
        for name, status in (("Origin", b"403"), ("Host", b"403"), ("Upgrade", b"426"), ("Sec-WebSocket-Version", b"426"), ("Sec-WebSocket-Key", b"426")):
            self.assertEqual(self.raw(self.head(**{name: refused.get(name)}))[9:12], status, name)
        self.token = "x" * 32
        self.assertEqual(self.raw(self.head())[9:12], b"403")


class InBrowser(test_page_in_browser.Browser):
    """The page."""

    opening = b"X:1\nL:1/1\nK:C\nC\n"

    def load_with(self, script: str) -> None:
        """Opens the page after a script."""
        added = self.driver.execute_cdp_cmd("Page.addScriptToEvaluateOnNewDocument", {"source": script})
        self.addCleanup(self.driver.execute_cdp_cmd, "Page.removeScriptToEvaluateOnNewDocument", added)
        self.load()

    def asked_for_a_key(self) -> list[str]:
        """What the page asked by requests after a letter was typed, till its answer and the file of its tune are there."""
        self.wait(lambda: self.text("time").endswith("/ 0:02"))
        before = len(self.run_script(NAMES))
        self.type(test_page_in_browser.END, test_page_in_browser.CONTROL)
        self.type("D")
        self.wait(lambda: self.text("status").startswith("changed 1.mid"))
        self.wait(lambda: self.text("time").endswith("/ 0:04"))  # two whole notes
        return list(self.run_script(NAMES))[before:]

    @test_page_in_browser.opens_the_page
    def test_with_a_socket(self) -> None:
        """A key needs no request."""
        self.load_with(WATCHED)
        self.wait(lambda: self.run_script("return sockets.some(({ readyState }) => readyState === WebSocket.OPEN)"))
        self.assertEqual([name for name in self.asked_for_a_key() if name in ("edit", "midi")], [])

    @test_page_in_browser.opens_the_page
    def test_without_a_socket(self) -> None:
        """Then all is asked by requests."""
        self.load_with("delete window.WebSocket;")
        self.assertEqual([name for name in self.asked_for_a_key() if name in ("edit", "midi")], ["edit", "midi"])
