"""Requests to the server of the page: who may ask, and what is answered."""

from __future__ import annotations

import hmac
import io
import json
import re
import select
import socket
from collections.abc import Callable
from contextlib import suppress
from http.server import BaseHTTPRequestHandler
from typing import TYPE_CHECKING, Any, Optional, Union

from ..common.json_object import Json
from .refused import Refused
from .served_files import CACHED_FOR_A_YEAR
from .sharing import code_of, keep_address, kept_address
from .web_socket import BadMessage, WebSocket, answering_headers, asks_for_socket, version
from .window_requests import WINDOW

if TYPE_CHECKING:
    from .server import Server

MOST_BYTES = 1 << 25  # of an edit
MOST_OF_A_MESSAGE = 1 << 17  # bytes; what is longer comes as a request
SECONDS_OF_SILENCE = 3  # after which a window hears that the server is there; server_host.js waits longer
MIDI_NAME = r"midi/([0-9]{1,9})"
STORED = {"Content-Disposition": "attachment"}  # a name here would go before that of the link in the page
SAFE = {
    "Cache-Control": "no-store",
    "Content-Security-Policy": "default-src 'none'; script-src 'self'; style-src 'self'; img-src data:; "
    "connect-src 'self'; base-uri 'none'; form-action 'none'; frame-ancestors 'none'",
    "Cross-Origin-Opener-Policy": "same-origin",
    "Cross-Origin-Resource-Policy": "same-origin",
    "Referrer-Policy": "no-referrer",
    "X-Content-Type-Options": "nosniff",
}


class Request(BaseHTTPRequestHandler):
    """One request after another of a browser. A path is the token and a name that is known here, or the number of a
    file: no part of it is ever looked up on disk."""

    server: Server
    protocol_version = "HTTP/1.1"
    server_version, sys_version = "abc2midi_live", ""
    timeout = 60
    disable_nagle_algorithm = True
    is_last = True  # of its connection, if the sender has its way

    def do_GET(self) -> None:
        self.answer_if_permitted(self.get)

    def do_POST(self) -> None:
        self.answer_if_permitted(self.post)

    def answer_if_permitted(self, answer: Callable[[Optional[str]], None]) -> None:
        """Answers a request that may be made, and refuses any other. A connection ends after a body that is not read, as that of a `GET`."""
        try:
            self.is_last = self.close_connection
            has_body = "Content-Length" in self.headers or "Transfer-Encoding" in self.headers
            self.close_connection = self.close_connection or has_body or self.command != "GET"
            self.check_sender()
            if not self.needs_no_token():
                answer(self.checked_path())
        except Refused as refused:
            self.refuse(refused)
        except (BrokenPipeError, ConnectionResetError):
            self.close_connection = True

    def refuse(self, refused: Refused) -> None:
        """Says why a request is refused: in a sentence if a person opened an address."""
        self.close_connection = True
        if self.headers.get("Sec-Fetch-Dest") == "document":
            self.send(f"{refused}\n".encode(), "text/plain; charset=utf-8", status=refused.status)
        else:
            self.send_json(refused.answer, refused.status)

    def send_error(self, code: int, message: Optional[str] = None, explain: Optional[str] = None) -> None:
        """Answers bytes that are no request as other refusals are answered."""
        self.close_connection = True
        self.request_version = self.protocol_version
        self.send_json({"error": message or self.responses[code][0]}, code)

    def check_sender(self) -> None:
        """Refuses the request of another host or page."""
        if len(self.headers.get_all("Host", [])) != 1 or self.headers["Host"] not in self.server.hosts:
            raise Refused(403, "This is another host's request.")
        for origin in self.headers.get_all("Origin", []):
            if origin not in [f"http://{host}" for host in self.server.hosts]:
                raise Refused(403, "This is another page's request.")

    def needs_no_token(self) -> bool:
        """Whether the request has no token, and is answered by a proof or by a file that the browser caches."""
        return self.command == "GET" and (self.is_proof() or self.is_cached())

    def is_proof(self) -> bool:
        """Whether the request is for a proof, and is answered by a proof: by that of the server; or, for a page that brings its own
        proof, by the token of this start."""
        asked = re.fullmatch("/proof/([0-9a-f]{32})(?:/([0-9a-f]{64}))?", self.path)
        if not asked:
            return False
        self.close_connection = True
        server = self.server
        if asked[2] is None:
            self.send_json({"run": server.book.run, "proof": server.proof("server", asked[1])})
        elif hmac.compare_digest(asked[2], server.proof("page", asked[1])):
            self.send_json({"token": server.token})
        else:
            raise Refused(403, "This is no page of this book.")
        return True

    def is_cached(self) -> bool:
        """Whether the request is for a file of the page, at an address that only a page of this book knows: then it is answered."""
        file = self.server.files.cached(self.path)
        if file:
            self.welcome()
            self.send(*file, CACHED_FOR_A_YEAR)
        return bool(file)

    def checked_path(self) -> Optional[str]:
        """The part of the path after the token and its slash, None if the path ends with the token. Refuses another token."""
        path = re.fullmatch("/([^/]*)(?:/(.*))?", self.path)
        if not path or not hmac.compare_digest(path[1].encode(), self.server.token.encode()):
            raise Refused(403, "This address is not the one that the server printed at its present start. Open that one.")
        self.welcome()
        return path[2]

    def welcome(self) -> None:
        """Keeps the connection of someone who knows a secret. Refuses one too many."""
        if not self.server.connections.welcome(self.connection):
            raise Refused(503, "There are too many connections.")

    def get(self, name: Optional[str]) -> None:
        """Answers by a file of the page, the book, a MIDI file, or what happens to the book from now on."""
        if name is None:  # the page names its files from below the token
            self.send(b"", "text/plain", {"Location": f"/{self.server.token}/"}, 308)
            return
        midi = re.fullmatch(MIDI_NAME, name)
        changes = re.fullmatch(r"changes/([0-9]{1,15})", name)
        news = re.fullmatch(rf"(events|news)/([0-9]{{1,15}})/({WINDOW.pattern})", name, re.ASCII)
        book = self.server.book
        answers = {"saved": book.saved_lines, "disk": book.lines_on_disk, "state": book.now, "hints": book.hints_now, "pdf": self.server.pdfs.needs, "share": kept_address}
        if name in self.server.files.by_name:
            self.send(*self.server.files.by_name[name])
        elif name in answers:
            self.send_json(answers[name]())
        elif name == "book":
            self.send_json({**book.snapshot(), "sentences": self.server.sentences})
        elif name == "text":
            self.send(book.data(), "application/octet-stream", STORED)
        elif midi:
            self.send(book.midi(int(midi[1])), "audio/midi", STORED)
        elif name == "midi.zip":
            self.send(book.all_midi(), "application/zip", STORED)
        elif changes:
            self.send_json(book.changes_after(int(changes[1])))
        elif news and news[1] == "events":
            self.send_events(int(news[2]), news[3])
        elif name == "socket":
            self.answer_messages()
        elif news:
            self.send_json(book.news_for(int(news[2]), news[3]))
        elif not self.is_sound(name):
            raise Refused(404, "There is nothing of that name.")

    def is_sound(self, name: str) -> bool:
        """Whether a name is that of the SoundFont, of one of its programs, or of some of its samples: then it is answered."""
        font = self.server.font
        program = re.fullmatch(r"font/([0-9]{1,3})", name)
        samples = re.fullmatch(r"samples/([0-9]{1,10})/([0-9]{1,10})", name)
        if name == "font":
            self.send_json({"name": font.name if font else "", "isPlain": self.server.is_plain})
        elif font and program:
            self.send_json({"zones": font.zones(int(program[1]))})
        elif font and samples:
            self.send(font.samples(int(samples[1]), int(samples[2])), "application/octet-stream")
        return name == "font" or bool(font and (program or samples))

    def post(self, name: Optional[str]) -> None:
        """Follows an edit, looks at lines and a tune, saves the book or a copy, loads the book from disk, draws tunes, reads
        a MIDI file, or keeps the address to which links lead and makes QR codes of them."""
        book = self.server.book
        if name == "score":
            self.send(self.server.scorer.answer(self.body()), "application/json")
            return
        saves = {"save": book.save, "save-in-utf-8": book.save_in_utf8, "save-as": book.save_as}
        others = {"pdf": self.server.pdfs.answer, "midi-tune": self.server.midi_files.answer, "share": keep_address, "code": code_of}
        known = {"edit": book.edit, "view": book.view, **saves, "load": book.load, **others}
        follow = known.get(name or "")
        if follow is None:
            raise Refused(404, "There is nothing of that name.")
        self.send_json(follow(self.body()))

    def body(self) -> Json:
        """The object that a request brings."""
        length = self.headers.get("Content-Length", "")
        if not re.fullmatch("[0-9]{1,15}", length) or "Transfer-Encoding" in self.headers:
            raise Refused(411, "a request says how long it is")
        if int(length) > MOST_BYTES:
            raise Refused(413, f"an edit has at most {MOST_BYTES} bytes")
        data = self.rfile.read(int(length))
        self.close_connection = self.is_last or len(data) < int(length)
        return object_in(data if len(data) == int(length) else b"")

    def send(self, data: bytes, kind: str, more: Optional[dict[str, str]] = None, status: int = 200) -> None:
        """Sends an answer, with more headers where some are given. It goes with its headers: else other threads run between the two."""
        stream, self.wfile = self.wfile, io.BytesIO()
        self.send_response(status)
        headers = {"Content-Type": kind, "Content-Length": len(data), **SAFE, **(more or {})}
        for header, value in headers.items():
            self.send_header(header, str(value))
        if self.close_connection:
            self.send_header("Connection", "close")
        self.end_headers()
        head, self.wfile = self.wfile.getvalue(), stream
        self.wfile.write(head + data)

    def send_json(self, answer: Json, status: int = 200) -> None:
        """Sends an object."""
        self.send(compact(answer).encode(), "application/json", status=status)

    def send_events(self, seen: int, name: str) -> None:
        """Sends each change after a version, and the state of the book, for as long as the window is open: an object a line, and
        an empty line when there is nothing to tell."""
        book = self.server.book
        book.begin_stream(name)
        try:
            self.close_connection = True
            self.send_response(200)
            for header, value in {"Content-Type": "application/x-ndjson", "Connection": "close", **version(), **SAFE}.items():
                self.send_header(header, value)
            self.end_headers()
            last_state: Optional[Json] = None
            while True:
                changes, state = book.news(seen, last_state, SECONDS_OF_SILENCE, name)
                if self.is_closed():
                    return
                seen = state["version"]
                news = [{"state": state}] * (state != last_state) + [{"change": change} for change in changes]
                self.wfile.write(b"".join(json.dumps(new).encode() + b"\n" for new in news) or b"\n")
                last_state = state
        finally:
            book.end_stream()

    def answer_messages(self) -> None:
        """Answers the messages of a window for as long as it is open. A browser takes milliseconds less for a message than for a request."""
        if not asks_for_socket(self.headers):
            raise Refused(426, "This address is for a WebSocket, if there is python3-wsproto.")
        self.close_connection = True
        self.send_response(101)
        for header, value in answering_headers(self.headers).items():
            self.send_header(header, value)
        self.end_headers()
        self.connection.settimeout(None)
        messages = WebSocket(self.rfile, self.wfile, MOST_OF_A_MESSAGE)
        with suppress(BadMessage):  # whoever sent it finds the end of the connection
            for message in messages.messages():
                messages.send(self.answer_to(message))

    def answer_to(self, message: bytes) -> Union[str, bytes]:
        """What answers a message: an object with the number of the message; or four bytes with that number, and a MIDI file."""
        number, name, body = message_in(message)
        midi = re.fullmatch(MIDI_NAME, name)
        try:
            if midi:
                return number.to_bytes(4, "big") + self.server.book.midi(int(midi[1]))
            follow = {"edit": self.server.book.edit, "view": self.server.book.view}.get(name)
            if follow is None:
                raise Refused(404, "There is nothing of that name.")
            return compact({"number": number, "status": 200, "answer": follow(body)})
        except Refused as refused:
            return compact({"number": number, "status": refused.status, "answer": refused.answer})

    def is_closed(self) -> bool:
        """Whether the window was closed, which shows only in a connection that is looked at."""
        readable, _, _ = select.select([self.connection], [], [], 0)
        return bool(readable) and not self.connection.recv(1, socket.MSG_PEEK)

    def log_message(self, *_: Any) -> None:
        """Says nothing: an address has the token in it."""


def object_in(data: bytes) -> Json:
    """The object that bytes are."""
    try:
        asked = json.loads(data)
    except (ValueError, RecursionError):
        asked = None
    if not isinstance(asked, dict):
        raise Refused(400, "this is no whole request")
    return asked


def message_in(data: bytes) -> tuple[int, str, Json]:
    """The number, the name and the body of a message. Raises BadMessage."""
    try:
        asked = object_in(data)
    except Refused as error:
        raise BadMessage(str(error)) from error
    number, name, body = asked.get("number"), asked.get("name"), asked.get("body")
    if type(number) is int and 0 <= number < 1 << 32 and isinstance(name, str) and isinstance(body, dict):
        return number, name, body
    raise BadMessage("a message has a number, a name and a body")


def compact(answer: Json) -> str:
    """An object as JSON, without blanks."""
    return json.dumps(answer, separators=(",", ":"))
