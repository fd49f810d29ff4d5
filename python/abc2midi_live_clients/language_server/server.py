"""The state of a session with an editor: which messages come when, and which function answers each."""

import sys
import traceback
from collections.abc import Callable
from typing import Any, BinaryIO, Optional

from abc2midi_live import LibraryMissing, version

from ..common.json_object import Json
from .client_capabilities import Client
from .features import CAPABILITIES, REQUESTS
from .inbox import NO_JSON, Inbox, is_request
from .messages import (
    INTERNAL_ERROR,
    INVALID_PARAMS,
    INVALID_REQUEST,
    METHOD_NOT_FOUND,
    NOT_INITIALIZED,
    PARSE_ERROR,
    REQUEST_CANCELLED,
    Failure,
)
from .parameters import WrongParams, check
from .text_changes import BadChange
from .workspace import Settings, Workspace, why_of

ENDING = (ConnectionError, LibraryMissing)  # after these the server ends; after any other exception it goes on


class Server:
    """A session with an editor."""

    def __init__(self, write: Callable[[Json], None], settings: Settings):
        self.write = write
        self.workspace = Workspace(self.notify, self.send, settings)
        self.initialized = False
        self.is_shut_down = False
        self.status: Optional[int] = None  # the exit status, once the session is over
        self.notifications: dict[str, Callable[[Any], None]] = {
            "exit": self.exit,
            "textDocument/didOpen": self.workspace.open,
            "textDocument/didChange": self.workspace.change,
            "textDocument/didSave": self.workspace.save,
            "textDocument/didClose": self.workspace.close,
        }

    def serve(self, stream: BinaryIO) -> int:
        """Handles each message until the session is over; the exit status."""
        inbox = Inbox(stream)
        while self.status is None:
            if self.workspace.publisher.due and not inbox.has_more(self.workspace.publisher.seconds_of_rest):
                self.publish_what_is_due()
            while not self.workspace.has_all_hints() and not inbox.has_more(0):
                self.guarded("hints", self.workspace.look_on)
            try:
                message, is_cancelled = inbox.next()
            except EOFError:
                return 1
            if is_cancelled:
                self.refuse(message["id"], REQUEST_CANCELLED, "the editor cancelled this request")
            else:
                self.handle(message)
        return self.status

    def handle(self, message: Any) -> None:
        """Answers a request, follows a notification, and takes no notice of an answer."""
        if message is NO_JSON:
            self.refuse(None, PARSE_ERROR, "this is no JSON")
        elif not isinstance(message, dict) or not isinstance(message.get("method", ""), str):
            self.refuse(None, INVALID_REQUEST, "this is no request")
        elif is_request(message):
            self.answer(message["id"], message["method"], message.get("params"))
        elif "method" in message:
            self.follow(message["method"], message.get("params"))

    def answer(self, identifier: Any, method: str, params: Any) -> None:
        """Answers a request."""
        try:
            answer = {"id": identifier, "result": self.result(method, params)}
        except Failure as failure:
            self.refuse(identifier, *failure.args)
        except (WrongParams, BadChange) as error:
            self.refuse(identifier, INVALID_PARAMS, f"the parameters of {method} are wrong: {error}")
        except ENDING:
            raise
        except Exception as error:
            report(error)
            self.refuse(identifier, INTERNAL_ERROR, f"{method} failed: {why_of(error)}")
        else:
            self.send(answer)

    def result(self, method: str, params: Any) -> Any:
        """The result of a request. Raises Failure if it comes at a wrong time, or is not known."""
        if self.is_shut_down:
            raise Failure(INVALID_REQUEST, "the server is shut down")
        if method == "initialize":
            return self.initialize(params)
        if not self.initialized:
            raise Failure(NOT_INITIALIZED, "the first request is initialize")
        if method == "shutdown":
            return self.shutdown()
        if method not in REQUESTS:
            raise Failure(METHOD_NOT_FOUND, f"there is no method {method} here")
        check(method, params)
        return REQUESTS[method](self.workspace, params)

    def follow(self, method: str, params: Any) -> None:
        """Follows a notification that is known and comes at its time."""
        if method == "exit" or self.initialized and not self.is_shut_down and method in self.notifications:
            self.guarded(method, lambda: self.checked(method, params))

    def publish_what_is_due(self) -> None:
        """Sends the diagnostics that waited for a rest."""
        for uri in list(self.workspace.publisher.due):
            self.guarded("textDocument/didChange", lambda: self.workspace.publish(uri))

    def checked(self, method: str, params: Any) -> None:
        """Does what a notification asks for, unless its parameters are wrong."""
        check(method, params)
        self.notifications[method](params)

    def guarded(self, method: str, work: Callable[[], None]) -> None:
        """Does what a notification asks for. Nobody waits for an answer, so what is wrong is a message."""
        try:
            work()
        except WrongParams as error:
            print(f"language_server: ignored a wrong {method}: {error}", file=sys.stderr)
        except ENDING:
            raise
        except Exception as error:
            report(error)

    def send(self, message: Json) -> None:
        """Sends a message."""
        self.write({"jsonrpc": "2.0", **message})

    def refuse(self, identifier: Any, code: int, sentence: str) -> None:
        """Answers a request by an error."""
        self.send({"id": identifier, "error": {"code": code, "message": sentence}})

    def notify(self, method: str, params: Json) -> None:
        """Sends a notification."""
        self.send({"method": method, "params": params})

    def initialize(self, params: Any) -> Json:
        """What the server can do, in the encoding of positions that the editor offers."""
        if self.initialized:
            raise Failure(INVALID_REQUEST, "the server is initialized")
        self.initialized = True
        self.workspace.client = Client(params)
        return {
            "capabilities": {"positionEncoding": self.workspace.client.encoding.name, **CAPABILITIES},
            "serverInfo": {"name": "abc2midi_live", "version": version()},
        }

    def shutdown(self) -> None:
        """Ends the sessions; only `exit` may follow."""
        self.is_shut_down = True
        self.end()

    def exit(self, _: Any) -> None:
        """Ends the session."""
        self.status = 0 if self.is_shut_down else 1

    def end(self) -> None:
        """Ends what is played, and each session, and removes their files: an editor may not wait for more."""
        self.workspace.end()



def report(error: Exception) -> None:
    """Prints an exception that this server should not raise, with its place."""
    print("language_server: internal error:", file=sys.stderr)
    traceback.print_exception(type(error), error, error.__traceback__)
