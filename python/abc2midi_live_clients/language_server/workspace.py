"""The tune books that an editor has open."""

from collections.abc import Callable
from typing import Any, NamedTuple, Optional
from urllib.parse import unquote

from ..common.faults import sentences
from ..common.json_object import Json
from ..common.options import open_library
from ..common.player import Player
from ..common.terminal_text import printable
from ..hints import Finder
from .client_capabilities import Client
from .document import Document
from .messages import ERROR, INVALID_PARAMS, REQUEST_FAILED, WHOLE, Failure
from .parameters import WrongParams
from .publisher import Publisher
from .text_changes import BadChange, Change, changes_of


class Settings(NamedTuple):
    """What the command line decides: the library, if it names one, the player, and whether there are hints."""

    library: Optional[str] = None
    player: Optional[Player] = None
    with_hints: bool = True


class Workspace:
    """The open documents, and how they follow their editor."""

    def __init__(self, notify: Callable[[str, Json], None], send: Callable[[Json], None], settings: Settings):
        self.notify = notify
        self.send = send
        self.settings = settings
        self.client = Client()
        self.words = sentences()
        self.documents: dict[str, Document] = {}
        self.unopened: set[str] = set()  # books that could not be opened
        self.publisher = Publisher()

    # ---- what the editor reports

    def open(self, params: Json) -> None:
        """An editor opens a tune book, which has a session of its own."""
        sent = params["textDocument"]
        self.begin(sent["uri"], sent["text"], sent.get("version"))
        self.publish(sent["uri"])

    def begin(self, uri: str, text: str, version: Any) -> None:
        """Begins a session with a text. If that fails, the other books stay as they are, and a save tries it again."""
        if uri in self.documents:
            self.documents.pop(uri).close()
        library, _, with_hints = self.settings
        self.unopened.add(uri)
        session = None
        try:
            finder = Finder(library) if with_hints else None
            session = open_library(library)
            document = Document(text, session, self.words, finder, self.client.encoding)
        except Exception as error:
            if session:
                session.close()
            self.show(f"{name_of(uri)} cannot be opened: {why_of(error)}. Save it, or open it again.")
            raise
        document.version = version
        self.documents[uri] = document
        self.unopened.discard(uri)

    def change(self, params: Any) -> None:
        """An editor changes a tune book. After a change that cannot be read only a whole text is taken."""
        uri = uri_of(params)
        if uri is None:
            for each in self.documents:
                self.lose(each, "a change does not say of which book it is")
            return
        if uri not in self.documents:
            raise WrongParams(f"{name_of(uri)} is not open")
        try:
            changes = changes_of(params.get("contentChanges"))
        except BadChange as bad:
            self.lose(uri, str(bad))
            return
        if not self.documents[uri].is_lost or changes and changes[0].range is None:
            self.follow(uri, changes, params["textDocument"].get("version"))
            self.publisher.due[uri] = None

    def follow(self, uri: str, changes: list[Change], version: Any) -> None:
        """Makes changes. If one fails, the text is unknown, and a whole text begins another session."""
        document = self.documents[uri]
        if changes and changes[0].range is None and document.is_broken:
            self.begin(uri, changes[0].text, version)
            document, changes = self.documents[uri], changes[1:]
        try:
            for change in changes:
                document.change(change)
            document.version = version
        except Exception as error:
            document.is_broken = True
            self.lose(uri, why_of(error))
            raise

    def lose(self, uri: str, why: str) -> None:
        """The text of a book is unknown: asks once for the whole text."""
        if self.documents[uri].is_lost:
            return
        self.documents[uri].is_lost = True
        self.clear(uri)
        if self.client.can_register:
            self.client.can_register = False  # it is for all documents
            options = {"documentSelector": [{"pattern": "**/*"}], "syncKind": WHOLE}
            asked = {"id": "whole", "method": "textDocument/didChange", "registerOptions": options}
            params = {"registrations": [asked]}
            self.send({"id": f"whole {uri}", "method": "client/registerCapability", "params": params})
        self.show(f"the text of {name_of(uri)} is unknown: {why}. Save it, or open it again.")

    def show(self, sentence: str) -> None:
        """Shows a sentence to the user."""
        self.notify("window/showMessage", {"type": ERROR, "message": f"abc2midi_live: {sentence}"})

    def save(self, params: Json) -> None:
        """An editor saved a tune book, and sends its text: if another one is known here, that text is taken."""
        uri, text, version = params["textDocument"]["uri"], params.get("text"), params["textDocument"].get("version")
        if uri in self.unopened and isinstance(text, str):
            self.begin(uri, text, version)
            self.publish(uri)
            return
        if uri not in self.documents:
            raise WrongParams(f"{name_of(uri)} is not open")
        document = self.documents[uri]
        if isinstance(text, str) and (document.is_lost or document.lines != text.split("\n")):
            self.follow(uri, [Change(None, text)], version)
            self.publish(uri)

    def close(self, params: Json) -> None:
        """An editor closes a tune book: its diagnostics go."""
        uri = params["textDocument"]["uri"]
        self.unopened.discard(uri)
        if uri not in self.documents:
            raise WrongParams(f"{name_of(uri)} is not open")
        self.documents.pop(uri).close()
        self.clear(uri)

    def end(self) -> None:
        """Ends what is played, and each session, and removes their files."""
        if self.settings.player:
            self.settings.player.stop()
        for document in self.documents.values():
            document.close()
        self.documents = {}
        self.publisher.due.clear()

    # ---- what the editor is sent

    def publish(self, uri: str) -> None:
        """Sends the diagnostics of a tune book."""
        report = self.publisher.report(uri, self.documents[uri], self.client.has_links)
        self.notify("textDocument/publishDiagnostics", report)
        self.publisher.has_sent()

    def has_all_hints(self) -> bool:
        """Returns whether all hints on the open books are known."""
        return all(document.has_all_hints() for document in self.documents.values())

    def look_on(self) -> None:
        """Looks for hints in a long book for a moment, and sends its diagnostics when all are known."""
        for uri, document in self.documents.items():
            if not document.has_all_hints():
                try:
                    is_done = document.look_on()
                except Exception:
                    document.give_up_hints()
                    raise
                if is_done and not document.is_lost:
                    self.publish(uri)
                return

    def clear(self, uri: str) -> None:
        """Removes the diagnostics of a tune book."""
        self.publisher.forget(uri)
        self.notify("textDocument/publishDiagnostics", {"uri": uri, "diagnostics": []})

    # ---- what requests ask for

    def document(self, params: Json) -> Document:
        """The tune book that a request names."""
        uri = params["textDocument"]["uri"]
        if uri not in self.documents:
            raise Failure(INVALID_PARAMS, f"{name_of(uri)} is not open")
        if self.documents[uri].is_lost:
            raise Failure(REQUEST_FAILED, f"the text of {name_of(uri)} is unknown; save it, or open it again")
        return self.documents[uri]

    def edit(self, uri: str, edits: list[Json]) -> Json:
        """Edits of a document as the protocol has them: of its version, if the editor can compare versions."""
        if not self.client.has_versions:
            return {"changes": {uri: edits}}
        document = {"uri": uri, "version": self.documents[uri].version}
        return {"documentChanges": [{"textDocument": document, "edits": edits}]}


def name_of(uri: str) -> str:
    """Returns the name of the file of a document, for a person."""
    return printable(unquote(uri.rstrip("/").rpartition("/")[2]))


def why_of(error: Exception) -> str:
    """Returns why a book could not be followed, for a person."""
    return "out of memory" if isinstance(error, MemoryError) else f"internal error, {type(error).__name__}: {error}"


def uri_of(params: Any) -> Optional[str]:
    """Returns the document of parameters, if they name one."""
    try:
        uri = params["textDocument"]["uri"]
    except (KeyError, TypeError):
        return None
    return uri if isinstance(uri, str) else None
