"""An editor in this process, which asks a language server without a pipe."""

import unittest
from typing import Any

import trial
from abc2midi_live_clients.common.json_object import Json
from abc2midi_live_clients.language_server.server import Server
from abc2midi_live_clients.language_server.workspace import Settings

URI = "file:///book.abc"
ALL_ABILITIES: Json = {
    "textDocument": {
        "documentSymbol": {"hierarchicalDocumentSymbolSupport": True},
        "completion": {"completionItem": {"snippetSupport": True}},
        "hover": {"contentFormat": ["markdown", "plaintext"]},
        "publishDiagnostics": {"codeDescriptionSupport": True},
    },
    "workspace": {"workspaceEdit": {"documentChanges": True}},
}


class Editor(unittest.TestCase):
    """An editor with one book."""

    abilities: Json = ALL_ABILITIES

    def setUp(self) -> None:
        self.sent: list[Json] = []
        self.server = Server(self.sent.append, Settings(trial.library))
        self.addCleanup(self.server.end)
        self.asked = 0
        self.capabilities = self.ask("initialize", {"capabilities": self.abilities})["capabilities"]

    def notify(self, method: str, params: Any) -> None:
        self.server.handle({"method": method, "params": params})

    def ask(self, method: str, params: Any) -> Any:
        """The result of a request, or the number of its error."""
        self.asked += 1
        self.server.handle({"id": self.asked, "method": method, "params": params})
        answer = next(message for message in self.sent if message.get("id") == self.asked)
        return answer["result"] if "result" in answer else answer["error"]["code"]

    def open(self, text: str, uri: str = URI, version: int = 1) -> list[Json]:
        """The diagnostics of a book that is opened."""
        book = {"uri": uri, "languageId": "abc", "version": version, "text": text}
        self.notify("textDocument/didOpen", {"textDocument": book})
        found: list[Json] = self.sent[-1]["params"]["diagnostics"]
        return found

    def of_book(self, method: str, **more: Any) -> Any:
        """The result of a request about the book."""
        return self.ask(f"textDocument/{method}", {"textDocument": {"uri": URI}, **more})

    def at(self, method: str, line: int, character: int, **more: Any) -> Any:
        """The result of a request at a place."""
        return self.of_book(method, position={"line": line, "character": character}, **more)


def span(first: int, start: int, last: int, end: int) -> Json:
    return {"start": {"line": first, "character": start}, "end": {"line": last, "character": end}}


def edited(text: str, edits: list[Json]) -> str:
    """A text of ASCII after edits, none of which overlaps another."""
    starts = [0]
    for line in text.split("\n"):
        starts.append(starts[-1] + len(line) + 1)
    for edit in sorted(edits, key=lambda each: (each["range"]["start"]["line"], each["range"]["start"]["character"]), reverse=True):
        first, last = (starts[place["line"]] + place["character"] for place in (edit["range"]["start"], edit["range"]["end"]))
        text = text[:first] + edit["newText"] + text[last:]
    return text
