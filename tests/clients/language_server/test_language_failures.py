"""The language server after an exception that it should not raise: it says so, and no book stays out of step with its editor."""

import contextlib
import io
from typing import Any, cast
from unittest import mock

from abc2midi_live import OutOfMemory
from abc2midi_live_clients.common.json_object import Json
from abc2midi_live_clients.common.session_book import SessionBook
from abc2midi_live_clients.language_server import document, workspace
from abc2midi_live_clients.language_server.editor_lines import EditorLines
from abc2midi_live_clients.language_server.parameters import FORMS
from abc2midi_live_clients.language_server.features import REQUESTS
from language_editor import URI, Editor, span

OTHER = "file:///other.abc"
ERRORS = [KeyError("odd"), TypeError("odd"), AttributeError("odd"), IndexError("odd"), RuntimeError("odd"), MemoryError(), OutOfMemory("an allocation failed")]


class Failing(Editor):
    """Two books, and an exception in one of them."""

    def setUp(self) -> None:
        super().setUp()
        self.open("X:1\nK:C\nC\n")
        self.open("X:2\nK:C\nC\n", OTHER)
        self.errors = io.StringIO()
        printed = contextlib.redirect_stderr(self.errors)
        printed.__enter__()
        self.addCleanup(printed.__exit__, None, None, None)

    def change(self, text: str, place: Any = None, uri: str = URI) -> None:
        """An editor changes a book, and rests."""
        self.notify("textDocument/didChange", {"textDocument": {"uri": uri, "version": 2}, "contentChanges": [{"text": text, **({"range": place} if place else {})}]})
        self.server.publish_what_is_due()

    def names(self, uri: str = URI) -> Any:
        """The names of the tunes of a book."""
        found = self.ask("textDocument/documentSymbol", {"textDocument": {"uri": uri}})
        return [symbol["name"] for symbol in found] if isinstance(found, list) else found

    def shown(self) -> list[str]:
        """The sentences that the user was shown."""
        return [message["params"]["message"] for message in self.sent if message.get("method") == "window/showMessage"]

    def test_during_a_change(self) -> None:
        """Before and after the session has it. The book is lost till its whole text comes; the other book goes on."""
        for error in ERRORS:
            for name in ("replace", "faults"):
                with self.subTest(error=error, name=name):
                    self.sent.clear()
                    with mock.patch.object(EditorLines if name == "replace" else SessionBook, "replace", side_effect=error):
                        self.change("X:3", span(0, 0, 0, 3))
                    self.assertEqual(self.names(), -32803)
                    self.assertIn("the text of book.abc is unknown", self.shown()[0])
                    self.change("X:4", span(0, 0, 0, 3))
                    self.assertEqual((self.names(), self.names(OTHER)), (-32803, ["2"]))
                    self.change("X:5\nT:a\nK:C\nC\n")
                    self.assertEqual(self.names(), ["5 a"])
                    self.change("X:6", span(0, 0, 0, 3))
                    self.assertEqual(self.names(), ["6 a"])
        self.assertIn("internal error", self.errors.getvalue())

    def test_a_save_after_it(self) -> None:
        with mock.patch.object(SessionBook, "replace", side_effect=MemoryError):
            self.change("X:3", span(0, 0, 0, 3))
        self.notify("textDocument/didSave", {"textDocument": {"uri": URI}, "text": "X:3\nK:C\nC\n"})
        self.assertEqual(self.names(), ["3"])

    def test_a_book_that_cannot_be_opened(self) -> None:
        """The server goes on, and a save opens the book."""
        new = {"uri": "file:///new.abc", "languageId": "abc", "version": 1, "text": "X:7\nK:C\nC\n"}
        for error in ERRORS:
            with mock.patch.object(SessionBook, "replace", side_effect=error):
                self.notify("textDocument/didOpen", {"textDocument": new})
            self.assertEqual((self.names(cast(str, new["uri"])), self.names()), (-32602, ["1"]))
            self.assertIn("new.abc cannot be opened", self.shown()[-1])
            self.notify("textDocument/didChange", {"textDocument": {"uri": new["uri"], "version": 2}, "contentChanges": [{"text": "X:8"}]})
            self.notify("textDocument/didSave", {"textDocument": {"uri": new["uri"]}, "text": "X:8\nK:C\nC\n"})
            self.assertEqual(self.names(cast(str, new["uri"])), ["8"])
            self.notify("textDocument/didClose", {"textDocument": {"uri": new["uri"]}})

    def test_during_a_request(self) -> None:
        """The answer is an internal error, and no word says that the editor is wrong."""
        for error in ERRORS:
            with mock.patch.dict(REQUESTS, {"textDocument/documentSymbol": mock.Mock(side_effect=error)}):
                self.assertEqual(self.names(), -32603, error)
        self.assertEqual(self.names(), ["1"])

    def test_while_hints_are_looked_for(self) -> None:
        """There are none for this text, and the server does not look for ever."""
        book = self.server.workspace.documents[URI]
        with mock.patch.object(document.Document, "has_all_hints", lambda one: one.finder is None), mock.patch.object(document.Document, "look_on", side_effect=KeyError):
            self.server.guarded("hints", self.server.workspace.look_on)
        self.assertIsNone(book.finder)

    def test_a_closed_output(self) -> None:
        """The editor is gone, so the server ends."""
        self.server.write = self.server.workspace.send = mock.Mock(side_effect=BrokenPipeError)
        with self.assertRaises(BrokenPipeError):
            self.names()

    def test_wrong_parameters(self) -> None:
        """Each form is looked at before anything is done."""
        wrong: list[Any] = [None, [], "x", 1, {}, {"textDocument": None}, {"textDocument": []}, {"textDocument": {"uri": 1}}]
        for method in REQUESTS:
            self.assertIn(method, FORMS)
            for params in wrong:
                self.assertEqual(self.ask(method, params), -32602, (method, params))
        for method in ("textDocument/didOpen", "textDocument/didSave", "textDocument/didClose"):
            for params in wrong:
                self.notify(method, params)
        self.assertNotIn("internal error", self.errors.getvalue())
        self.assertEqual(sorted(self.server.workspace.documents), [URI, OTHER])
        book: Json = {"textDocument": {"uri": URI}}
        self.assertEqual(self.ask("textDocument/rename", {**book, "position": {"line": 0, "character": 0}, "newName": 1}), -32602)
        self.assertEqual(self.ask("workspace/executeCommand", {"command": "play", "arguments": [book]}), -32602)
        self.assertEqual(workspace.why_of(MemoryError()), "out of memory")
