"""What the language server completes, and requests that an editor cancels."""

import json
import os
import unittest
from typing import Any

import trial  # noqa: F401
from abc2midi_live_clients.common.json_object import Json
from abc2midi_live_clients.language_server.general_midi import PROGRAMS
from abc2midi_live_clients.language_server.inbox import Inbox
from abc2midi_live_clients.language_server.messages import BadMessage
from language_editor import Editor, span


class Completion(Editor):
    def items(self, line: int, character: int) -> dict[str, Json]:
        """What is offered at a place, by its label."""
        return {item["label"]: item for item in self.at("completion", line, character)}

    def test_programs(self) -> None:
        """The names of General MIDI, by a part of the name or by the number, which counts from 0."""
        self.open("X:1\n%%MIDI program viol\n%%MIDI program 4\nK:C\n")
        found = self.items(1, 19)
        self.assertEqual(list(found), ["40 Violin", "41 Viola"])
        self.assertEqual(found["40 Violin"]["textEdit"], {"range": span(1, 15, 1, 19), "newText": "40"})
        self.assertEqual(sorted(self.items(2, 16)), sorted(f"{n} {PROGRAMS[n]}" for n in (4, *range(40, 50))))
        self.assertEqual((len(PROGRAMS), PROGRAMS[0], PROGRAMS[73], PROGRAMS[127]), (128, "Acoustic Grand Piano", "Flute", "Gunshot"))

    def test_decorations(self) -> None:
        self.open("X:1\nK:C\nC !m D !f! E !\n")
        found = self.items(2, 4)
        self.assertEqual(sorted(found), ["!mf!", "!mordent!", "!mp!"])
        self.assertEqual((found["!mf!"]["textEdit"], found["!mf!"]["detail"]), ({"range": span(2, 2, 2, 4), "newText": "!mf!"}, "dynamic"))
        self.assertEqual(len({"!ppp!", "!fff!", "!trill!"} & set(self.items(2, 14))), 3)

    def test_clefs(self) -> None:
        self.open("X:1\nV:1 cl\nV:2 name=a clef=b\nK:G clef=\n")
        self.assertIn("clef=", self.items(1, 6))
        found = self.items(2, 17)
        self.assertEqual(found["bass"]["textEdit"], {"range": span(2, 16, 2, 17), "newText": "bass"})
        self.assertIn("treble", self.items(3, 9))

    def test_snippets(self) -> None:
        """An editor without them gets plain text."""
        self.open("\n")
        found = self.items(0, 0)
        self.assertEqual((found["X:1"]["insertTextFormat"], found["X:1"]["textEdit"]["newText"][:14]), (2, "X:1\nT:${1:titl"))
        self.assertIn("clef=", found["V:"]["textEdit"]["newText"])
        self.assertNotIn("insertTextFormat", found["M:"])
        self.abilities = {}
        self.setUp()
        self.open("\n")
        found = self.items(0, 0)
        self.assertEqual((found["X:1"]["textEdit"]["newText"], found["V:"]["textEdit"]["newText"]), ("X:1", "V:"))


class Waiting(unittest.TestCase):
    """The messages of an editor before they are handled."""

    def inbox(self, *messages: Any, end: bytes = b"") -> Inbox:
        """An inbox with messages."""
        ours, theirs = os.pipe()
        stream = open(ours, "rb", buffering=0)
        self.addCleanup(stream.close)
        with open(theirs, "wb") as file:
            for message in messages:
                data = json.dumps(message).encode()
                file.write(b"Content-Length: %d\r\n\r\n%s" % (len(data), data))
            file.write(end)
        return Inbox(stream)

    def test_a_request_that_is_cancelled(self) -> None:
        """It has to wait: one that is answered cannot be cancelled, and its number may come again."""
        cancel = {"method": "$/cancelRequest", "params": {"id": 2}}
        first, second = {"id": 1, "method": "a"}, {"id": 2, "method": "b"}
        inbox = self.inbox(cancel, first, second, cancel, second, {"method": "$/cancelRequest"})
        self.assertEqual([inbox.next() for _ in range(3)], [(first, False), (second, True), (second, False)])
        self.assertRaises(EOFError, inbox.next)

    def test_the_end(self) -> None:
        """What came before a message that cannot be read is handled."""
        inbox = self.inbox({"id": 1, "method": "a"}, end=b"Content-Length: x\r\n\r\n")
        self.assertTrue(inbox.has_more(0))
        self.assertEqual(inbox.next()[0]["id"], 1)
        self.assertRaises(BadMessage, inbox.next)


class Cancelling(Editor):
    def test_the_answer(self) -> None:
        """A cancelled request is answered by the error of the protocol, -32800."""
        ours, theirs = os.pipe()
        with open(theirs, "wb") as file:
            for message in ({"id": 7, "method": "workspace/symbol", "params": {"query": ""}}, {"method": "$/cancelRequest", "params": {"id": 7}}):
                data = json.dumps(message).encode()
                file.write(b"Content-Length: %d\r\n\r\n%s" % (len(data), data))
        with open(ours, "rb", buffering=0) as stream:
            self.assertEqual(self.server.serve(stream), 1)
        (answer,) = [message for message in self.sent if message.get("id") == 7]
        self.assertEqual(answer["error"]["code"], -32800)
