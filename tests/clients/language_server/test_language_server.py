"""The language server, asked by a scripted editor."""

import json
import os
import random
import re
import shutil
import signal
import subprocess
import sys
import time
from collections.abc import Callable
from typing import Any, Optional
from unittest import mock

import trial
from abc2midi_live import version
from abc2midi_live.lines import lines_of_book
from abc2midi_live_clients.common import session_book
from abc2midi_live_clients.common.faults import sentences
from abc2midi_live_clients.common.json_object import Json
from abc2midi_live_clients.common.options import open_library
from abc2midi_live_clients.hints import Finder
from abc2midi_live_clients.language_server import diagnostics as remarks, document, text_changes

URI = "file:///book.abc"
BOOK = "X:1\nT:Kesh\nK:G\nGABc &\n\nX:2\nK:C\nCDE -\n"


class Editor(trial.Folder):
    """An editor that talks with the server, and keeps the text of each book after its changes."""

    def setUp(self) -> None:
        super().setUp()
        self.start()

    def start(self, *words: str) -> None:
        """Starts the server, with a folder for what it leaves for a moment."""
        command = [sys.executable, str(trial.clients / "language_server"), "--library", trial.library, *words]
        self.server = subprocess.Popen(
            command, stdin=subprocess.PIPE, stdout=subprocess.PIPE, stderr=subprocess.PIPE,
            env={**os.environ, "TMPDIR": str(self.files)},
        )  # fmt: skip
        assert self.server.stdin and self.server.stdout and self.server.stderr
        self.input, self.output, self.errors = self.server.stdin, self.server.stdout, self.server.stderr
        self.asked = 0
        self.limit(self.server)

    def send(self, data: bytes) -> None:
        self.input.write(b"Content-Length: %d\r\n\r\n" % len(data) + data)
        self.input.flush()

    def read(self) -> Json:
        """The next message of the server."""
        name, length = self.output.readline().split()
        self.assertEqual((name, self.output.readline()), (b"Content-Length:", b"\r\n"))
        message: Json = json.loads(self.output.read(int(length)))
        self.assertEqual(message.pop("jsonrpc"), "2.0")
        return message

    def ask(self, method: str, params: Any = None) -> Any:
        """The result of a request, or the number of its error."""
        self.asked += 1
        self.send(json.dumps({"jsonrpc": "2.0", "id": self.asked, "method": method, "params": params}).encode())
        message = self.read()
        self.assertEqual(message.pop("id"), self.asked)
        self.assertEqual(len(message), 1)
        return message["result"] if "result" in message else message["error"]["code"]

    def notify(self, method: str, params: Any = None) -> None:
        self.send(json.dumps({"jsonrpc": "2.0", "method": method, "params": params}).encode())

    def open(self, text: str, uri: str = URI) -> list[Any]:
        """The diagnostics of a book that is opened."""
        book = {"uri": uri, "languageId": "abc", "version": 0, "text": text}
        self.notify("textDocument/didOpen", {"textDocument": book})
        return self.diagnostics(0, uri)

    def change(self, version: int, *changes: tuple[Any, ...]) -> list[Any]:
        """The diagnostics of a book after changes: each a text, with a range before it or none."""
        told = [{"text": change[-1], **({"range": change[0]} if len(change) > 1 else {})} for change in changes]
        book = {"uri": URI, "version": version}
        self.notify("textDocument/didChange", {"textDocument": book, "contentChanges": told})
        return self.diagnostics(version)

    def diagnostics(self, version: int, uri: str = URI) -> list[Any]:
        """The faults that are published; the hints beside them are kept."""
        message = self.read()
        self.assertEqual(message["method"], "textDocument/publishDiagnostics")
        self.assertEqual((message["params"]["uri"], message["params"]["version"]), (uri, version))
        published = message["params"]["diagnostics"]
        are_faults = [each["severity"] != 3 for each in published]
        self.assertEqual(are_faults, sorted(are_faults))
        self.hints = [each for each in published if each["severity"] == 3]
        return [each for each in published if each["severity"] != 3]

    def at(self, method: str, line: int, character: int) -> Any:
        """The result of a request at a place."""
        place = {"textDocument": {"uri": URI}, "position": {"line": line, "character": character}}
        return self.ask(f"textDocument/{method}", place)

    def hover(self, line: int, character: int) -> Any:
        """The text at a place, or None."""
        found = self.at("hover", line, character)
        return found and found["contents"]["value"]

    def actions(self, line: int, character: int, only: Optional[list[str]] = None) -> list[Any]:
        """The actions at a place."""
        context: Json = {"diagnostics": [], **({"only": only} if only else {})}
        asked = {"textDocument": {"uri": URI}, "range": span(line, character, line, character), "context": context}
        found: list[Any] = self.ask("textDocument/codeAction", asked)
        return found

    def labels(self, line: int, character: int) -> list[Any]:
        """The labels of what may be written at a place, in the order in which they are shown."""
        items = self.at("completion", line, character)
        texts = [item["textEdit"]["newText"] for item in items]
        self.assertEqual(texts, sorted(texts))
        return [item["label"] for item in sorted(items, key=lambda item: str(item["sortText"]))]

    def play(self, uri: str, line: int) -> str:
        """The file that `play` names."""
        place = {"textDocument": {"uri": uri}, "position": {"line": line, "character": 0}}
        self.asked += 1
        asked = {"id": self.asked, "method": "workspace/executeCommand", "params": {"command": "play", "arguments": [place]}}
        self.send(json.dumps(asked).encode())
        message, answer = self.read(), self.read()
        self.assertEqual((message["method"], message["params"]["message"]), ("window/showMessage", answer["result"]))
        return str(answer["result"])

    def finish(self) -> None:
        """Ends the session, which leaves nothing."""
        self.assertIsNone(self.ask("shutdown"))
        self.assertEqual(os.listdir(self.files), [])
        self.notify("exit")
        self.assertEqual((self.server.wait(trial.SECONDS), self.errors.read()), (0, b""))


def span(first: Any, start: Any, last: Any, end: Any) -> Json:
    return {"start": {"line": first, "character": start}, "end": {"line": last, "character": end}}


def units(text: str) -> int:
    """How many UTF-16 units a text has."""
    return sum(2 if ord(character) > 0xFFFF else 1 for character in text)


def starts(diagnostics: list[Any]) -> list[Any]:
    """Where each diagnostic begins, and its fault."""
    found = []
    for diagnostic in diagnostics:
        start = diagnostic["range"]["start"]
        found.append((start["line"], start["character"], diagnostic["code"]))
    return found


def wanted(text: str) -> list[Any]:
    """What `starts` gives by a fresh run: the character of a column is the one that has its byte. Of `BadByte` several times in a
    row in a line the first counts."""
    lines = text.split("\n")
    found: list[Any] = []
    last = 0, ""
    for line, column, name in trial.fresh(text.encode()).faults:
        if last == (line, "BadByte") and name == "BadByte":
            continue
        last = line, name
        character = before = 0
        for each in lines[line - 1]:
            before += len(each.encode())
            if before >= column:
                break
            character += units(each)
        found.append((line - 1, character, name))
    return found


class Session(Editor):
    def setUp(self) -> None:
        super().setUp()
        self.assertEqual(self.ask("initialize", {"capabilities": {}})["capabilities"]["positionEncoding"], "utf-16")
        self.notify("initialized", {})

    def test_a_program_that_there_is_not(self) -> None:
        found = self.open("X:1\n%%MIDI program 128\nK:C\nC!f!D\n")
        self.assertEqual([(each["range"], each["code"]) for each in found], [(span(1, 0, 1, 18), "BadProgram")])
        self.assertEqual(found[0]["message"], sentences()["BadProgram"])
        self.assertEqual(self.change(1, (span(1, 15, 1, 18), "40")), [])

    def test_diagnostics(self) -> None:
        found = self.open(BOOK)
        self.assertEqual([each["range"] for each in found], [span(3, 5, 3, 6), span(7, 4, 7, 5)])
        self.assertEqual([each["code"] for each in found], ["BadByte", "LooseTie"])
        self.assertEqual([each["message"] for each in found], [sentences()[each["code"]] for each in found])
        self.assertEqual(self.change(1, (span(3, 4, 3, 6), ""), (span(7, 3, 7, 5), "")), [])
        self.assertEqual(starts(self.change(2, (span(2, 0, 3, 0), ""))), [(0, 0, "MissingKey")])
        self.finish()

    def test_ranges(self) -> None:
        self.open("")
        head = "X:1\nM:5\nK:C\n"
        bodies = {"C^D0/3 C": span(3, 1, 3, 6), "C[K:X]C": span(3, 1, 3, 6), "C (99:2 CC": span(3, 2, 3, 7), "C[]2": span(3, 1, 3, 4),
                  '"𝄞é"C"': span(3, 6, 3, 7), "C𝄞": span(3, 1, 3, 3), "|[33,1 C": span(3, 1, 3, 6)}  # fmt: skip
        for version, (body, range_of_it) in enumerate(bodies.items(), 1):
            found = self.change(version, (head + body + "\r\n",))
            self.assertEqual([each["range"] for each in found[:2]], [span(1, 0, 1, 3), range_of_it], body)
        self.finish()

    def test_bytes_without_a_meaning(self) -> None:
        """Those of one line in a row are one entry, with their count; the range has those that touch."""
        word = sentences()["BadByte"]
        found = self.open("X:1\nK:C\nC и𝄞в D é - & &\n&\n")
        self.assertEqual([each["code"] for each in found], ["BadByte", "LooseTie", "BadByte", "BadByte"])
        self.assertEqual([each["range"] for each in found], [span(2, 2, 2, 6), span(2, 11, 2, 12), span(2, 13, 2, 14), span(3, 0, 3, 1)])
        messages = [each["message"] for each in found if each["code"] == "BadByte"]
        self.assertEqual(messages, [f"{word} (3 more in this line)", f"{word} (1 more in this line)", word])
        self.assertEqual([self.hover(2, place).split("\n")[0] for place in (2, 3, 9)], [word] * 3)
        self.finish()

    def test_places_in_utf_16(self) -> None:
        self.open("X:1\nK:C\n\"𝄞é\"C&\r\nC\n")
        self.assertEqual(starts(self.change(1, (span(2, 7, 2, 7), "𝄞"))), [(2, 6, "BadByte")])
        self.assertEqual(starts(self.change(2, (span(2, 0, 2, 5), ""))), [(2, 1, "BadByte")])
        self.assertEqual(starts(self.change(3, (span(2, 99, 2, 99), "-&"))), wanted("X:1\nK:C\nC&𝄞-&\r\nC\n"))
        # half of a pair, and then the other one
        self.change(4, (span(2, 0, 2, 99), "\ud834C"))
        self.assertEqual(starts(self.change(5, (span(2, 1, 2, 1), "\udd1e-"))), wanted("X:1\nK:C\n𝄞-C\r\nC\n"))
        self.assertEqual(starts(self.change(6, (span(99, 0, 99, 9), "&"))), wanted("X:1\nK:C\n𝄞-C\r\nC\n&"))
        self.assertEqual(starts(self.change(7, (span(5, 0, 5, 0), "-"))), wanted("X:1\nK:C\n𝄞-C\r\nC\n&-"))
        self.finish()

    def test_ends_of_the_text(self) -> None:
        text = self.text = "X:1\nK:C\nC&"
        self.open(text)
        for version, (place, put, text) in enumerate(
            [
                (span(2, 2, 2, 2), "\n", "X:1\nK:C\nC&\n"),
                (span(3, 0, 3, 0), "\n\n-", "X:1\nK:C\nC&\n\n\n-"),
                (span(2, 2, 5, 1), "", "X:1\nK:C\nC&"),
                (span(0, 0, 2, 2), "", ""),
                (span(0, 0, 0, 0), "X:1\nK:C\n-", "X:1\nK:C\n-"),
                (span(0, 0, 2, 0), "", "-"),
                (span(0, 0, 0, 0), "\n\nX:0\n", "\n\nX:0\n-"),
            ]
        ):
            self.assertEqual(starts(self.change(version, (place, put))), wanted(text))
        self.finish()

    def test_a_line_of_too_many_bytes(self) -> None:
        found = self.open("X:1\nK:C\n" + "C" * 65_536 + "\n-\n")
        self.assertEqual(starts(found), [(2, 65_535, "BadLine"), (3, 0, "LooseTie")])
        self.assertEqual(found[0]["range"], span(2, 65_535, 2, 65_536))
        self.assertEqual(starts(self.change(1, (span(2, 0, 2, 1), ""), (span(3, 0, 3, 1), "quit"))), wanted("X:1\nK:C\nC\nquit"))
        self.finish()

    def test_symbols(self) -> None:
        self.open("T:book\n\n" + BOOK + "% words\nC\n \t\r\nwords\nX:7\nT:𝄞\n")
        found = self.ask("textDocument/documentSymbol", {"textDocument": {"uri": URI}})
        self.assertEqual([symbol["name"] for symbol in found], ["1 Kesh", "2", "7 𝄞"])
        places = [{"uri": URI, "range": place} for place in (span(2, 0, 5, 6), span(7, 0, 11, 1), span(14, 0, 15, 4))]
        self.assertEqual([symbol["location"] for symbol in found], places)
        self.finish()

    def test_play_names_the_file(self) -> None:
        self.open(BOOK + "\nX:2\nK:C\nC")
        for line, start, number in (1, 0, 1), (7, 5, 2):
            place = {"textDocument": {"uri": URI}, "position": {"line": start, "character": 0}}
            asked = {"textDocument": {"uri": URI}, "range": span(line, 0, line, 1), "context": {"diagnostics": []}}
            action = self.ask("textDocument/codeAction", asked)[0]
            self.assertEqual((action["command"], action["arguments"]), ("abc2midi_live.play", [place]))
            for only, count in ([], 1), ([""], 1), (["quickfix", ""], 1), (["quickfix"], 0), (["source.organizeImports"], 0):
                self.assertEqual(len(self.ask("textDocument/codeAction", {**asked, "context": {"only": only}})), count, only)
            with open(self.play(URI, line), "rb") as file:
                self.assertEqual(file.read(), trial.fresh(BOOK.encode()).files[f"{number}.mid"])
        for line in (4, 9):
            place = {"textDocument": {"uri": URI}, "position": {"line": line, "character": 0}}
            self.assertEqual(self.ask("workspace/executeCommand", {"command": "play", "arguments": [place]}), -32803)
        self.assertEqual(self.ask("workspace/executeCommand", {"command": "dance", "arguments": []}), -32602)
        self.finish()

    def test_play_writes_the_file_of_its_tune_alone(self) -> None:
        self.open("X:1\nK:C\nC\n\nX:2\nK:C\nD\n")
        path = self.play(URI, 5)
        self.assertEqual(os.listdir(os.path.dirname(path)), ["2.mid"])
        self.assertEqual(self.play(URI, 0), path.replace("2.mid", "1.mid"))
        self.finish()

    def test_the_end_by_force(self) -> None:
        """What was played is removed, also then."""
        self.open(BOOK)
        self.play(URI, 0)
        self.server.kill()
        until = time.monotonic() + trial.SECONDS
        while os.listdir(self.files):
            self.assertLess(time.monotonic(), until)
            time.sleep(0.01)

    def test_actions_in_a_range(self) -> None:
        """Those of all its lines, and the first tune that can be played."""
        text = 'words\n\nX:1\nP:(A9999)99\nK:C\nP:A\n"Em DEFD|\n{ag F|\n\nX:2\nK:C\nC\n'
        self.open(text)

        def titles(*place: int) -> list[Any]:
            asked = {"textDocument": {"uri": URI}, "range": span(*place), "context": {"diagnostics": []}}
            return [action["title"] for action in self.ask("textDocument/codeAction", asked)]

        both = ['Close with " after Em', "Close with } after ag"]
        self.assertEqual(titles(0, 0, 11, 1), [*both, "Play 2"])
        self.assertEqual((titles(6, 0, 7, 1), titles(6, 1, 7, 0), titles(6, 2, 6, 3)), (both, both[1:], []))
        self.assertEqual((titles(0, 0, 5, 3), titles(8, 0, 9, 0), titles(1, 0, 9, 0)), ([], ["Play 2"], [*both, "Play 2"]))
        self.open("X:1\nK:C\n" + '"Em D|\n' * 1000, "file:///many")
        asked = {"textDocument": {"uri": "file:///many"}, "range": span(0, 0, 2000, 0), "context": {"only": ["quickfix"]}}
        self.assertEqual(len(self.ask("textDocument/codeAction", asked)), 100)
        self.finish()

    def test_carriage_returns_that_end_lines(self) -> None:
        """In the protocol a carriage return alone ends a line. The program knows no such lines."""
        faults = self.open("X:1\nT:a\rb\nK:C\r\nC\rD&\r\nE&\r")
        self.assertEqual(starts(faults), [(4, 1, "BadByte"), (5, 1, "BadByte"), (6, 1, "BadByte")])
        self.assertEqual(faults[1]["range"], span(5, 1, 5, 2))
        self.assertEqual(starts(self.hints), [(1, 3, "LoneReturns"), (4, 1, "LoneReturns"), (5, 1, "Overlay")])
        self.assertEqual(starts(self.change(1, (span(5, 1, 5, 2), ""))), [(4, 1, "BadByte"), (6, 1, "BadByte")])
        self.assertEqual(starts(self.change(2, (span(7, 0, 7, 0), "-"))), [(4, 1, "BadByte"), (6, 1, "BadByte"), (7, 0, "LooseTie")])
        self.assertEqual(starts(self.change(3, (span(4, 0, 6, 1), "c"))), [(4, 1, "BadByte"), (5, 0, "LooseTie")])
        self.finish()

    def test_many_faults(self) -> None:
        """Those near to the last change are sent, and not at each key."""
        self.assertEqual(len(self.open("X:1\nK:C\n" + "&\n" * 10_000)), 1000)
        self.assertEqual([hint["message"] for hint in self.hints if hint["code"] == "MoreFaults"], ["9000 more faults are not listed, those far from the last change"])
        change = {"range": span(5001, 0, 5001, 0), "text": "&"}
        with mock.patch.object(self.input, "flush"):  # all keys come at once, however slow this process is
            for version in range(1, 21):
                self.notify("textDocument/didChange", {"textDocument": {"uri": URI, "version": version}, "contentChanges": [change]})
        self.input.flush()
        versions = []
        while 20 not in versions:
            message = self.read()
            versions.append(message["params"]["version"])
            sent = [each["range"]["start"]["line"] for each in message["params"]["diagnostics"] if each["severity"] != 3]
            self.assertEqual((len(sent), 5001 in sent), (1000, True))
        self.assertLess(len(versions), 10)
        self.finish()

    def test_the_name_of_a_book_whose_text_is_unknown(self) -> None:
        uri = "file:///music/lsp%20b%C3%BCch%07.abc"
        self.open(BOOK, uri)
        self.notify("textDocument/didChange", {"textDocument": {"uri": uri, "version": 1}, "contentChanges": [{}]})
        self.read()
        self.assertIn("the text of lsp büch?.abc is unknown", self.read()["params"]["message"])
        self.finish()

    def test_play_is_offered_for_a_tune_with_a_file(self) -> None:
        self.open("X:1\nK:C\nC\n\nX:1\nK:C\nD\n\nX:2\nP:(A9999)99\nK:C\nP:A\nC\n\nwords\n")
        titles = [[action["title"] for action in self.actions(line, 0, [""])] for line in (0, 2, 4, 6, 8, 12, 14)]
        self.assertEqual(titles, [["Play 1"], ["Play 1"], ["Give this tune the number 3"], [], [], [], []])
        self.finish()

    def test_hover(self) -> None:
        text = 'X:1\nT:Kesh\nL:1/4\nQ:1/4=60\nK:C\nCDEF&|[Q:1/4=30]CDEF|\n\nX:1\nK:C\nz1000\n\nX:3\nL:1/4\nQ:1/4=120\nK:C\nC130\n\nwords\n'
        self.open(text + "X:4\nP:(A9999)99\nK:C\nP:A\nC\n")
        self.assertEqual(self.hover(0, 0), "1 Kesh, 0:12")
        self.assertEqual(self.hover(5, 4), f"{sentences()['BadByte']}\n\n{self.hints[0]['message']}\n\n1 Kesh, 0:12")
        self.assertEqual(self.hover(5, 5), "1 Kesh, 0:12")
        self.assertEqual(self.hover(7, 1), "number 1 is used at line 1, so this tune has no file; write another number\n\n1")
        self.assertEqual(self.hover(9, 1), "1: number 1 is used at line 1, so this tune has no file; write another number")
        self.assertEqual(self.hover(15, 99), "3, 1:05")
        self.assertEqual((self.hover(6, 0), self.hover(17, 0), self.hover(99, 0)), (None, None, None))
        self.assertEqual(self.hover(19, 0), f"4: {sentences()['TuneTooLong']}")
        self.finish()

    def test_hints(self) -> None:
        faults = self.open("X:1\nK:C\n|:C&D|\n\nX:1\nK:C\nC\n")
        self.assertEqual(starts(faults), [(2, 3, "BadByte")])
        self.assertEqual(starts(self.hints), [(2, 0, "OpenRepeat"), (2, 3, "Overlay"), (4, 0, "SameNumber")])
        self.assertEqual([each["range"]["end"] for each in self.hints], [{"line": 2, "character": 2}, {"line": 2, "character": 4}, {"line": 4, "character": 3}])
        self.assertEqual(self.change(1, (span(2, 3, 2, 6), ":|")), [])
        self.assertEqual(starts(self.hints), [(4, 0, "SameNumber")])
        self.finish()

    def test_hints_of_many_tunes(self) -> None:
        """Those near to the last change are published; of the faults all are. In a long book the later hints follow."""
        self.assertEqual(len(self.open("".join(f"X:{n}\nK:C\n|:C|\n-\n" for n in range(1, 301)))), 300)
        self.assertEqual(starts(self.hints), [(4 * n + 2, 0, "OpenRepeat") for n in range(100)])
        self.assertEqual(len(self.diagnostics(0)), 300)
        self.assertEqual(starts(self.hints), [(4 * n + 2, 0, "OpenRepeat") for n in range(200)])
        self.assertEqual(len(self.change(1, (span(602, 3, 602, 3), "D"))), 300)
        self.assertEqual(starts(self.hints), [(4 * n + 2, 0, "OpenRepeat") for n in range(50, 250)])
        self.change(2, (span(1198, 3, 1198, 3), "D"))
        self.assertEqual(starts(self.hints), [(4 * n + 2, 0, "OpenRepeat") for n in range(100, 300)])
        self.finish()

    def test_quick_fixes(self) -> None:
        faults = self.open('X:1\nK:C\n"Em DEFD|\n!trill𝄞 C|\n{ag F|\n[CE|G|\n"\n\nX: 1 % first\nK:C\nC\n\nX:2\nK:C\n')
        self.assertEqual([fault for fault in starts(faults) if fault[2] == "Unclosed"], [(n, 0, "Unclosed") for n in range(2, 7)])
        mended = []
        for line in range(2, 6):
            (fix,) = self.actions(line, 0, ["quickfix"])
            self.assertEqual((fix["kind"], fix["diagnostics"][0]["code"]), ("quickfix", "Unclosed"))
            (edit,) = fix["edit"]["changes"][URI]
            mended.append((edit["range"]["start"], edit["newText"]))
            faults = self.change(line, (edit["range"], edit["newText"]))
        ends = [({"line": 2, "character": 3}, '"'), ({"line": 3, "character": 8}, "!"), ({"line": 4, "character": 3}, "}")]
        self.assertEqual(mended, [*ends, ({"line": 5, "character": 3}, "]")])
        self.assertEqual(starts(faults), [(6, 0, "Unclosed")])
        self.assertEqual((self.actions(6, 0, ["quickfix"]), self.actions(9, 0, ["quickfix"])), ([], []))
        (fix,) = self.actions(8, 2, ["quickfix"])
        self.assertEqual(fix["title"], "Give this tune the number 3")
        self.assertEqual(fix["edit"], {"changes": {URI: [{"range": span(8, 3, 8, 4), "newText": "3"}]}})
        self.assertEqual([each["title"] for each in self.actions(12, 0)], ["Play 2"])
        self.finish()

    def test_completion(self) -> None:
        self.open("X:1\n\nK:\n[K:E\nC\nV:\n\n\n%%\nX:7\nM:\nV:air name=\"A\"\nV: bass\nK:C\nM\nV:b\n%%\n")
        self.assertEqual(self.labels(1, 0)[:3], ["T:", "C:", "R:"])
        self.assertEqual(self.labels(2, 2)[:5], ["C", "Am", "Ddor", "Gmix", "Ephr"])
        self.assertEqual(self.labels(3, 4)[:1], ["C"])
        self.assertEqual((self.labels(4, 1), self.labels(3, 2)), (["C:"], []))
        self.assertEqual(self.labels(7, 0)[-1], "X:8")
        self.assertEqual(self.labels(8, 2), ["%%MIDI program", "%%propagate-accidentals"])
        self.assertEqual(self.labels(10, 2)[:3], ["4/4", "3/4", "2/4"])
        self.assertEqual((self.labels(14, 1), self.labels(15, 3)), (["M:"], ["air", "bass"]))
        self.assertEqual(self.labels(16, 2), ["%%MIDI program"])
        (item,) = [item for item in self.at("completion", 3, 4) if item["label"] == "Am"]
        self.assertEqual((item["textEdit"], item["detail"]), ({"range": span(3, 3, 3, 4), "newText": "Am"}, "minor, no sharps or flats"))
        keys = [label for label in self.labels(2, 2) if "=" not in label]
        self.assertEqual((len(keys), len(set(keys))), (105, 105))
        for version, some in enumerate((keys[:50], keys[50:]), 1):  # the hints of a hundred tunes would come later
            self.assertEqual(self.change(version, ("\n".join(f"X:{n}\nK:{key}" for n, key in enumerate(some)),))[1:], [])
        self.finish()

    def test_completion_of_voices(self) -> None:
        """Their identifiers end at a blank, a space or a tab, or at a comment. Other white space is a part of them."""
        self.open("X:1\nV:a\u00a0b x\nV:%c\nV:\f\nV:d%e\r\n\v\nV: \ud834\nK:C\nV:\n")
        self.assertEqual(self.labels(8, 2), ["a\u00a0b", "\f", "d", "\ud834"])
        self.finish()

    def test_malformed_changes(self) -> None:
        """After them only a whole text is taken, so that the text never is another one than the editor's."""
        good = {"range": span(2, 0, 2, 1), "text": ""}
        places = [{"start": {"line": 2, "character": 0}}, span(2, 1, 2, 0), span(3, 0, 2, 0), span(2, -1, 2, 0), span(-2, 0, 2, 0), 7]
        places += [span(True, 0, 2, 0), span(2, "0", 2, 1), span(2, 0.0, 2, 1), {**span(2, 0, 2, 0), "end": None}]
        sent: list[Any] = [[good, {"range": place, "text": "x"}] for place in places]
        sent += [None, 7, {"text": "C"}, [good, {}], [good, {"text": None}], [good, {"range": span(2, 0, 2, 0)}], [good, []]]
        version = 0
        self.open("X:1\nK:C\n&&\n")
        for changes_of_text in sent:
            self.notify("textDocument/didChange", {"textDocument": {"uri": URI, "version": 1}, "contentChanges": changes_of_text})
            gone, message = self.read(), self.read()
            self.assertEqual(gone["params"], {"uri": URI, "diagnostics": []})
            self.assertEqual((message["method"], message["params"]["type"]), ("window/showMessage", 1), changes_of_text)
            self.assertIn("book.abc", message["params"]["message"])
            self.notify("textDocument/didChange", {"textDocument": {"uri": URI, "version": 2}, "contentChanges": [good]})
            self.assertEqual(self.ask("textDocument/documentSymbol", {"textDocument": {"uri": URI}}), -32803)
            version += 3
            self.assertEqual(starts(self.change(version, ("X:1\nK:C\n&&\n",))), [(2, 0, "BadByte")])
        several = (span(2, 0, 2, 1), ""), ("X:1\nK:C\n-\n",), (span(2, 1, 2, 1), "&")
        self.assertEqual(starts(self.change(version + 1, *several)), [(2, 0, "LooseTie"), (2, 1, "BadByte")])
        self.finish()

    def test_a_change_of_no_book(self) -> None:
        other = "file:///other"
        self.open("X:1\nK:C\n&")
        self.open("X:1\nK:C\n-", other)
        self.notify("textDocument/didChange", {"contentChanges": [{"text": ""}]})
        messages = [self.read() for _ in range(4)]
        self.assertEqual([each["method"] for each in messages[1::2]], ["window/showMessage"] * 2)
        for uri in (URI, other):
            self.assertEqual(self.ask("textDocument/documentSymbol", {"textDocument": {"uri": uri}}), -32803)
        self.finish()

    def test_a_saved_text(self) -> None:
        """The text of a save is taken if it differs from the known one."""
        self.open("X:1\nK:C\n&\n")
        for text, is_lost in ("X:1\nK:C\n&\n", False), ("X:1\nK:C\n-\n", False), ("X:1\nK:C\n-\n", True), ("X:1\nK:C\nC&\n", True):
            if is_lost:
                self.notify("textDocument/didChange", {"textDocument": {"uri": URI, "version": 1}, "contentChanges": [{}]})
                self.read(), self.read()
            self.notify("textDocument/didSave", {"textDocument": {"uri": URI}, "text": text})
            if is_lost or text != "X:1\nK:C\n&\n":
                published = self.read()["params"]["diagnostics"]
                self.assertEqual(starts([each for each in published if each["severity"] != 3]), wanted(text))
            self.assertEqual(len(self.ask("textDocument/documentSymbol", {"textDocument": {"uri": URI}})), 1)
        self.notify("textDocument/didSave", {"textDocument": {"uri": URI}})
        self.finish()

    def test_two_books(self) -> None:
        self.open("X:1\nK:C\n&")
        self.assertEqual(starts(self.open("X:0", "file:///other")), [(0, 0, "BadReference"), (0, 0, "MissingKey")])
        self.assertEqual(starts(self.change(1, (span(2, 0, 2, 1), "-"))), [(2, 0, "LooseTie")])
        paths = [self.play(uri, 0) for uri in (URI, "file:///other")]
        self.assertEqual([os.path.basename(path) for path in paths], ["1.mid", "0.mid"])
        self.assertEqual([os.listdir(os.path.dirname(path)) for path in paths], [["1.mid"], ["0.mid"]])
        self.notify("textDocument/didClose", {"textDocument": {"uri": URI}})
        self.assertEqual(self.read()["params"], {"uri": URI, "diagnostics": []})
        self.assertEqual(self.ask("textDocument/documentSymbol", {"textDocument": {"uri": URI}}), -32602)
        self.finish()

    def test_random_changes(self) -> None:
        """Each is followed by the diagnostics of a fresh run on the text."""
        chance = random.Random(trial.seed)
        tunes = [trial.random_tune(chance, number + 1) for number in range(min(trial.tunes, 9))]
        text = "\n".join(line for tune in tunes for line in tune)
        self.assertEqual(starts(self.open(text)), wanted(text))
        for version in range(1, trial.changes + 1):
            changes: list[tuple[Any, ...]] = []
            for _ in range(chance.choice([1, 1, 1, 2, 3])):
                start = chance.randrange(len(text) + 1)
                end = min(len(text), start + chance.choice([0, 0, 0, 1, 1, 2, 5, 40]))
                put = chance.choice([random_text(chance), random_text(chance), ""])
                changes.append((span(*place_of(text, start), *place_of(text, end)), put))
                text = text[:start] + put + text[end:]
            if chance.random() < 0.05:
                text = text[len(text) // 3 :] + text[: len(text) // 3]
                changes.append((text,))
            self.assertEqual(starts(self.change(version, *changes)), wanted(text), text)
        self.finish()


class Starts(Editor):
    """What the editor and the command line say at the start."""

    def test_an_editor_that_may_be_asked_for_whole_texts(self) -> None:
        can = {"textDocument": {"synchronization": {"dynamicRegistration": True}}}
        sync = self.ask("initialize", {"capabilities": can})["capabilities"]["textDocumentSync"]
        self.assertEqual(sync, {"openClose": True, "change": 2, "save": {"includeText": True}})
        self.open(BOOK)
        self.notify("textDocument/didChange", {"textDocument": {"uri": URI, "version": 1}, "contentChanges": [{}]})
        self.read()
        asked = self.read()
        self.assertEqual(asked["method"], "client/registerCapability")
        (registration,) = asked["params"]["registrations"]
        self.assertEqual((registration["method"], registration["registerOptions"]["syncKind"]), ("textDocument/didChange", 1))
        self.assertEqual(self.read()["method"], "window/showMessage")
        self.send(json.dumps({"jsonrpc": "2.0", "id": asked["id"], "result": None}).encode())
        self.assertEqual(starts(self.change(2, ("X:1\nK:C\n-",))), [(2, 0, "LooseTie")])
        self.notify("textDocument/didChange", {"textDocument": {"uri": URI, "version": 3}, "contentChanges": [{}]})
        self.assertEqual([self.read()["method"] for _ in range(2)], ["textDocument/publishDiagnostics", "window/showMessage"])
        self.finish()

    def test_the_name_and_the_version(self) -> None:
        self.assertEqual(self.ask("initialize", {})["serverInfo"], {"name": "abc2midi_live", "version": version()})

    def test_no_hints(self) -> None:
        self.server.kill()
        self.start("--no-hints")
        self.ask("initialize", {})
        self.assertEqual((starts(self.open("X:1\nK:C\n|:C&|")), self.hints), ([(2, 3, "BadByte")], []))
        self.assertEqual(self.hover(2, 0), "1, 0:00")
        self.finish()

    def test_no_player(self) -> None:
        self.server.kill()
        for words in (["--play", ""], ["--play", "'"]):
            self.start(*words)
            self.input.close()
            self.server.stdin = None
            self.assertEqual((self.server.wait(trial.SECONDS), self.output.read()), (2, b""))
            self.assertIn(b"--play", self.errors.read())

    def test_lengths_of_messages_that_cannot_be(self) -> None:
        """The session ends with a line that says why."""
        self.server.kill()
        for length in b"1%s" % (b"0" * 15), b"1%s" % (b"0" * 5_000), b"-1", b"1e3", b"":
            self.start()
            self.input.write(b"Content-Length: %s\r\n\r\n{}" % length)
            self.input.close()
            self.server.stdin = None
            said = self.errors.read()
            self.assertEqual((self.server.wait(trial.SECONDS), said.count(b"\n"), said[:17]), (1, 1, b"language_server: "), said)
            self.assertEqual(os.listdir(self.files), [])

    def test_a_message_that_ends_early(self) -> None:
        self.input.write(b"Content-Length: 1000000000\r\n\r\n{}")
        self.input.close()
        self.server.stdin = None
        self.assertEqual((self.server.wait(trial.SECONDS), self.errors.read()), (1, b""))


class Played(Editor):
    """Books that are opened again, and files that are played."""

    def setUp(self) -> None:
        super().setUp()
        self.ask("initialize", {})

    def test_a_book_that_is_opened_twice(self) -> None:
        self.open("X:1\nK:C\n&")
        self.assertEqual(starts(self.open("X:1\nK:C\nC-")), [])
        self.assertEqual(starts(self.change(1, (span(2, 2, 2, 2), "&"))), [(2, 2, "BadByte")])
        self.finish()

    def test_files_that_the_system_removes(self) -> None:
        """They are there again when they are played, and other books are opened as before."""
        self.open(BOOK)
        path = self.play(URI, 0)
        os.unlink(path)
        paths = [self.play(URI, 0)]
        shutil.rmtree(os.path.dirname(paths[0]))
        self.change(1, (span(3, 0, 3, 1), "A"))
        removes: list[Callable[[], None]] = [lambda: None, lambda: shutil.rmtree(os.path.dirname(paths[-1]))]
        for remove in removes:
            remove()
            paths.append(self.play(URI, 0))
            with open(paths[-1], "rb") as file:
                self.assertEqual(file.read(), trial.fresh(BOOK.replace("GABc", "AABc").encode()).files["1.mid"])
        shutil.rmtree(os.path.dirname(paths[-1]))
        self.assertEqual(starts(self.open("X:1\nK:C\n&", "file:///other")), [(2, 0, "BadByte")])
        self.assertIsNone(self.ask("shutdown"))
        self.assertEqual(os.listdir(self.files), [])


class Documents(trial.Folder):
    """A document by itself."""

    def test_the_lines_that_are_held(self) -> None:
        chance = random.Random(trial.seed)
        book = document.Document("", open_library(trial.library), {})
        self.addCleanup(book.close)
        self.assertEqual(book.book.lines, [])
        text = ""
        for _ in range(200):
            start = chance.randrange(len(text) + 1)
            end = min(len(text), start + chance.choice([0, 1, 3, 30]))
            put = chance.choice(["", "\n", "a", "é\n", "\na𝄞\r\n\n", "\r", "a\ré", "\r\r\n", "\n\r"])
            place = text_changes.Range(text_changes.Position(*place_of(text, start)), text_changes.Position(*place_of(text, end)))
            book.change(text_changes.Change(place, put))
            text = text[:start] + put + text[end:]
            self.assertEqual(book.book.lines, lines_of_book(text.encode()))
            for at in [at for at in range(len(text) + 1) if text[at - 1 : at + 1] != "\r\n"]:
                line, _, before = text[:at].rpartition("\n")
                position = text_changes.Position(*place_of(text, at))
                here = text[:at].count("\n"), len(before)
                self.assertEqual((book.character(position), book.text.position(*here)), (here, position), (text, at))

    def test_what_is_asked_once(self) -> None:
        """A text that did not change has the same faults and hints."""
        book = document.Document("X:1\nK:C\n|:C&D|\n", open_library(trial.library), {}, Finder(trial.library))
        self.addCleanup(book.close)
        faults = mock.patch.object(session_book.SessionBook, "faults", autospec=True, side_effect=session_book.SessionBook.faults)
        hints = mock.patch.object(Finder, "take", autospec=True, side_effect=Finder.take)
        with faults as asked, hints as sought:
            for _ in range(3):
                self.assertIn("BadByte", [remark.name for remark in remarks.remarks_in(book, 2, 2)])
                remarks.remarks_to_send(book)
            self.assertEqual((asked.call_count, sought.call_count), (1, 1))
            book.change(text_changes.Change(text_changes.Range(text_changes.Position(2, 3), text_changes.Position(2, 4)), ""))
            self.assertNotIn("BadByte", [remark.name for remark in remarks.remarks_in(book, 2, 2)])


class Protocol(Editor):
    """Requests at a wrong time, unknown ones, and what is no request."""

    def test_order_of_requests(self) -> None:
        self.assertEqual(self.ask("textDocument/documentSymbol", {"textDocument": {"uri": URI}}), -32002)
        self.notify("textDocument/didOpen", {"textDocument": {"uri": URI, "version": 1, "text": "&"}})
        self.ask("initialize", {})
        self.assertEqual(self.ask("initialize", {}), -32600)
        self.assertEqual(self.ask("textDocument/typeDefinition", {}), -32601)
        self.assertEqual(self.ask("$/unknown"), -32601)
        self.notify("$/setTrace", {"value": "off"})
        self.notify("workspace/didChangeConfiguration", {})
        self.send(b'{"jsonrpc": "2.0", "id": 7, "result": null}')
        self.assertEqual(self.ask("textDocument/documentSymbol", {}), -32602)
        self.assertEqual(self.ask("textDocument/documentSymbol"), -32602)
        self.assertIsNone(self.ask("shutdown"))
        self.assertEqual(self.ask("shutdown"), -32600)
        self.notify("textDocument/didOpen", {"textDocument": {"uri": URI, "version": 1, "text": "&"}})
        self.notify("textDocument/didClose", {"textDocument": {"uri": URI}})
        self.notify("exit")
        self.assertEqual((self.server.wait(trial.SECONDS), os.listdir(self.files)), (0, []))
        self.assertEqual((self.output.read(), self.errors.read()), (b"", b""))

    def test_what_is_no_request(self) -> None:
        deep = b"[" * 100_000
        for data, code in (b"{", -32700), (b"\xff", -32700), (b"", -32700), (deep, -32700), (b"[]", -32600), (b'{"id": 1, "method": 2}', -32600):
            self.send(data)
            self.assertEqual(self.read()["error"]["code"], code)
        data = b'{"id": "a", "method": "initialize", "params": {}}'
        self.input.write(b"content-length:%d\r\nContent-Type: x\r\n\r\n" % len(data) + data)
        self.input.flush()
        self.assertEqual(self.read()["id"], "a")
        self.notify("exit")
        self.assertEqual((self.server.wait(trial.SECONDS), os.listdir(self.files)), (1, []))

    def test_the_input_ends(self) -> None:
        self.ask("initialize", {})
        self.open(BOOK)
        self.input.close()
        self.server.stdin = None
        self.assertEqual((self.server.wait(trial.SECONDS), os.listdir(self.files)), (1, []))

    def test_the_terminal_is_closed(self) -> None:
        self.notify("exit")
        self.server.wait(trial.SECONDS)
        trial.hear_of_the_terminal(self)
        self.start()
        self.ask("initialize", {})
        self.open(BOOK)
        self.server.send_signal(signal.SIGHUP)
        self.assertEqual((self.server.wait(trial.SECONDS), os.listdir(self.files), self.errors.read()), (1, [], b""))

    def test_a_player(self) -> None:
        self.server.kill()
        self.start("--play", f"cp -t {self.folder}")
        self.ask("initialize", {})
        self.open(BOOK)
        place = {"textDocument": {"uri": URI}, "position": {"line": 1, "character": 0}}
        path = self.ask("workspace/executeCommand", {"command": "play", "arguments": [place]})
        self.assertEqual(os.path.basename(path), "1.mid")
        self.finish()

    def test_the_option_of_many_editors(self) -> None:
        self.server.kill()
        self.start("--stdio")
        self.ask("initialize", {})
        self.finish()

    def test_a_library_that_is_not_there(self) -> None:
        self.server.kill()
        name = self.folder / "none"
        self.start("--library", str(name))
        self.assertEqual((self.server.wait(trial.SECONDS), self.output.read()), (127, b""))
        self.assertRegex(self.errors.read().decode(), rf"\Alanguage_server: {name}: .*\n\Z")


def place_of(text: str, at: int) -> tuple[int, int]:
    """The line of a place of a text, and the UTF-16 units before it there. A place inside the end of a line is one after it."""
    is_inside = text[at - 1 : at + 1] == "\r\n"
    before = re.split("\r\n|\n|\r", text[: at - is_inside])
    return len(before) - 1, units(before[-1]) + is_inside


def random_text(chance: random.Random) -> str:
    """A little text: pieces of music, lines, or a tune."""
    kind = chance.random()
    if kind < 0.5:
        return chance.choice(trial.MUSIC + ["\n", "\n", "\r\n", "X:", "%"])
    if kind < 0.9:
        return chance.choice(["", "\n"]) + trial.random_line(chance) + chance.choice(["", "\n"])
    return "\n" + "\n".join(trial.random_tune(chance, chance.randrange(1, 20)))
