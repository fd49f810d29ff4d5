"""Tries the package in Node: conversations of the program, the calls, and the memory."""

from __future__ import annotations

import unittest

import common


@unittest.skipUnless(common.node(), "Node is not installed")
class InNode(common.Room):
    def answer(self, kind: str, conversations: list[common.Conversation]) -> None:
        """Compares the answers of sessions of a kind with the wanted ones."""
        for name, stream, _ in conversations:
            (self.folder / name).write_bytes(stream)
        names = [str(self.folder / name) for name, _, _ in conversations]
        self.lines_of([*common.node(), str(common.TESTS / "answer.mjs"), str(common.package), kind, *names])
        for name, _, wanted in conversations:
            with self.subTest(name):
                self.assertEqual((self.folder / f"{name}.answers").read_bytes(), wanted)

    def test_conversations(self) -> None:
        self.answer("session", common.conversations())

    def test_conversations_of_two_sessions_on_one_engine(self) -> None:
        self.answer("two", common.conversations()[::4])

    def test_conversations_in_a_worker(self) -> None:
        self.answer("worker", common.conversations()[::10])

    def test_calls(self) -> None:
        self.assert_ok([*common.node(), str(common.TESTS / "calls.mjs"), str(common.package)], 21)

    def test_memory(self) -> None:
        words = [*common.node(), "--expose-gc", str(common.TESTS / "memory.mjs"), str(common.package)]
        self.assert_ok(words, 7)

    def test_a_long_session_has_what_a_fresh_one_has(self) -> None:
        lines = self.lines_of([str(common.TOP / "scripts/measure/long_session"), str(common.package), "--reels", "5", "--edits", "50"])
        self.assertEqual(lines[-1], "files, titles and faults are those of a fresh run")


@unittest.skipUnless(common.node(), "Node is not installed")
class WithoutWebAssembly(common.Room):
    """A Node that has no WebAssembly gets a plain sentence."""

    def test_the_sentence(self) -> None:
        script = f"const {{ Session }} = await import('file://{common.package}/index.js');"
        script += "console.log(Session.isSupported()); await Session.open().catch(({ name, message }) => console.log(name, message));"
        lines = self.lines_of([*common.node(), "--no-expose-wasm", "--input-type=module", "-e", script])
        self.assertEqual(lines[0], "false")
        self.assertRegex(lines[1], "^NotSupportedError WebAssembly is missing or too old here: use Chromium 94")
