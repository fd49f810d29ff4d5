"""The page's book, called without its server.

LONG_LOOPS=1 in the environment tries four hundred timed saves."""

import os
import random
import threading
import time
import unittest
from collections.abc import Callable
from concurrent.futures import ThreadPoolExecutor
from functools import partial
from typing import Any
from unittest import mock

import trial
from abc2midi_live import OutOfMemory, TokenKind
from abc2midi_live_clients.common.json_object import Json
from abc2midi_live_clients.page import saving, shared_book, shared_text, tokens_and_plays
from abc2midi_live_clients.page.finding_rows import moved
from abc2midi_live_clients.page.refused import Refused
from abc2midi_live_clients.page.saving import digest, save_book
from abc2midi_live_clients.page.shared_book import SharedBook

SAVES = 400 if os.environ.get("LONG_LOOPS") else 60
SLOWEST = 0.008  # seconds that a call of the disk takes
MOMENT = 0.1  # seconds
LATE = 5.0  # seconds: longer than a busy machine takes for an edit
SPREAD = 0.03  # seconds after the begin of a save in which keys, another program and a look at the file come


class OneWindow(trial.Folder):
    """A book, and a window that has its present version."""

    def setUp(self) -> None:
        super().setUp()
        self.path = self.folder / "book.abc"
        self.path.write_bytes(b"X:1\nK:C\nC\n")
        self.book = SharedBook(str(self.path), trial.library)
        self.addCleanup(self.book.close)

    def ask(self, call: Callable[[Json], Json], **more: Any) -> Json:
        """What answers a window that has the present version."""
        return call({"run": self.book.run, "version": self.book.version, **more})

    def edit(self, line: str) -> Json:
        """Replaces the first line."""
        return self.ask(self.book.edit, start=0, stop=1, lines=[line])


class Line(bytes):
    """A line that counts how often lines are compared."""

    compared = 0

    def __eq__(self, other: object) -> bool:
        Line.compared += 1
        return bytes.__eq__(self, other)

    __hash__ = bytes.__hash__


class Compared(unittest.TestCase):
    """Whether a text is that of the file."""

    def test_the_lines_of_an_edit_are_compared_first(self) -> None:
        """So a key in a long book compares one line. Another edit may have changed the others."""
        saved, lines = ([Line(b"C")] + [Line(b"D%d" % n) for n in range(999)] for _ in range(2))
        edit = {"start": 900, "stop": 901, "lines": ["E"]}
        self.assertFalse(shared_text.are_others(lines, saved, [edit]))
        self.assertFalse(shared_text.are_others(lines, saved, []))
        lines[0] = Line(b"E")
        self.assertTrue(shared_text.are_others(lines, saved, [edit]))
        lines[:1], lines[900] = [Line(b"C")], Line(b"E")
        Line.compared = 0
        self.assertTrue(shared_text.are_others(lines, saved, [edit]))
        self.assertEqual(Line.compared, 1)
        self.assertTrue(shared_text.are_others(lines[:-1], saved, [edit]))


class Saves(OneWindow):
    def test_a_save_during_an_edit(self) -> None:
        """It counts after the edit too, so the file is not taken for another program's."""
        self.edit("X:2")
        publish = self.book.publish

        def save_and_publish(*words: Any) -> list[Json]:
            self.ask(self.book.save)
            return publish(*words)

        with mock.patch.object(self.book, "publish", save_and_publish):
            self.edit("X:3")
        state, saved = self.book.now(), b"X:2\nK:C\nC\n"
        self.assertEqual(self.path.read_bytes(), saved)
        self.assertEqual((state["saved"], state["disk"], state["unsaved"]), (digest(saved), digest(saved), True))
        self.assertFalse(self.ask(self.book.save)["unsaved"])
        self.assertEqual(self.path.read_bytes(), b"X:3\nK:C\nC\n")

    def test_an_edit_during_a_save(self) -> None:
        """It comes between the text that the save takes and the end of the save: it is unsaved."""
        self.edit("X:2")

        def edit_and_save(*words: Any) -> None:
            self.edit("X:3")
            save_book(*words)

        with mock.patch.object(shared_book, "save_book", edit_and_save):
            state = self.ask(self.book.save)
        saved = b"X:2\nK:C\nC\n"
        self.assertEqual((self.path.read_bytes(), state["saved"]), (saved, digest(saved)))
        self.assertEqual((state["unsaved"], self.book.now()["unsaved"]), (True, True))
        self.edit("X:2")
        self.assertFalse(self.book.now()["unsaved"])

    def test_which_edits_are_in_the_text(self) -> None:
        """A window says so with its edit; without a word, and for what comes from disk, the author is the run of the server."""
        run = self.book.run
        self.assertEqual(self.book.snapshot()["has"], {run: 0})
        change = self.ask(self.book.edit, start=0, stop=1, lines=["X:2"], has={"one": 3, "old-run": 0})
        self.assertEqual(change["has"], {"one": 3, "old-run": 0})
        self.edit("X:3")
        self.ask(self.book.edit, start=0, stop=1, lines=["X:4"], has={"one": 2, "other": 1})
        self.assertEqual(self.book.snapshot()["has"], {run: 2, "one": 3, "old-run": 0, "other": 1})
        self.ask(self.book.save)
        self.path.write_bytes(b"X:9\nK:C\nC\n")
        for _ in range(3):
            self.book.look()
        self.assertEqual((self.book.snapshot()["has"][run], self.book.version), (4, 4))
        bad: list[Any] = [["one"], "one", {"one": -1}, {"one": "1"}, {"a b": 1}, {"": 1}, {"one": True}]
        for has in bad:
            with self.assertRaises(Refused):
                self.ask(self.book.edit, start=0, stop=1, lines=["X:5"], has=has)
        self.assertEqual(self.book.version, 4)

    def test_the_later_of_two_states(self) -> None:
        """It has the larger moment, after an edit, a save, and what another program writes."""
        moments = [self.book.now()["moment"]]
        moments.append(self.edit("X:2")["moment"])
        moments.append(self.ask(self.book.save)["moment"])
        self.edit("X:3")
        self.path.write_bytes(b"another's")
        for _ in range(3):
            self.book.look()
        moments.append(self.book.now()["moment"])
        self.assertEqual(moments, sorted(set(moments)))

    def test_a_file_that_is_gone_for_a_moment(self) -> None:
        """An editor may remove it before it writes it: it counts as gone at the second look."""
        data = self.path.read_bytes()
        self.path.unlink()
        self.book.look()
        self.assertEqual(self.book.now()["disk"], digest(data))
        self.path.write_bytes(data)
        self.book.look()
        self.path.unlink()
        self.book.look()
        self.assertEqual((self.book.now()["disk"], self.book.now()["unsaved"]), (digest(data), False))
        self.book.look()
        self.assertEqual((self.book.now()["disk"], self.book.now()["unsaved"]), (None, True))

    def test_hints_of_an_older_text(self) -> None:
        """They come when the text is a newer one, and do not count."""
        known, hint = self.book.version, (2, 0, 1, "Overlay", "Words.")
        self.edit("X:2")
        self.book.know_hints(known, [hint])
        self.assertEqual(self.book.hints_now(), {"version": known + 1, "hints": 0, "rows": []})
        self.book.know_hints(known + 1, [hint])
        self.assertEqual(self.book.hints_now(), {"version": known + 1, "hints": 1, "rows": [hint]})

    def test_hints_move_with_their_lines(self) -> None:
        """A window that opens the book sees them there until the hints on the new text are known."""
        self.book.know_hints(self.book.version, [(0, 0, 1, "SameNumber", "Words."), (2, 0, 1, "Overlay", "Words.")])
        self.ask(self.book.edit, start=1, stop=1, lines=["T:one", "T:two"])
        self.assertEqual([row[0] for row in self.book.snapshot()["hintRows"]], [0, 4])
        self.ask(self.book.edit, start=0, stop=1, lines=["X:2"])
        self.assertEqual([row[0] for row in self.book.snapshot()["hintRows"]], [4])


class News(OneWindow):
    """What a window hears beside the answers to its edits."""

    def waits(self, window: str, act: Callable[[], object] = bool) -> float:
        """How long news wait for a window, while something happens a moment after their begin."""
        timer = threading.Timer(MOMENT, act)
        seen, state, since = self.book.version, self.book.now(), time.monotonic()
        self.ask(self.book.edit, start=0, stop=1, lines=["X:2"], window="one")
        timer.start()
        changes, _ = self.book.news(seen, state, trial.SECONDS, window)
        self.assertEqual([change["version"] for change in changes][:1], [seen + 1])
        timer.join()
        return time.monotonic() - since

    @mock.patch.object(shared_text, "SECONDS_FOR_ANSWERS", LATE)
    def test_edits_of_the_window(self) -> None:
        """They come later than their answers, but for what other windows and other programs do meanwhile."""
        self.assertGreater(self.waits("one"), LATE)
        self.assertLess(self.waits("two"), LATE)
        other = partial(self.ask, self.book.edit, start=1, stop=2, lines=["K:D"], window="two")
        self.assertLess(self.waits("one", other), LATE)
        self.assertLess(self.waits("one", partial(self.ask, self.book.save)), LATE)
        self.assertLess(self.waits("one", partial(self.book.know, "another's")), LATE)


class Counts(OneWindow):
    """How many windows there are."""

    def test_a_window_that_holds_a_connection_at_last(self) -> None:
        """It asked for news again and again before, and counts once."""
        for name in ("one", "two"):
            self.book.news_for(0, name)
        self.assertEqual(self.book.now()["windows"], 2)
        self.book.begin_stream("one")
        self.assertEqual(self.book.now()["windows"], 2)
        self.book.end_stream()
        self.assertEqual(self.book.now()["windows"], 1)


class Questions(OneWindow):
    """What hints are looked for on."""

    def test_rows(self) -> None:
        """They are those of the book: to make others of them would let a key wait in a long book."""
        self.edit("X:2")
        version, question = self.book.question(0, 0)
        self.assertEqual((version, question.text.lines[0], question.tunes), (1, b"X:2", [(0, 2, "", True)]))
        self.assertIs(question.tunes, self.book.rows.tunes)
        self.assertIs(question.faults, self.book.rows.faults)

    def test_an_edit_of_one_line(self) -> None:
        """It leaves the rows of the tunes as they are, so nothing is compared."""
        tunes = self.book.rows.tunes
        self.ask(self.book.edit, start=2, stop=3, lines=["D"])
        self.assertIs(self.book.rows.tunes, tunes)
        self.assertIs(moved(tunes, {"start": 2, "stop": 3, "lines": ["D"]}), tunes)


NOTE, REST, BAR, FREE = TokenKind.NOTE.value, TokenKind.REST.value, TokenKind.BAR_LINE.value, TokenKind.FREE_TEXT.value


class TimedSaves(OneWindow):
    """Saves while keys are typed, another program replaces the file, and the disk is slow."""

    def setUp(self) -> None:
        super().setUp()
        self.chance = random.Random(trial.seed)
        self.had = {self.book.data()}  # the texts of the book
        self.slow(os, "fsync")
        self.slow(saving, "read_book")
        self.slow(saving, "exchange")
        publish = self.book.publish

        def note(*words: Any) -> list[Json]:
            changes = publish(*words)
            self.had.add(self.book.data())
            return changes

        self.replace(self.book, "publish", note)

    def replace(self, place: Any, name: str, call: Callable[..., Any]) -> None:
        patch = mock.patch.object(place, name, call)
        patch.start()
        self.addCleanup(patch.stop)

    def slow(self, place: Any, name: str) -> None:
        """Has a call take a while before and after it acts."""
        call = getattr(place, name)

        def late(*words: Any) -> Any:
            self.pause(SLOWEST / 2)
            found = call(*words)
            self.pause(SLOWEST / 2)
            return found

        self.replace(place, name, late)

    def pause(self, longest: float) -> None:
        time.sleep(self.chance.random() * longest)

    def insist(self, call: Callable[[Json], Json], **more: Any) -> bool:
        """Asks again while the window lacks changes. Whether the answer is not that another program changed the book."""
        for _ in range(100):
            try:
                self.ask(call, **more)
                return True
            except Refused as refused:
                if "changes" not in refused.answer:
                    return False
        raise AssertionError("the window never has all changes")

    def other_program(self, data: bytes) -> None:
        """Replaces the file."""
        new = self.folder / "new"
        new.write_bytes(data)
        new.replace(self.path)

    def later(self, act: Callable[[], Any]) -> None:
        self.pause(SPREAD)
        act()

    def test_saves_while_others_act(self) -> None:
        """The file has a text of the book or of the other program, whose text is never lost unread. 'unsaved' is right."""
        for number in range(SAVES):
            other = b"X:1\nK:C\n%% %d\n" % number if self.chance.random() < 0.5 else b""
            self.insist(self.book.edit, start=0, stop=1, lines=[f"X:{number}"])
            acts: list[Callable[[], Any]] = [self.book.look, partial(self.insist, self.book.edit, start=1, stop=2, lines=[f"K:C % {number}"])]
            acts += [partial(self.other_program, other)] if other else []
            with ThreadPoolExecutor(len(acts)) as pool:
                done = [pool.submit(self.later, act) for act in acts]
                is_saved = self.insist(self.book.save)
            for one in done:
                one.result()
            self.check(other, is_saved)

    def check(self, other: bytes, is_saved: bool) -> None:
        """After a save, beside which another program wrote a text, or nothing."""
        content = self.path.read_bytes()
        self.assertTrue(content == other or content in self.had and (not other or other in self.had), (content, other))
        self.assertTrue(is_saved or other != b"")
        for _ in range(3):
            self.book.look()
        state = self.book.now()
        self.assertEqual((state["disk"], state["unsaved"]), (digest(content), content != self.book.data()))
        if state["disk"] != state["saved"]:
            self.assertEqual(content, other)
            self.assertFalse(self.insist(self.book.save))
            self.assertEqual(self.path.read_bytes(), other)
            self.assertTrue(self.insist(self.book.save, over=state["disk"]))
            self.assertEqual(self.path.read_bytes(), self.book.data())


class Views(trial.Folder):
    """What a window sees: tokens of lines, and the play of a tune."""

    def setUp(self) -> None:
        super().setUp()
        self.path = self.folder / "book.abc"
        self.path.write_bytes("X:1\nL:1/4\nK:C\n\"é𝄞\"CD|z\nC\n".encode())
        self.book = SharedBook(str(self.path), trial.library)
        self.addCleanup(self.book.close)

    def ask(self, call: Callable[[Json], Json], first: int, last: int, tune: Any, **more: Any) -> Json:
        """What answers a window that has the present version, and sees lines and a tune."""
        seen = {"from": first, "to": last, "tune": tune}
        view: Json = call({"run": self.book.run, "version": self.book.version, "sees": seen, **more})["view"]
        return view

    def test_tokens(self) -> None:
        """Columns are those of UTF-16, from 0: the clef has two units there."""
        view = self.ask(self.book.view, 3, 9, None)
        quoted = TokenKind.QUOTED.value
        music = [0, 5, quoted, 0, 5, 6, NOTE, 0, 6, 7, NOTE, 0, 7, 8, BAR, 0, 8, 9, REST, 0]
        self.assertEqual(view, {"from": 3, "to": 9, "tokens": [music, [0, 1, NOTE, 0], []], "tune": None, "play": None})

    def test_play(self) -> None:
        """A quarter note has 480 ticks."""
        conductor, voice = self.ask(self.book.view, 0, 0, 1)["play"]
        entries = [voice[at : at + 9] for at in range(0, len(voice), 9)]
        self.assertEqual(conductor, [])
        notes = [[0, 480, 3, 5, 6, 1, 60], [480, 960, 3, 6, 7, 1, 62], [1440, 1920, 4, 0, 1, 1, 60]]
        self.assertEqual([entry[:7] for entry in entries if entry[5] == 1], notes)
        self.assertEqual([entry for entry in entries if entry[5] == 2], [[960, 1440, 3, 8, 9, 2, 128, 0, 0]])
        self.assertEqual([entry[:7] for entry in entries if entry[5] == 3][:1], [[960, 960, 3, 7, 8, 3, 128]])
        self.assertEqual(self.ask(self.book.view, 0, 0, 2)["play"], None)

    def test_the_answer_to_an_edit(self) -> None:
        """It has what is seen after the edit, in the same answer; windows that follow do not get it."""
        view = self.ask(self.book.edit, 3, 5, 1, start=3, stop=4, lines=["", "D"])
        self.assertEqual(view["tokens"][1], [0, 1, FREE, 0])
        self.assertNotIn("view", self.book.changes_after(0)["changes"][0])
        view = self.ask(self.book.edit, 3, 4, 1, start=3, stop=5, lines=["D"])
        self.assertEqual((view["tokens"], view["play"][1][:7]), ([[0, 1, NOTE, 0]], [0, 480, 3, 0, 1, 1, 62]))

    def test_what_is_no_view(self) -> None:
        bad: list[Any] = [None, [], {"from": -1, "to": 1}, {"from": 0}, {"from": 0, "to": True, "tune": None}, {"from": 0, "to": 1, "tune": "1"}]
        for seen in bad:
            with self.assertRaises(Refused):
                self.book.view({"run": self.book.run, "version": self.book.version, "sees": seen})
        with self.assertRaises(Refused):
            self.book.view({"run": self.book.run, "version": 7, "sees": {"from": 0, "to": 1, "tune": None}})

    def test_limits(self) -> None:
        """Of very many lines, tokens or entries a window gets some, or none."""
        with mock.patch.multiple(tokens_and_plays, MOST_LINES=4, MOST_TOKENS=6, MOST_ENTRIES=3):
            view = self.ask(self.book.view, 2, 6, 1)
            self.assertEqual((len(view["tokens"]), view["play"]), (2, None))
            self.assertEqual(len(self.ask(self.book.view, 0, 6, None)["tokens"]), 3)

    def test_an_allocation_that_fails(self) -> None:
        """The edit is refused, and the next one finds another session with the text that is there."""
        before = self.book.session.book
        assert before
        with mock.patch.object(before.session, "apply", side_effect=OutOfMemory("an allocation failed")):
            with self.assertRaises(Refused) as caught:
                self.ask(self.book.edit, 3, 4, None, start=4, stop=5, lines=["D"])
        self.assertEqual((caught.exception.status, self.book.version), (413, 0))
        self.assertEqual(self.ask(self.book.edit, 4, 5, None, start=4, stop=5, lines=["z"])["tokens"], [[0, 1, REST, 0]])
        self.assertIsNot(self.book.session.book, before)

    def test_any_exception_after_an_edit_was_handed_over(self) -> None:
        """The windows have not seen the edit, so the next one finds a session without it."""
        for place, name in ((self.book.session, "rows"), (shared_text, "view_of"), (shared_text, "difference"), (shared_text, "are_others")):
            for error in (RuntimeError("odd"), MemoryError(), KeyboardInterrupt()):
                version, fresh = self.book.version, trial.fresh(self.book.data())
                with self.subTest(name, error=error), mock.patch.object(place, name, side_effect=error):
                    with self.assertRaises((RuntimeError, KeyboardInterrupt, Refused, MemoryError)):
                        self.ask(self.book.edit, 3, 4, None, start=0, stop=1, lines=["X:7"])
                self.assertEqual(self.book.version, version)
                self.assertEqual(self.book.midi(1), fresh.files["1.mid"])
                with self.assertRaises(Refused):
                    self.book.midi(7)
                self.ask(self.book.edit, 0, 1, None, start=4, stop=5, lines=["D" * (1 + version % 5)])
                self.assertEqual([self.book.midi(1)], list(trial.fresh(self.book.data()).files.values()))
