"""A text that windows of a browser edit together: its lines as they see them, and what each edit changed."""

import secrets
import threading
import time
from collections.abc import Sequence
from typing import NamedTuple, Optional

from abc2midi_live import Report
from abc2midi_live.lines import without_empty_end

from ..common.json_object import Json
from ..common.session_book import SessionBook
from .book_text import Text, edits_of
from .finding_rows import NOTHING_FOUND, Rows, difference, moved, shown_rows
from .hint_process import HintRow, Question
from .midi_names import zip_of
from .own_session import OwnSession, hand_over
from .refused import Refused
from .saving import digest_of
from .tokens_and_plays import view_of
from .window_requests import edits_in, is_count, lines_in, sight_of, window_of
from .windows import RecentChanges, Windows

SECONDS_FOR_ANSWERS = 0.5  # in which a window gets the answers to its edits, before it hears of them once more
OF_AN_ANSWER = ("version", "moment", "unsaved")  # what the answer to an edit has of the state


class Disk(NamedTuple):
    """What is known of the file: the content that was read or saved last, its digest, the digest that it has now, and why it
    cannot be read. The digests are None if there is no file."""

    text: Text
    saved: Optional[str]
    present: Optional[str]
    trouble: str = ""


class Version(NamedTuple):
    """A text, what the session finds in it and changed by it, and what is known of the file if the text comes from there."""

    text: Text
    rows: Rows
    report: Report
    disk: Optional[Disk] = None


class SharedText:
    """A text as the windows see it, what was saved of it, and the session of the library that holds the same text. A line that
    nobody edits stays as it is.

    Whoever asks the session holds `turn`; `moved` guards what windows see, and is held for a moment only, so that windows hear of
    the state during a long edit."""

    def __init__(self, content: Optional[bytes], library: Optional[str] = None):
        self.library = library
        self.turn, self.moved = threading.Lock(), threading.Condition()
        self.run = secrets.token_hex(8)
        self.version = self.moment = 0  # the moment counts saves and what is known of the file, too
        self.has: dict[str, int] = {self.run: 0}  # the edits that are in the text: by author, the number of the last one
        self.changes = RecentChanges()
        self.windows = Windows()
        self.hints: list[HintRow] = []
        self.hints_told = 0  # how often there were other ones
        self.text = Text.of(content or b"")
        self.disk = Disk(self.text, digest_of(content), digest_of(content))
        self.is_unsaved = False
        self.session = OwnSession(library, lambda: self.text)
        self.rows = self.session.do(self.session.rows)

    def close(self) -> None:
        """Ends the session."""
        self.session.close()

    # ---- what windows see

    def snapshot(self) -> Json:
        """The whole text as a window sees it."""
        with self.moved:
            return {
                **shown_lines(self.text),
                "faults": shown_rows(self.text, self.rows.faults),
                "tunes": self.rows.tunes,
                "hintRows": self.hints,
                "has": dict(self.has),
                **self.state(),
            }

    def state(self) -> Json:
        """How the book is: `saved` is what the text was last, `disk` is what the file is now. `mark`, `returns` and `letters` are
        what windows do not see of the text. Of two states the later one has the larger `moment`."""
        return {
            "run": self.run,
            "version": self.version,
            "moment": self.moment,
            "mark": bool(self.text.mark),
            "returns": self.text.returns,
            "letters": self.text.letters.name(),
            "unsaved": self.is_unsaved or (self.disk.saved is not None and self.disk.present is None),
            "saved": self.disk.saved,
            "disk": self.disk.present,
            "trouble": self.disk.trouble,
            "windows": self.windows.count(),
            "hints": self.hints_told,
        }

    def now(self) -> Json:
        """How the book is, for a window that looks whether the server is there."""
        with self.moved:
            return self.state()

    def data(self) -> bytes:
        """The bytes that a save writes."""
        with self.moved:
            return self.text.data()

    def saved_lines(self) -> Json:
        """The lines that were read or saved last, as windows see them."""
        with self.moved:
            return shown_lines(self.disk.text)

    def midi(self, number: int) -> bytes:
        """The MIDI file of a number."""
        with self.turn:
            data = self.session.do(lambda book: book.midi(number))
        if data is None:
            raise Refused(404, f"number {number} has no file")
        return data

    def all_midi(self) -> bytes:
        """The MIDI files of all numbers, in a .zip."""
        with self.turn:
            owners = [(number, title) for _, number, title, has_file in self.rows.tunes if has_file]
            found = self.session.do(lambda book: [(number, title, book.midi(number)) for number, title in owners])
        return zip_of((number, title, data) for number, title, data in found if data is not None)

    def view(self, asked: Json) -> Json:
        """What a window sees of the text, for one that saw all changes."""
        with self.turn:
            self.same_version(asked)
            sight = sight_of(asked)
            if not sight:
                raise Refused(400, "a view has lines")
            text, seen = self.text, sight
            return {"view": self.session.do(lambda book: view_of(book, text, seen))}

    # ---- what is new

    def begin_stream(self, name: str) -> None:
        """Counts a window that holds a connection, or refuses it."""
        with self.moved:
            if not self.windows.begin_stream(name):
                raise Refused(503, "there are many windows: this one has to ask for news", full=True)
            self.moved.notify_all()

    def end_stream(self) -> None:
        """The connection of a window ended."""
        with self.moved:
            self.windows.end_stream()
            self.moved.notify_all()

    def news(self, seen: int, last_state: Optional[Json], seconds: float, window: Optional[str] = None) -> tuple[list[Json], Json]:
        """The changes after a version and the state, as soon as either is new, or after so long. Those that a window made come to it
        a moment later, together: the answers to its edits bring them first."""
        with self.moved:
            self.moved.wait_for(lambda: self.version > seen or self.state() != last_state, seconds)
            self.moved.wait_for(lambda: not self.is_answered(seen, last_state, window), SECONDS_FOR_ANSWERS)
            return self.later_changes(seen), self.state()

    def is_answered(self, seen: int, last_state: Optional[Json], window: Optional[str]) -> bool:
        """Whether nothing is new after a version but edits of a window, whose answers say what is new."""
        made = self.later_changes(seen)
        if not made or not last_state or any(change["window"] != window for change in made):
            return False
        return {**self.state(), **{name: last_state[name] for name in OF_AN_ANSWER}} == last_state

    def later_changes(self, seen: int) -> list[Json]:
        """The changes after a version, as far as they are kept."""
        return [change for change in self.changes if change["version"] > seen]

    def changes_after(self, seen: int) -> Json:
        """The changes after a version, as far as they are kept."""
        with self.moved:
            return {"changes": self.later_changes(seen)}

    def news_for(self, seen: int, name: str) -> Json:
        """The same at once, for a window that asks again and again; and whether it may hold a connection."""
        with self.moved:
            self.windows.ask(name)
            return {"changes": self.later_changes(seen), "state": self.state(), "room": self.windows.has_room()}

    def remind(self) -> None:
        """Wakes those who wait for news, since time alone may have brought some."""
        if self.windows.asked:
            with self.moved:
                self.moved.notify_all()

    # ---- hints

    def question(self, known: int, pause: float) -> tuple[int, Question]:
        """Waits for a text of another version than a known one, till nobody has edited it for so long. Returns its version, and the
        question what hints there are on it."""
        with self.moved:
            self.moved.wait_for(lambda: self.version != known)
            while (version := self.version) != known and self.moved.wait_for(lambda: self.version != version, pause):
                pass
            return self.version, Question(self.text, *self.rows)

    def know_hints(self, version: int, hints: list[HintRow]) -> None:
        """Sends the windows the hints on the text, if it is still the one of a version."""
        with self.moved:
            if version == self.version and hints != self.hints:
                self.hints = hints
                self.hints_told += 1
                self.moved.notify_all()

    def hints_now(self) -> Json:
        """The hints on the text."""
        with self.moved:
            return {"version": self.version, "hints": self.hints_told, "rows": self.hints}

    # ---- edits

    def edit(self, asked: Json) -> Json:
        """Replaces lines, for a window that saw all changes before; returns what that changed, and what the window sees of it."""
        with self.turn:
            self.same_version(asked)
            start, stop, lines = lines_in(asked, len(self.text.lines))
            window, has, sight = window_of(asked), edits_in(asked), sight_of(asked)
            since = time.perf_counter()
            edit = self.text.edit_of(start, stop, lines)
            text = self.text.edited(edit)

            def compile_and_look(book: SessionBook) -> tuple[Version, Optional[Json]]:
                hand_over(book, edit, text)
                version = Version(text, self.session.rows(book), book.report)
                return version, view_of(book, text, sight) if sight else None

            version, view = self.session.do(compile_and_look)
            shown = {"start": start, "stop": stop, "lines": lines}
            change = self.publish([shown], version, window, since, has)[-1]
            return {**change, "view": view} if view else change

    def same_version(self, asked: Json) -> None:
        """Refuses a window that has not seen all changes, and returns those that it lacks."""
        with self.moved:
            if asked.get("run") != self.run:
                raise Refused(409, "the server was started again", **self.state())
            version = asked.get("version")
            if version != self.version:
                kept = [change for change in self.changes if is_count(version) and change["version"] > version]
                raise Refused(409, "the book was changed by another window, or on disk", changes=kept, **self.state())

    def become(self, text: Text, window: Optional[str], disk: Optional[Disk] = None) -> list[Json]:
        """Makes a text that of the book, by few edits, and returns the changes. Whoever calls this has the turn."""
        since = time.perf_counter()

        def compile_whole(book: SessionBook) -> Version:
            book.replace(0, len(book.lines), without_empty_end(text.lines))
            return Version(text, self.session.rows(book), book.report, disk)

        version = self.session.do(compile_whole)
        made = [
            {"start": start, "stop": stop, "lines": [text.shown(line) for line in lines]}
            for start, stop, lines in reversed(edits_of(self.text, text))
        ]
        return self.publish(made, version, window, since)

    def publish(
        self, made: list[Json], version: Version, window: Optional[str], since: float, has: Optional[dict[str, int]] = None
    ) -> list[Json]:
        """Lets the windows see a text that edits made of the present one, the last ones of the text first. `has` says which edits of
        windows the text has in it since then; without it the author is this run of the server."""
        try:
            return self.carry_out(made, version, window, since, has or {})
        except BaseException:
            self.session.forget()  # it has the edits, and the windows do not
            raise

    def carry_out(self, made: list[Json], version: Version, window: Optional[str], since: float, has: dict[str, int]) -> list[Json]:
        """Lets the windows see a text, or raises an exception and changes nothing."""
        faults, tunes = self.rows
        changes: list[Json] = []
        for edit in made:
            faults, tunes = moved(faults, edit), moved(tunes, edit)
            changes.append({"window": window, "edit": edit, **NOTHING_FOUND})
        if changes:
            found = difference(faults, version.rows.faults)
            changes[-1] |= {
                "faults": {**found, "put": shown_rows(version.text, found["put"])},
                "tunes": difference(tunes, version.rows.tunes),
                "written": list(version.report.written),
                "removed": list(version.report.removed),
            }
        with self.moved:
            disk = version.disk or self.disk  # a save may have changed it since the edit began
            is_unsaved = are_others(version.text.lines, disk.text.lines, made)
            took = round(1000 * (time.perf_counter() - since), 1)
            writing = f"{self.run} {self.version + 1}"
            hints, present = self.hints, dict(self.has)
            for count, change in enumerate(changes, 1):
                hints = moved(hints, change["edit"])
                new = has or {self.run: self.version + count}
                present |= {author: max(number, present.get(author, 0)) for author, number in new.items()}
                change |= {"version": self.version + count, "moment": self.moment + count, "has": new, "writing": writing}
                change |= {"unsaved": is_unsaved, "milliseconds": took}
            self.changes.extend(changes)
            self.text, self.rows, self.disk, self.is_unsaved = version.text, version.rows, disk, is_unsaved
            self.hints, self.has = hints, present
            self.version, self.moment = self.version + len(changes), self.moment + len(changes)
            self.moved.notify_all()
        return changes


def are_others(lines: Sequence[bytes], saved: Sequence[bytes], edits: Sequence[Json]) -> bool:
    """Whether lines are others than those that were saved. Those that the last edit made are compared first: the others may be all of a
    long book."""
    if edits:
        start, stop = edits[-1]["start"], edits[-1]["start"] + len(edits[-1]["lines"])
        if lines[start:stop] != saved[start:stop]:
            return True
    return lines != saved


def shown_lines(text: Text) -> Json:
    """The lines of a text as windows see them."""
    return {"lines": text.shown_lines()}
