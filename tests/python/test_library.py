"""Sessions over the C library."""

import gc
import threading
from collections.abc import Callable
from pathlib import Path
from typing import Union
from unittest import mock

import abc2midi_live
import sessions
import setting
from abc2midi_live import Entry, EntryKind, LibraryMissing, LibrarySession, PlayTooLong, Session, Token, TokenKind, Work
from conversation import answers_of

HERE = Path(__file__).parent
TOKENS = {EntryKind.NOTE: {TokenKind.NOTE}, EntryKind.REST: {TokenKind.REST, TokenKind.BAR_REST}, EntryKind.BAR: {TokenKind.BAR_LINE}}


def row_of(entry: Entry) -> str:
    """An entry as a row of numbers and words: None is `-`."""
    sound = ["-" if value is None else str(value) for value in (entry.key, entry.velocity)]
    words = [entry.on, entry.off, entry.kind.name.lower(), *sound, int(entry.joined), int(entry.tied), entry.line, entry.from_column, entry.to_column]
    return " ".join(map(str, words))


def rows_of(session: Session, number: int) -> list[str]:
    """The play of a number as rows: the sizes of its tracks, and its entries."""
    try:
        play = session.play(number)
    except PlayTooLong:
        return [f"{number} too long"]
    if play is None:
        return [f"{number} none"]
    sizes = [f"{number} tracks {' '.join(str(len(track)) for track in play)}"]
    return sizes + [f"{number} {index} {row_of(entry)}" for index, track in enumerate(play) for entry in track]


def numbers_of(entry: Entry) -> tuple[int, ...]:
    """The fields of an entry as numbers, as the C library has them. An entry that does not sound has key 128 and velocity 0."""
    on, off, kind, key, velocity, joined, tied, line, start, end = entry
    return on, off, line, start, end, kind.value, 128 if key is None else key, velocity or 0, joined + 2 * tied


class OverTheLibrary(sessions.Sessions):
    def begin(self) -> LibrarySession:
        return LibrarySession(setting.library)

    def test_the_library_has_the_same_lines(self) -> None:
        for seed in range(20):
            with self.begin() as session:
                for command in sessions.random_stream(seed):
                    answers_of(session, [command])
                here = session.lines
                session._recover()  # reads the lines of the library
                self.assertEqual(session.lines, here)

    def test_counters(self) -> None:
        session = self.session()
        self.assertEqual(session.work, Work(0, 0, 0))
        session.insert(1, sessions.TUNE)
        opened = session.work
        session.replace(4, 4, "D")
        after = session.work
        assert opened and after
        self.assertEqual((opened.scanned, opened.built, after.scanned, after.built), (5, 1, 6, 2))
        self.assertGreater(after.folded, opened.folded)

    def test_counters_of_tokens(self) -> None:
        session = LibrarySession(setting.library)
        self.addCleanup(session.close)
        session.insert(1, sessions.TUNE)
        asks: list[Callable[[], object]] = [lambda: session.tokens(4), lambda: session.token_columns(4)]
        for ask in asks:
            before = session.work
            ask()
            assert before
            self.assertEqual(session.work, Work(before.scanned + 1, before.folded, before.built))

    def test_tokens(self) -> None:
        """The rows are those of the reference model, which is no part of this repository. They have each kind."""
        session = self.session((HERE / "tokens.abc").read_bytes().split(b"\n")[:-1])
        rows = (HERE / "tokens.rows").read_text().splitlines()
        found = [
            f"{number} {token.from_column} {token.to_column} {token.kind.name} {token.depth}"
            for number in range(1, session.line_count + 1)
            for token in session.tokens(number)
        ]
        self.assertEqual(found, rows)
        self.assertEqual({row.split()[3] for row in rows}, {kind.name for kind in TokenKind} - {"OTHER"})

    def test_tokens_after_edits(self) -> None:
        """They are those of a fresh session with the same text, and cover each line."""
        for seed in range(20):
            with self.begin() as session, self.begin() as fresh:
                for command in sessions.random_stream(seed):
                    answers_of(session, [command])
                fresh.insert(1, session.lines)
                for number, line in enumerate(session.lines, 1):
                    tokens = session.tokens(number)
                    self.assertEqual(tokens, fresh.tokens(number))
                    whole = line[:-1] if line.endswith(b"\r") else line
                    ends = [1, *(end for token in tokens if not token.depth for end in token[:2]), len(whole) + 1]
                    self.assertEqual(ends[::2], ends[1::2], line)

    def test_tokens_of_no_line(self) -> None:
        session = self.session(sessions.TUNE)
        for number in (0, -1, 6, 2**40):
            with self.assertRaises(IndexError):
                session.tokens(number)
        with self.assertRaises(AttributeError):
            session.tokens(1)[0].depth = 1  # type: ignore[misc]

    def test_tokens_of_a_long_line(self) -> None:
        session = self.session([b"X:1", b"K:C", b"C" * 65_535])
        self.assertEqual(session.tokens(3)[-1], Token(65_535, 65_536, TokenKind.NOTE, 0))

    def test_plays(self) -> None:
        """The rows are those of the reference model, which is no part of this repository: single notes, ties over bars and repeats,
        chords, tuplets, broken rhythm, endings, parts, voices, inline fields, rests of bars, silent tones, a number of two tunes,
        a play that is too long."""
        session = self.session((HERE / "plays.abc").read_bytes().split(b"\n")[:-1])
        rows = (HERE / "plays.rows").read_text().splitlines()
        numbers = dict.fromkeys(int(row.split()[0]) for row in rows)
        before = session.work
        self.assertEqual([row for number in numbers for row in rows_of(session, number)], rows)
        self.assertEqual(session.work, before)

    def test_plays_after_edits(self) -> None:
        """They are those of a fresh session with the same text. Each entry is at a token of its kind."""
        for seed in range(20):
            with self.begin() as session, self.begin() as fresh:
                for command in sessions.random_stream(seed):
                    answers_of(session, [command])
                fresh.insert(1, session.lines)
                for number in session.numbers:
                    play = session.play(number)
                    assert play
                    self.assertEqual(play, fresh.play(number))
                    self.assertEqual(play[0], ())
                    for entry in (entry for track in play for entry in track):
                        place = entry.from_column, entry.to_column
                        kinds = {token.kind for token in session.tokens(entry.line) if token[:2] == place}
                        self.assertTrue(kinds & TOKENS[entry.kind], entry)

    def test_columns(self) -> None:
        """Columns have the tokens of `tokens` and the entries of `play`, also of a line and of a play with more than usual."""
        session = self.begin()
        self.addCleanup(session.close)
        session.insert(1, [*(HERE / "plays.abc").read_bytes().split(b"\n")[:-1], b"X:99999", b"K:C", b"[CE]-" * 13_000])
        for number in range(1, session.line_count + 1):
            tokens = [(token.from_column, token.to_column, token.kind.value, token.depth) for token in session.tokens(number)]
            self.assertEqual(list(zip(*session.token_columns(number))), tokens)
        for number in session.numbers:
            try:
                play = session.play(number)
            except PlayTooLong:
                with self.assertRaises(PlayTooLong):
                    session.play_columns(number)
                continue
            columns = session.play_columns(number)
            assert play and columns
            entries = [entry for track in play for entry in track]
            self.assertEqual([columns.entry(index) for index in range(len(columns.places))], entries)
            self.assertEqual(columns.places, [columns.place(entry.line, entry.from_column) for entry in entries])
            self.assertEqual([(columns.on(n), columns.off(n)) for n in range(len(entries))], [entry[:2] for entry in entries])
            self.assertEqual(len(set(columns.places)), len({(entry.line, entry.from_column) for entry in entries}))
            self.assertEqual(list(zip(*[iter(columns.numbers())] * 9)), [numbers_of(entry) for entry in entries])
            self.assertEqual(session.track_sizes(number), [len(track) for track in play])
        last = session.play_columns(99_999)
        assert last
        self.assertGreater(len(last.places), 4096)
        self.assertIsNone(session.play_columns(2**32 + 1))
        with self.assertRaises(IndexError):
            session.token_columns(0)

    def test_a_play_of_as_many_voices_as_a_file_has(self) -> None:
        """Each has a track after the first one, which has no notes."""
        session = self.begin()
        self.addCleanup(session.close)
        session.insert(1, ["X:1", "K:C", *(line for voice in range(1, 16) for line in (f"V:{voice}", "C" * voice))])
        play, columns = session.play(1), session.play_columns(1)
        assert play and columns
        self.assertEqual([len(track) for track in play], list(range(16)))
        self.assertEqual((session.track_sizes(1), len(columns.places)), (list(range(16)), 120))

    def test_plays_of_no_number(self) -> None:
        session = self.session(sessions.TUNE)
        self.assertEqual([session.play(number) for number in (0, -1, 2, 2**32 + 1)], [None] * 4)
        with self.assertRaises(TypeError):
            session.play("1")  # type: ignore[arg-type]
        play = session.play(1)
        assert play
        self.assertEqual(play, ((), (Entry(0, 240, EntryKind.NOTE, 60, 80, False, False, 4, 1, 2),)))
        with self.assertRaises(AttributeError):
            play[1][0].on = 1  # type: ignore[misc]

    def test_a_long_play_is_worked_out_twice(self) -> None:
        """Once for the sizes of its tracks, and once for its entries: each call works it out anew."""
        session = self.begin()
        self.addCleanup(session.close)
        session.insert(1, [b"X:1", b"K:C", b"C" * 5000])
        calls = mock.Mock(wraps=session._calls)
        with mock.patch.object(session, "_calls", calls):
            play = session.play(1)
        assert play
        self.assertEqual([len(track) for track in play], [0, 5000])
        self.assertEqual((calls.abc_live_tracks.call_count, calls.abc_live_play.call_count), (1, 1))

    def test_an_interrupted_edit(self) -> None:
        """The lines are those of the library, whether the edit was made or not."""
        session = self.session(sessions.TUNE)
        with mock.patch.object(session, "_report", side_effect=KeyboardInterrupt), self.assertRaises(KeyboardInterrupt):
            session.insert(1, ["X:2", "K:C", ""])
        self.assertEqual(session.lines, [b"X:2", b"K:C", b"", *sessions.TUNE])
        self.assertEqual(session.numbers, [1, 2])

    def call_on_another_thread(self, call: Callable[[], object]) -> list[str]:
        """Calls on a thread of its own; returns the text of the RuntimeError that this raises, if it does."""
        raised: list[str] = []

        def called() -> None:
            try:
                call()
            except RuntimeError as error:
                raised.append(str(error))

        thread = threading.Thread(target=called)
        thread.start()
        thread.join()
        return raised

    def test_another_thread(self) -> None:
        """A refused `close` leaves the session open, so that its own thread can close it."""
        session = LibrarySession(setting.library)
        inner = session._session
        session.insert(1, sessions.TUNE)
        calls: list[Callable[[], object]] = [lambda: session.titles, lambda: session.numbers, lambda: session.faults, session.close]
        calls += [lambda: session.play(1), lambda: session.play_columns(1), lambda: session.track_sizes(1), lambda: session.output(1)]
        calls += [lambda: session.tokens(1), lambda: session.token_columns(1), lambda: session.delete(1, 1)]
        for call in calls:
            self.assertRegex("".join(self.call_on_another_thread(call)), "thread")
        self.assertEqual((session.numbers, inner.state), ([1], 1))
        session.close()
        self.assertEqual((inner.state, self.call_on_another_thread(session.close)), (0, []))

    def test_another_thread_of_the_same_number(self) -> None:
        """The system gives the number of a thread that ended to a new one."""
        opened: list[tuple[LibrarySession, int]] = []
        self.call_on_another_thread(lambda: opened.append((LibrarySession(setting.library), threading.get_ident())))
        session, number = opened[0]
        numbers: list[int] = []

        def ask() -> object:
            numbers.append(threading.get_ident())
            return session.titles

        while number not in numbers:
            self.assertRegex("".join(self.call_on_another_thread(ask)), "thread")
            self.assertLess(len(numbers), 1000)

    def test_a_session_that_is_dropped_is_closed(self) -> None:
        session = LibrarySession(setting.library)
        inner = session._session
        self.assertEqual(inner.state, 1)
        del session
        gc.collect()
        self.assertEqual(inner.state, 0)

    def test_what_is_no_library(self) -> None:
        libraries: list[Union[str, Path]] = [self.folder / "none", "libc.so.6"]
        for library in libraries:
            with self.assertRaises(LibraryMissing):
                LibrarySession(library)

    def test_open(self) -> None:
        path = self.folder / "book.abc"
        path.write_bytes(b"X:1\nK:C\nC")
        with abc2midi_live.open(path, library=setting.library) as session:
            self.assertEqual((type(session), session.numbers), (LibrarySession, [1]))
