"""What every session does, whichever way it is run: one suite, which the tests of each way take over."""

import random
from functools import partial
from pathlib import Path
from typing import Any, Callable, Optional, Union

import setting
import trial
from abc2midi_live import BadLine, BadRange, ClosedError, Edit, EditError, Report, Session, Title, TooLarge, few_edits
from abc2midi_live.lines import lines_of_book
from conversation import Command, answers_of, commands_of, run, stream_of

NOTHING = Report((), ())
TRANSCRIPTS = setting.TOP / "tests/transcripts"
TUNE = [b"X:1", b"T:A", b"K:C", b"C", b""]


def wanted_of(name: Path) -> Optional[bytes]:
    """The stored answers of a transcript that has no arguments and no tune book of its own."""
    has_more = any(name.with_name(name.name + more).exists() for more in (".args", ".book", ".status", ".stderr"))
    return None if has_more or name.suffix else name.with_name(name.name + ".stdout").read_bytes()


def random_lines(chance: random.Random) -> list[bytes]:
    """Some lines, or a whole tune."""
    if chance.random() < 0.3:
        return [line.encode() for line in trial.random_tune(chance, chance.randrange(5))]
    return [trial.random_line(chance).encode() for _ in range(chance.choice([0, 1, 1, 1, 2, 5]))]


def random_edit(chance: random.Random, count: int) -> tuple[Command, int]:
    """An edit of a text of `count` lines, at times a wrong one; and the count of lines after it."""
    name, lines = chance.choice(["insert", "replace", "replace", "delete"]), random_lines(chance)
    if chance.random() < 0.03:
        lines.append(b"C" * chance.choice([65_535, 65_536]))
    start = chance.randrange(1, count + 2)
    stop = min(count, start + chance.choice([0, 0, 1, 3, 12]))
    numbers = [chance.choice([start, start, start, start, start, start, 0, count + 2])]
    if name != "insert":
        numbers.append(chance.choice([stop, stop, stop, stop, stop, stop, count + 1, start - 1]))
    if name == "delete":
        lines = []
    first, last = numbers[0], numbers[-1]
    is_in = 1 <= first <= count + 1 if name == "insert" else 1 <= first <= last <= count
    if not is_in or any(len(line) > 65_535 for line in lines):
        return Command(name, numbers, lines), count
    return Command(name, numbers, lines), count + len(lines) - (0 if name == "insert" else last - first + 1)


def random_stream(seed: int) -> list[Command]:
    """A random stream of edits, with questions after each; the same one for the same seed."""
    chance = random.Random(f"{setting.seed}/{seed}")
    book = [line.encode() for number in range(1, chance.randrange(2, 6)) for line in trial.random_tune(chance, number)]
    commands, count = [Command("insert", [1], book)], len(book)
    for _ in range(12):
        edit, count = random_edit(chance, count)
        commands += [edit, Command("titles", [], []), Command("faults", [], [])]
        commands += [Command("hex", [number], []) for number in range(5)]
    return commands


class Sessions(setting.Room):
    """The suite. A subclass begins the sessions."""

    def begin(self) -> Session:
        raise NotImplementedError

    def session(self, text: Optional[list[bytes]] = None) -> Session:
        """A session over a text, which ends with the test."""
        session = self.begin()
        self.addCleanup(session.close)
        if text:
            session.insert(1, text)
        return session

    def state_of(self, session: Session) -> list[Any]:
        """All that a session has."""
        return [session.lines, session.titles, session.faults, [(number, session.output(number)) for number in session.numbers]]

    # ---- answers

    def test_stored_conversations(self) -> None:
        """The answers are those of the transcripts, which were worked out by the rules."""
        tried = 0
        for path in sorted(TRANSCRIPTS.glob("*/*")):
            wanted = wanted_of(path)
            commands = commands_of(path.read_bytes()) if wanted is not None else None
            if commands:
                with self.subTest(path.name), self.begin() as session:
                    self.assertEqual(answers_of(session, commands), wanted)
                tried += 1
        self.assertGreater(tried, 100)

    def test_random_streams(self) -> None:
        """The answers are those of a program that is asked directly."""
        for seed in range(setting.streams):
            commands = random_stream(seed)
            wanted = run(setting.oracle, stream_of(commands))
            with self.subTest(seed), self.begin() as session:
                self.assertEqual(answers_of(session, commands), wanted)

    def test_what_a_tune_gives(self) -> None:
        session = self.session()
        self.assertEqual((session.lines, session.line_count, session.titles, session.faults, session.numbers), ([], 0, [], [], []))
        self.assertEqual(session.insert(1, ["X:7", "T:Air", "K:C", "C"]), Report((7,), ()))
        answers: list[list[Any]] = [session.titles, session.numbers, session.faults]
        for answer in answers:
            answer.clear()  # the lists are the caller's
        self.assertEqual((session.titles, session.numbers), ([Title(7, b"Air")], [7]))
        output = session.output(7)
        assert output
        self.assertTrue(output.startswith(b"MThd\0\0\0\6\0\1"))
        self.assertEqual([session.output(number) for number in (0, 8, -1, 10**9, 2**32 + 7, 2**64)], [None] * 6)
        self.assertEqual(session.replace(4, 4, "C&"), NOTHING)
        self.assertEqual([tuple(fault) for fault in session.faults], [(4, 2, "BadByte")])
        self.assertEqual(session.delete(1, 1), Report((), (7,)))
        self.assertEqual((session.numbers, session.output(7)), ([], None))

    def test_numbers_are_those_that_have_a_file(self) -> None:
        for seed in range(20):
            with self.begin() as session:
                for command in random_stream(seed):
                    answers_of(session, [command])
                    named = {title.number for title in session.titles}
                    self.assertEqual(session.numbers, sorted(number for number in named if session.output(number) is not None))

    def test_many_numbers_titles_and_faults(self) -> None:
        """More than fit into the room that is first made for them."""
        lines = [line for number in range(1, 300) for line in (b"X:%d" % number, b"T:" + b"t" * 50 * number, b"K:C", b"C&&")]
        session = self.session()
        self.assertEqual(session.insert(1, lines), Report(tuple(range(1, 300)), ()))
        self.assertEqual(session.numbers, list(range(1, 300)))
        self.assertEqual(session.titles, [Title(number, b"t" * 50 * number) for number in range(1, 300)])
        self.assertEqual([fault[:2] for fault in session.faults], [(4 * n, column) for n in range(1, 300) for column in (2, 3)])
        long = session.insert(session.line_count + 1, [b"X:300", b"K:C", *[b"CDEF" * 100] * 100])
        output = session.output(300)
        self.assertEqual((long, len(output or b"") > 300_000), (Report((300,), ()), True))
        self.assertEqual(session.delete(1, session.line_count), Report((), tuple(range(1, 301))))

    # ---- lines

    def test_lines_after_many_edits(self) -> None:
        chance = random.Random(setting.seed)
        session = self.session()
        model: list[bytes] = []
        for _ in range(100):
            start = chance.randrange(len(model) + 1)
            stop = min(len(model), start + chance.choice([0, 0, 1, 2, 20]))
            put = random_lines(chance)
            model[start:stop] = put
            if start == stop:
                session.insert(start + 1, put)
            else:
                session.replace(start + 1, stop, put)
            self.assertEqual((session.lines, session.line_count), (model, len(model)))
        self.assertEqual([session.line(n) for n in range(1, len(model) + 1)], model)
        for number in (0, -1, len(model) + 1):
            with self.assertRaises(IndexError):
                session.line(number)
        session.lines.clear()
        self.assertEqual(session.lines, model)

    def test_what_lines_may_be(self) -> None:
        session = self.session()
        session.insert(1, "T:é\nz\r\n\nlast")
        session.insert(1, b"a\n\n")
        session.insert(1, bytearray(b"\xff\0\xef\xbb\xbf"))
        mixed: list[Union[str, bytes]] = ["é\udcff", b"\xff", "", "\r"]
        session.insert(1, (line for line in mixed))
        session.insert(1, "")
        session.insert(1, [])
        wanted = ["é".encode() + b"\xff", b"\xff", b"", b"\r", b"\xff\0\xef\xbb\xbf"]
        wanted += [b"a", b"", "T:é".encode(), b"z\r", b"", b"last"]
        self.assertEqual(session.lines, wanted)
        not_lines: list[Any] = [["a\nb"], [b"a", b"\n"], ["\ud800"], [1], 1]
        for wrong, error in zip(not_lines, [ValueError, ValueError, ValueError, TypeError, TypeError]):
            edits: list[Callable[[], object]] = [lambda: session.insert(1, wrong), lambda: session.replace(1, 2, wrong)]
            for edit in edits:
                with self.assertRaises(error):
                    edit()
        with self.assertRaises(ZeroDivisionError):
            session.insert(1, (b"%d" % (1 // n) for n in (1, 0)))
        with self.assertRaises(TypeError):
            session.set_text(["a"])  # type: ignore[arg-type]
        self.assertEqual(session.lines, wanted)
        session.replace(1, len(wanted), TUNE)
        self.assertEqual((session.lines, session.numbers), (TUNE, [1]))

    def test_what_numbers_may_be(self) -> None:
        session = self.session(TUNE)
        not_numbers: list[Any] = [1.0, "1", None, b"1"]
        for wrong in not_numbers:
            calls: list[Callable[[], object]] = [lambda: session.insert(wrong, "C"), lambda: session.replace(1, wrong, "C")]
            calls += [lambda: session.delete(wrong, 1), lambda: session.output(wrong), lambda: session.line(wrong)]
            for call in calls:
                with self.assertRaises(TypeError):
                    call()
        self.assertEqual((session.lines, session.numbers, session.line(True)), (TUNE, [1], b"X:1"))
        session.insert(True, "%")
        session.replace(True, True, "%")
        session.delete(True, True)
        self.assertEqual((session.lines, session.output(True)), (TUNE, session.output(1)))

    # ---- refused edits

    def refuse(self, session: Session, error: type[EditError], *edits: Callable[[], object]) -> None:
        """Checks that edits are refused and change nothing."""
        before = self.state_of(session)
        for edit in edits:
            with self.assertRaises(error) as raised:
                edit()
            self.assertTrue(str(raised.exception))
            self.assertEqual(self.state_of(session), before)

    def test_lines_that_the_text_does_not_have(self) -> None:
        session = self.session([*TUNE, b"X:2", b"K:C"])
        for at in (0, -1, 9, 10**9, 10**10, 2**32 + 1, -(2**32) + 1, 2**64 + 1):
            self.refuse(session, BadRange, lambda: session.insert(at, [b"C"]), lambda: session.insert(at, [b"C" * 65_536]))
        far = 2**32 + 1
        for pair in (0, 1), (1, 8), (8, 8), (3, 2), (-1, 1), (1, -1), (1, 10**10), (far, far), (1, far), (2**64, 2**64):
            self.refuse(session, BadRange, lambda: session.replace(*pair, [b"C"]), lambda: session.delete(*pair))
            self.refuse(session, BadRange, lambda: session.replace(*pair, [b"C" * 65_536]))
        self.refuse(session, BadRange, lambda: session.insert(9, [b""] * 1_048_577))
        self.assertEqual(session.insert(8, [b"C"]), Report((2,), ()))

    def test_lines_that_are_too_long(self) -> None:
        session = self.session([*TUNE, b"X:2", b"K:C"])
        wrong = [b"C", b"C" * 65_536]
        self.refuse(session, BadLine, lambda: session.insert(1, wrong), lambda: session.replace(1, 7, wrong))
        self.refuse(session, BadLine, lambda: session.set_text(b"X:1\n" + b"C" * 65_536 + b"\nK:C\n"))
        self.refuse(session, BadLine, lambda: session.insert(1, [*wrong, *[b""] * 1_048_577]))
        self.assertEqual(session.replace(4, 4, [b"%" + b"C" * 65_534]), Report((1,), ()))

    def test_texts_that_are_too_large(self) -> None:
        session = self.session([b"X:1", b"K:C"])
        blank = [b""] * 1_048_577
        self.refuse(session, TooLarge, lambda: session.insert(1, blank[2:]), lambda: session.replace(1, 2, blank))
        self.refuse(session, TooLarge, lambda: session.set_text(b"\n" * 1_048_577))
        session.insert(3, [b""] * 1_048_574)
        self.assertEqual([session.insert(1, ""), session.insert(1, [])], [NOTHING, NOTHING])
        with self.assertRaises(TooLarge):
            session.insert(1, [b"C"])
        on_the_way = [Edit(2, 12, []), Edit(12, 12, [b""] * 5), Edit(20, 21, [b"X:2"])]  # made from the last one on
        before = session.lines
        with self.assertRaises(TooLarge):
            session.apply(on_the_way)
        self.assertTrue(session.lines == before)  # the difference would be long
        self.assertEqual((session.line_count, session.numbers), (1_048_576, [1]))
        self.assertEqual(session.set_text(b"\n" * 1_048_576), Report((), (1,)))
        self.assertEqual(session.line_count, 1_048_576)

    def test_several_edits_of_which_one_is_wrong(self) -> None:
        session = self.session([*TUNE, b"X:2", b"K:C"])
        right = few_edits(session.lines, session.lines[1:])
        wrong = [right[0]._replace(start=5, stop=6, lines=[b"C" * 65_536])]
        self.refuse(session, BadLine, lambda: session.apply(right + wrong))
        for misplaced in right[0]._replace(start=-1), right[0]._replace(stop=8), right[0]._replace(start=2):
            self.refuse(session, BadRange, lambda: session.apply([misplaced]))
        self.refuse(session, BadRange, lambda: session.apply([*wrong, *right]))

    def test_several_edits_of_which_one_has_wrong_lines(self) -> None:
        """The last edit is made first, and could be made."""
        session = self.session([*TUNE, b"X:2", b"K:C"])
        wrong: list[tuple[list[Any], type[Exception]]] = [
            ([Edit(0, 1, [b"A\nB"])], ValueError),
            ([Edit(0, 1, [1])], TypeError),  # type: ignore[list-item]
            ([Edit(0, "1", [])], TypeError),  # type: ignore[arg-type]
            ([Edit(0, 1, ["é" * 40_000])], BadLine),  # type: ignore[list-item]
        ]
        before = self.state_of(session)
        for edits, error in wrong:
            with self.assertRaises(error):
                session.apply([*edits, Edit(3, 4, [b"C2"])])
            self.assertEqual(self.state_of(session), before)
        self.assertEqual(session.apply([Edit(1, 2, ["T:" + "é" * 30_000]), Edit(3, 4, [b"C2"])]), Report((1,), ()))  # type: ignore[list-item]

    # ---- whole texts

    def recorded(self, session: Session) -> list[Any]:
        """A list that gets each edit which a session asks for from now on."""
        edits: list[Any] = []

        def record(name: str, edit: Callable[..., Report]) -> Callable[..., Report]:
            def follow(*words: Any) -> Report:
                edits.append((name, *words))
                return edit(*words)

            return follow

        for name in ("insert", "replace", "delete"):
            setattr(session, f"_{name}", record(name, getattr(session, f"_{name}")))
        return edits

    def test_a_text_becomes_another_by_few_edits(self) -> None:
        session = self.session()
        tunes = [[b"X:%d" % n, b"T:%d" % n, b"K:C", b"C", b""] for n in range(100)]
        book = b"".join(line + b"\n" for tune in tunes for line in tune)
        self.assertEqual(session.set_text(book), Report(tuple(range(100)), ()))
        self.assertEqual(session.set_text(book), NOTHING)
        edits = self.recorded(session)
        self.assertEqual(session.set_text(book.replace(b"T:50\nK:C\nC\n", b"T:50\nK:C\nD\n")), Report((50,), ()))
        self.assertEqual(edits, [("replace", 254, 254, [b"D"])])
        edits.clear()
        session.set_text(book)
        other = book.replace(b"X:20\nT:20\nK:C\nC\n\n", b"").replace(b"X:70\nT:70", b"X:700\nT:70").replace(b"T:99\n", b"T:99\n\n")
        edits.clear()
        self.assertEqual(session.set_text(other), Report((99, 700), (20, 70)))
        self.assertEqual([name for name, *_ in edits], ["insert", "replace", "delete"])
        self.assertEqual(session.lines, lines_of_book(other))

    def test_one_report_of_several_edits(self) -> None:
        """A tune that moves, one that comes, and one that goes; a number that never had a file is not removed."""
        session = self.session()
        a, b, c = (f"X:{n}\nT:{n}\nK:C\nC{n}\n\n" for n in (1, 2, 3))
        session.set_text(a + b)
        self.assertEqual(session.set_text(b + c), Report((3,), (1,)))
        self.assertEqual(session.set_text(c + b).removed, ())
        self.assertEqual(session.numbers, [2, 3])
        self.assertEqual(session.set_text(""), Report((), (2, 3)))
        self.assertEqual((session.lines, session.set_text("\n"), session.lines), ([], NOTHING, [b""]))

    def test_a_number_that_never_had_a_file_is_not_removed(self) -> None:
        """The last edit brings a tune, which is too long after the first edit: the unit is 512 times as long."""
        session = self.session([b"L:1/512", b"", *TUNE])
        long = [b"X:2", b"P:(A99)40", b"K:C", b"P:A", b"C64"]
        edits = few_edits(session.lines, [b"L:1", b"", *TUNE, *long])
        self.assertEqual(len(edits), 2)
        self.assertEqual(session.apply(edits), Report((1,), ()))
        self.assertEqual((session.numbers, [fault.name for fault in session.faults]), ([1], ["TuneTooLong"]))

    def test_the_mark_of_a_book(self) -> None:
        session = self.session()
        session.set_text(b"\xef\xbb\xbfX:1\r\nK:C\n\nlast")
        self.assertEqual(session.lines, [b"X:1\r", b"K:C", b"", b"last"])
        session.set_text("\ufeff\ufeff")
        self.assertEqual(session.lines, [b"\xef\xbb\xbf"])

    def test_random_texts_are_as_new_ones(self) -> None:
        chance = random.Random(setting.seed)
        session = self.session()
        tunes = [trial.random_tune(chance, n % 7) for n in range(10)]
        for _ in range(60):
            for _ in range(chance.randrange(4)):
                tunes[chance.randrange(10)] = trial.random_tune(chance, chance.randrange(8))
            chance.shuffle(tunes) if chance.random() < 0.1 else None
            text = "".join(line + "\n" for tune in tunes for line in tune)
            before = {number: session.output(number) for number in session.numbers}
            report = session.set_text(text)
            with self.begin() as fresh:
                fresh.set_text(text)
                self.assertEqual(self.state_of(session), self.state_of(fresh))
            after = {number: session.output(number) for number in session.numbers}
            self.assertEqual(report.removed, tuple(sorted(before.keys() - after.keys())))
            changed = {number for number in after if before.get(number) != after[number]}
            self.assertTrue(changed <= set(report.written) <= after.keys())

    # ---- the end

    def test_closed(self) -> None:
        with self.begin() as session:
            session.insert(1, TUNE)
        session.close()
        edits: list[Callable[[], object]] = [lambda: session.insert(1, "C"), lambda: session.replace(1, 1, "C"), lambda: session.delete(1, 1)]
        edits += [lambda: session.set_text("C"), lambda: session.apply([]), lambda: session.output(1), lambda: session.output(-1)]
        edits += [lambda: session.line(1), lambda: session.__enter__()]
        names = ["lines", "line_count", "numbers", "titles", "faults", "work"]
        edits += [partial(getattr, session, name) for name in names]
        for call in edits:
            with self.assertRaises(ClosedError):
                call()

    def test_closed_by_an_exception(self) -> None:
        with self.assertRaises(KeyError), self.begin() as session:
            raise KeyError
        with self.assertRaises(ClosedError):
            session.lines

    def test_two_sessions_in_turn(self) -> None:
        one, other = self.session(TUNE), self.session()
        self.assertEqual(other.insert(1, ["X:2", "K:C"]), Report((2,), ()))
        self.assertEqual(one.insert(1, ["X:3", "K:C", ""]), Report((3,), ()))
        self.assertEqual((one.numbers, other.numbers), ([1, 3], [2]))
        one.close()
        self.assertEqual(other.titles, [Title(2, b"")])


