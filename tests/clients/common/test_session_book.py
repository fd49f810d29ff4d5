"""The program, started and asked; places, players and sentences."""

import os
import random
import re
import stat
import time
from collections.abc import Callable
from contextlib import suppress
from pathlib import Path
from unittest import mock

import trial
from abc2midi_live import Built, ClosedError, Edit, Fault, ProgramEnded, ProgramMissing, Report, edits
from abc2midi_live_clients.common import line_places, options, player as players, session_book
from abc2midi_live_clients.common.faults import sentences
from abc2midi_live_clients.common.session_book import LiveBook, Tune

LONG = 3.0  # seconds: longer than a busy machine takes for a call


def lines(text: str) -> list[bytes]:
    return [letter.encode() for letter in text]


class Texts(trial.Folder):
    def test_bytes_and_characters(self) -> None:
        line = "aé𝄞\ud83dz€"
        wanted = [n for n, character in enumerate(line) for _ in line_places.utf8(character)]
        self.assertEqual([line_places.character_of(line, n + 1) for n in range(len(wanted))], wanted)
        self.assertEqual([line_places.character_of("abc", n) for n in (1, 2, 3)], [0, 1, 2])
        self.assertEqual(line_places.from_utf16(line_places.utf16("a\ud834") + line_places.utf16("\udd1eb")), "a𝄞b")

    def test_titles_in_windows_1252(self) -> None:
        self.assertEqual([line_places.text_of(b"caf\xe9 \x93\x81"), line_places.text_of("café “\x81".encode())], 2 * ["café “\x81"])
        self.assertEqual([line_places.windows_1252(text) for text in ("“é\x81", "\x93", "Ω", "Ã©")], [b"\x93\xe9\x81", None, None, None])

    def test_each_fault_has_a_sentence(self) -> None:
        source = Path(trial.TOP, "crates/abc_fields/src/fault_code.rt").read_text("utf-8")
        names = re.findall(r'=> "(\w+)"', source)
        self.assertGreater(len(names), 20)
        found = sentences()
        self.assertEqual(list(found), names + ["BadLine", "TooLarge"])
        self.assertIn("`M:C|`", found["BadMeter"])


class Program(trial.Folder):
    def book(self) -> LiveBook:
        book = LiveBook(trial.program, str(self.files))
        assert book.process.stdout
        self.addCleanup(book.process.stdout.close)
        self.addCleanup(book.close)
        return book

    def test_faults_at_the_bytes_of_a_character(self) -> None:
        """They are one fault; a byte that is no UTF-8 has its own."""
        book = self.book()
        book.replace(0, 0, [b"X:1", b"K:C", "é[𝄞]".encode() + b"\xff\xbf\xe9C\xc3", b"\xf0\x9d\x84", b"\xed\xa0\x80"])
        columns = [(fault.line, fault.column) for fault in book.faults() if fault.name == "BadByte"]
        wanted = [(3, 1), (3, 4), *((3, n) for n in (9, 10, 11, 13)), *((line, n) for line in (4, 5) for n in (1, 2, 3))]
        self.assertEqual(columns, wanted)

    def test_places_after_many_changes(self) -> None:
        """Tunes and lines that are left out are found where they are, after changes of any kind."""
        chance = random.Random(trial.seed)
        book = self.book()
        lines = [b"X:1", b"T:A", b"X:22", b"K:C", b"", b"C", b"X:3" + b" " * 65_533, b"-" * 65_536, b"X:", b"xX:7"]
        for _ in range(60):
            start = chance.randrange(len(book.lines) + 1)
            stop = min(len(book.lines), start + chance.choice([0, 0, 1, 2, 20]))
            book.replace(start, stop, [chance.choice(lines) for _ in range(chance.choice([0, 1, 1, 3, 9]))])
            titles = {n: line for n, line in enumerate(book.lines, 1) if line.startswith(b"X:") and len(line) < 65_536}
            self.assertEqual([(tune.line, tune.number) for tune in book.tunes()], [(n, int(line[2:] or 0)) for n, line in titles.items()])
            left_out = [n for n, line in enumerate(book.lines, 1) if len(line) > 65_535]
            self.assertEqual([fault.line for fault in book.faults() if fault.name == "BadLine"], left_out)
        book.replace(0, len(book.lines), [b"X:1", b"T:A"])
        self.assertEqual(book.tunes(), [Tune(1, "A", 1)])
        book.replace(1, 2, [b"T:B"])
        self.assertEqual(book.tunes(), [Tune(1, "B", 1)])

    def test_answers(self) -> None:
        book = self.book()
        text = [b"X:1", b"T:A", b"K:C", b"C&", b"", b"X:1", b"K:C", b"D", b"", b"X:2", b"K:C"]
        self.assertEqual(book.replace(0, 0, text), [Edit(0, 0, text)])
        self.assertEqual(book.faults(), [Fault(4, 2, "BadByte")])
        self.assertEqual(book.tunes(), [Tune(1, "A", 1), Tune(1, "", 6), Tune(2, "", 10)])
        self.assertEqual(book.build(), Built([1, 2], [], None))
        self.assertEqual(book.replace(3, 4, [b"C"]), [Edit(3, 4, [b"C"])])
        self.assertEqual(book.build(), Built([], [], None))
        self.assertEqual(book.replace(9, 11, []), [Edit(9, 11, [])])
        self.assertEqual((book.build(), book.close()), (Built([], [2], None), 0))

    def test_what_to_write_instead(self) -> None:
        """Each fault is there, and gone where its place is written as its sentence says."""
        book, words = self.book(), sentences()
        for name, wrong, right, said in INSTEAD:
            for text, is_told in (wrong, True), (right, False):
                book.replace(0, len(book.lines), text.encode().split(b"\n"))
                self.assertEqual(name in [fault.name for fault in book.faults()], is_told, text)
            self.assertIn(f"`{said}`" if said else "", words[name])
        self.assertEqual([name for name, *_ in INSTEAD], list(words)[: len(INSTEAD)])

    def test_a_file_that_fails(self) -> None:
        book = self.book()
        (self.files / "2.mid").mkdir()
        book.replace(0, 0, [b"X:1", b"K:C", b"X:2", b"K:C", b"X:3", b"K:C"])
        self.assertEqual(book.build(), Built([1], [], 2))

    def test_the_file_of_a_number(self) -> None:
        tunes = [Tune(1, "A", 1), Tune(1, "B", 5), Tune(2, "C", 9)]
        self.assertEqual(session_book.files_of(tunes, [Fault(1, 1, "TuneTooLong")]), {1: tunes[1], 2: tunes[2]})

    def test_lines_of_too_many_bytes(self) -> None:
        book = self.book()
        book.replace(0, 0, [b"X:" + b"2" * 65_534, b"X:1", b"K:C", b"C" * 65_535, b"D" * 65_536, b"E"])
        self.assertEqual(book.faults(), [Fault(1, 65_536, "BadLine"), Fault(5, 65_536, "BadLine")])
        self.assertEqual(book.tunes(), [Tune(1, "", 2)])
        book.build()
        self.assertTrue(trial.files_in(self.files) == trial.fresh(b"X:1\nK:C\n" + b"C" * 65_535 + b"\nE\n").files)
        book.replace(4, 5, [b"D"])
        self.assertEqual([fault.line for fault in book.faults()], [1])

    def test_a_text_of_too_many_lines(self) -> None:
        """The program never holds more lines than it takes, which are ten here."""
        for module in (session_book, edits):
            patched = mock.patch.object(module, "MOST_LINES", 10)
            patched.start()
            self.addCleanup(patched.stop)
        book = self.book()
        held: list[int] = []
        follow = book.session._follow

        def counted(edit: Edit, make: Callable[[], Report]) -> Report:
            report = follow(edit, make)
            held.append(book.session.line_count)
            return report

        counting = mock.patch.object(book.session, "_follow", counted)
        counting.start()
        self.addCleanup(counting.stop)
        text = [b"X:1", b"K:C", *lines("CDEFGAB"), b"last"]
        book.replace(0, 0, text)
        book.replace(0, 10, [b"last", *text[:-1]])
        self.assertEqual((book.faults(), held), ([], [10, 10]))
        book.replace(10, 10, [b"X:2", b"K:C"])
        self.assertEqual((book.faults(), held), ([Fault(11, 1, "TooLarge")], [10, 10]))
        self.assertEqual(book.tunes(), [Tune(1, "", 2)])
        book.replace(4, 6, [])
        self.assertEqual((book.faults(), max(held), len(book.lines)), ([], 10, 10))
        self.assertEqual(book.tunes(), [Tune(1, "", 2), Tune(2, "", 9)])

    def player(self, script: str) -> players.Player:
        """A player that writes the numbers of its processes into `pids`."""
        player = players.Player(["sh", "-c", script.replace("PIDS", str(self.folder / "pids"))])
        self.addCleanup(player.stop)
        return player

    def processes(self, count: int) -> list[int]:
        """The processes of the player, of which there are `count`."""
        while True:
            with suppress(FileNotFoundError):
                numbers = (self.folder / "pids").read_text().split("\n")
                if len(numbers) > count:
                    return [int(number) for number in numbers[:-1]]
            time.sleep(0.01)

    def wait_for_the_end(self, processes: list[int]) -> None:
        """Waits until they ended."""
        until = time.monotonic() + trial.SECONDS
        while any(Path(f"/proc/{number}").exists() for number in processes):
            self.assertLess(time.monotonic(), until)
            time.sleep(0.01)

    def test_a_player(self) -> None:
        """A file ends the one before."""
        player = self.player("echo $$ >>PIDS; exec sleep 600")
        player.play("1.mid")
        first = self.processes(1)
        player.play("2.mid")
        self.wait_for_the_end(first)
        self.assertIsNone(player.failure())
        second = self.processes(2)[1:]
        player.stop()
        self.wait_for_the_end(second)

    def test_what_a_player_starts(self) -> None:
        """It ends with the player, also if the player ended before or hears no signal; and nobody waits for that."""
        for last in "wait", "exit 0":
            (self.folder / "pids").unlink(missing_ok=True)
            player = self.player(f"trap '' TERM; sh -c 'echo $$ >>PIDS; sleep 600 & echo $! >>PIDS; wait' & echo $$ >>PIDS; {last}")
            player.play("1.mid")
            processes = self.processes(3)
            since = time.monotonic()
            with mock.patch.object(players, "SECONDS_TO_END", LONG):
                player.stop()
                self.assertLess(time.monotonic() - since, LONG)
                self.wait_for_the_end(processes)

    def test_a_player_that_ends_in_order(self) -> None:
        """It has a while for that after the signal."""
        player = self.player("trap 'sleep 0.3; echo ended >>PIDS; exit' TERM; echo $$ >>PIDS; while :; do sleep 0.05; done")
        player.play("1.mid")
        processes = self.processes(1)
        with mock.patch.object(players, "SECONDS_TO_END", trial.SECONDS):
            player.stop()
            self.wait_for_the_end(processes)
        self.assertEqual((self.folder / "pids").read_text(), f"{processes[0]}\nended\n")

    def test_a_player_that_fails(self) -> None:
        """It is reported once."""
        for script, how in ("exit 3", "ended with status 3"), ("kill -9 $$", "was killed by signal 9"), ("exit 0", None):
            player = self.player(f"echo $$ >>PIDS; {script}")
            player.play("1.mid")
            assert player.process
            os.waitid(os.P_PID, player.process.pid, os.WEXITED | os.WNOWAIT)
            self.assertEqual((player.failure(), player.failure()), (how, None))

    def test_a_program_that_ends(self) -> None:
        false = self.folder / "false"
        false.write_text("#!/bin/sh\nexit 3\n")
        false.chmod(false.stat().st_mode | stat.S_IXUSR)
        book = LiveBook(str(false), str(self.files))
        assert book.process.stdout
        self.addCleanup(book.process.stdout.close)
        with self.assertRaisesRegex(ProgramEnded, "status 3"):
            book.faults()
        with self.assertRaisesRegex(ProgramEnded, "status 3"):
            book.replace(0, 0, [b"C"])
        self.assertEqual(book.close(), 3)
        with self.assertRaises(ClosedError):
            book.faults()
        with self.assertRaises(ProgramMissing):
            LiveBook(str(self.folder / "none"), str(self.files))

    def test_what_to_do_without_a_program(self) -> None:
        with mock.patch("abc2midi_live.find_program", side_effect=ProgramMissing("run ./build, or name a program")):
            with self.assertRaisesRegex(ProgramMissing, "^run ./build, or name a program by --program$"):
                options.find_program()


HEAD = "X:1\nM:4/4\nK:C\n"

# A name, a text with that fault, one without it, and what of that one its sentence says.
INSTEAD = [
    ("BadReference", "X:twelve\nK:C", "X:12\nK:C", "X:12"),
    ("BadMeter", "X:1\nM:2+3/5\nK:C", "X:1\nM:(2+3)/8\nK:C", "M:(2+3)/8"),
    ("BadUnit", "X:1\nL:3/8\nK:C", "X:1\nL:1/8\nK:C", "L:1/8"),
    ("BadTempo", "X:1\nQ:Lively\nK:C", 'X:1\nQ:"Lively" 1/4=120\nK:C', 'Q:"Lively" 1/4=120'),
    ("BadKey", "X:1\nK:Hp", "X:1\nK:D", "K:D"),
    ("BadOrder", "X:1\nP:a2(bc)3\nK:C", "X:1\nP:A2(BC)3\nK:C", "P:A2(BC)3"),
    ("BadPart", HEAD + "P:1", HEAD + "P:A", "P:A"),
    ("BadVoice", HEAD + "V:1 octave=low", HEAD + "V:1 octave=-1 transpose=2", "V:1 octave=-1 transpose=2"),
    ("TooManyVoices", HEAD + "".join(f"V:{n}\nC\n" for n in range(16)), HEAD + "[CE]", ""),
    ("BadByte", HEAD + "slowly, C", HEAD + '"slowly"C', '"slowly"C'),
    ("Unclosed", HEAD + '"5%"C', HEAD + '"5\\%"C', "\\%"),
    ("BadLength", HEAD + "C0 C/0", HEAD + "C2 C/2 C3/2 Z4", "C3/2"),
    ("BadTuplet", HEAD + "(0abc", HEAD + "(3abc (5:4:5abcde", "(5:4:5"),
    ("NestedTuplet", HEAD + "(3ab(3abc", HEAD + "(3:2:2ab(3abc", "(3:2:2"),
    ("BadBroken", HEAD + "A>|B", HEAD + "A>B|A3/2B/2", "A3/2B/2"),
    ("LooseTie", HEAD + "C2 -C", HEAD + "C2-C2-|C", "C2-|C"),
    ("EmptyChord", HEAD + "[]", HEAD + "[CEG]z2", "[CEG]"),
    ("BigChord", HEAD + f"[{'C' * 17}]", HEAD + f"[{'C' * 16}]", ""),
    ("BadEnding", HEAD + "|:A[0B:|[33C|", HEAD + "|:A[1,3B:|[2-4C|", "[1,3"),
    ("FreeBarRest", "X:1\nK:C\nZ", "X:1\nM:4/4\nK:C\nZ", "M:4/4"),
    ("KeyRange", HEAD + "c'''''", HEAD + "c'", ""),
    ("MissingKey", "X:1\nC", "X:1\nK:C\nC", "K:C"),
    ("TempoRange", "X:1\nQ:1/4=3\nK:C", "X:1\nQ:1/4=4\nK:C", ""),
    ("UnknownPart", "X:1\nP:AB\nK:C\nP:A\nC", "X:1\nP:AB\nK:C\nP:A\nC\nP:B\nC", "P:"),
    ("UnevenVoices", HEAD + "V:1\nC4\nV:2\nC2", HEAD + "V:1\nC4\nV:2\nC2z2", "z2"),
    ("TuneTooLong", "X:1\nP:(A99)99\nK:C\nP:A\nC", "X:1\nP:(A9)9\nK:C\nP:A\nC", ""),
    ("BadProgram", HEAD + "%%MIDI program 128\nC", HEAD + "%%MIDI program 40\nC", "%%MIDI program 40"),
]
