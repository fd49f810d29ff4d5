"""The watcher of a tune book."""

import json
import os
import random
import signal
import stat
from typing import Any
from unittest import mock

import trial
from abc2midi_live import Built, ProgramMissing
from abc2midi_live_clients.common import book_file
from abc2midi_live_clients.common.faults import sentences
from abc2midi_live_clients.common.regular_file import open_regular
from abc2midi_live_clients.common.session_book import LiveBook
from abc2midi_live_clients.hints import Finder
from abc2midi_live_clients.hints.repeats import OPEN_REPEAT
from abc2midi_live_clients.watch.reports import JsonReport
from watching import OTHER, TUNE, Looks, Process


class Saves(Looks):
    """One look after another at a book that is saved in all kinds of ways."""

    def test_one_line_a_change(self) -> None:
        self.assertEqual(self.save(TUNE), ["written 1.mid (Kesh)"])
        self.assertEqual(self.look(), [])
        self.assertEqual(self.save(TUNE + OTHER), ["written 2.mid"])
        self.assertEqual(self.save(TUNE.replace(b"Kesh", b"Kesh jig") + OTHER), ["written 1.mid (Kesh jig)"])
        self.assertEqual(self.save(b"% words\n" + OTHER), ["removed 1.mid (Kesh jig)"])
        self.assertEqual(self.save(b"% other words\n" + OTHER), ["no file changed"])
        self.assertEqual(self.save(b"X:3\nT:A\x1b[2J\n" + OTHER), ["written 3.mid (A?[2J); 1 fault, 1 new", MISSING_KEY])

    def test_many_files_in_a_line(self) -> None:
        book = b"".join(b"X:%d\nK:C\nC\n" % n for n in range(1, 11))
        self.assertEqual(self.save(book), ["written " + ", ".join(f"{n}.mid" for n in range(1, 9)) + ", and 2 more"])

    def test_faults(self) -> None:
        told = self.save(TUNE + b"C-z&\n")
        self.assertEqual([line.split(": ")[:2] for line in told[1:]], [["/book.abc:5:4", "BadByte"]])
        self.assertTrue(told[1].endswith(sentences()["BadByte"]))
        self.assertEqual(self.save(b"\n" + TUNE + b"C-z&\n"), ["no file changed; 1 fault, 0 new"])
        self.assertEqual(self.save(TUNE + b"C-z\n"), ["no file changed"])
        self.assertEqual(self.save(TUNE + b"C-z&\n")[0], "no file changed; 1 fault, 1 new")
        many = self.save(TUNE + b"C-z&\n" + b"&" * 20 + b"\n")
        self.assertEqual((many[0], len(many)), ("no file changed; 21 faults, 20 new", 2))
        self.assertRegex(many[1], r"^.*/book.abc:6:1: BadByte: .*[.] \(19 more in this line\)$")
        same = self.save(b"\n" + TUNE + b"C-z&\n" + b"&" * 20 + b"\n")
        self.assertEqual(same, ["no file changed; 21 faults, 0 new"])
        one = self.save(b"\n\n" + TUNE + b"C-z&\n" + b"&" * 20 + b"\nC - D\n")
        self.assertEqual([one[0], one[1].split(": ")[:2]], ["written 1.mid (Kesh); 22 faults, 1 new", ["/book.abc:9:3", "LooseTie"]])

    def test_dynamics_and_programs(self) -> None:
        """Loudness and sound in a file count as a change of it; a missing program is reported."""
        self.save(TUNE)
        self.assertEqual(self.save(TUNE.replace(b"GAB", b"G!p!AB")), ["written 1.mid (Kesh)"])
        self.assertEqual(self.save(TUNE.replace(b"GAB", b"G!trill!AB")), ["written 1.mid (Kesh)"])
        self.assertEqual(self.save(TUNE.replace(b"K:G", b"%%MIDI program 40\nK:G")), ["written 1.mid (Kesh)"])
        told = self.save(TUNE.replace(b"K:G", b"%%MIDI program 400\nK:G"))
        self.assertEqual([told[0], told[1].split(": ")[:2]], ["written 1.mid (Kesh); 1 fault, 1 new", ["/book.abc:3:1", "BadProgram"]])
        self.assertTrue(told[1].endswith(sentences()["BadProgram"]))
        self.assertEqual(self.save(b"%%MIDI program 40\n\n" + TUNE + OTHER), ["written 1.mid (Kesh), 2.mid"])

    def test_saved_by_renaming(self) -> None:
        self.save(TUNE)
        (self.folder / "new").write_bytes(TUNE + OTHER)
        os.replace(self.folder / "new", self.path)
        self.assertEqual(self.look(), ["written 2.mid"])

    def test_empty_for_a_moment(self) -> None:
        self.save(TUNE)
        self.path.write_bytes(b"")
        self.assertEqual(self.look(), [])
        self.assertEqual(self.save(TUNE + OTHER), ["written 2.mid"])
        self.path.write_bytes(b"")
        self.assertEqual(self.look(), [])
        self.assertEqual(self.look(), ["removed 1.mid (Kesh), 2.mid"])
        self.assertEqual((self.look(), os.listdir(self.files)), ([], []))
        self.save(TUNE)
        self.path.write_bytes(b"")
        self.look()
        self.save(TUNE)
        self.path.write_bytes(b"")
        self.assertEqual(self.look(), [])

    def test_gone_and_back(self) -> None:
        waiting = ["/book.abc: No such file or directory; waiting for it"]
        self.assertEqual([self.look(), self.look()], [waiting, []])
        self.save(TUNE)
        self.path.unlink()
        self.assertEqual([self.look(), self.look(), os.listdir(self.files)], [waiting, [], ["1.mid"]])
        self.assertEqual(self.save(TUNE + OTHER), ["written 2.mid"])
        self.path.unlink()
        self.path.mkdir()
        self.assertEqual(self.look(), ["/book.abc: it is a folder, and not a regular file; waiting for it"])

    def test_gone_and_back_unchanged(self) -> None:
        """One line says so, also if the file is the old one, moved away and back."""
        self.save(TUNE)
        away = self.folder / "away"
        os.rename(self.path, away)
        self.look()
        os.rename(away, self.path)
        there = ["/book.abc: there again, unchanged"]
        self.assertEqual([self.look(), self.look()], [there, []])
        self.path.unlink()
        self.look()
        self.path.write_bytes(b"")
        self.assertEqual(self.look(), [])
        self.assertEqual(self.save(TUNE), there)
        self.assertEqual(self.save(TUNE + OTHER), ["written 2.mid"])

    def test_half_of_a_save(self) -> None:
        """While the first look waits whether the save is through, the rest of it is written."""
        self.path.write_bytes(TUNE[:9])
        self.watch.file.pause = lambda _: self.path.write_bytes(TUNE)
        self.assertEqual([self.look(), self.look()], [[], ["written 1.mid (Kesh)"]])

    def test_lines_of_all_kinds(self) -> None:
        self.save((TUNE + OTHER).replace(b"\n", b"\r\n"))
        self.save(b"\xef\xbb\xbf" + TUNE + b"quit\nbuild\ndelete 1 3\ninsert 1 5\n\xff\x00\nreplace 1 1 0")
        self.save(TUNE.replace(b"\n", b"\r"))
        self.path.write_bytes(TUNE + b"%" * 70_000 + b"\nCDEF\n")
        self.assertEqual([line[:22] for line in self.look()], ["written 1.mid (Kesh); ", "/book.abc:5:65536: Bad"])
        self.assertEqual(trial.files_in(self.files), trial.fresh(TUNE + b"%\nCDEF\n").files)

    def test_a_file_that_fails(self) -> None:
        (self.files / "1.mid").mkdir()
        self.path.write_bytes(TUNE + OTHER)
        told = "failed 1.mid; the next build retries it and the later ones"
        self.assertEqual(self.look(), [told])
        (self.files / "1.mid").rmdir()
        self.assertEqual(self.save(TUNE + OTHER + b"%"), ["written 1.mid (Kesh), 2.mid"])

    def test_the_file_of_the_greatest_number_is_played(self) -> None:
        played: list[str] = []
        player: Any = type("Player", (), {"play": played.append, "failure": lambda: None, "stop": lambda: None})
        self.watch.player = player
        self.save(TUNE)
        self.save(TUNE.replace(b"ABc", b"AB") + OTHER)
        self.save(TUNE)
        self.assertEqual(played, [str(self.files / "2.mid"), str(self.files / "1.mid")])

    def test_random_saves(self) -> None:
        """After each save the folder is that of a fresh run."""
        chance = random.Random(trial.seed)
        tunes = [trial.random_tune(chance, number + 1) for number in range(trial.tunes)]
        texts = [[line.encode() for tune in tunes for line in tune]]
        for number in range(trial.saves):
            texts = texts[-3:] + [changed(chance, texts)]
            end = chance.choice([b"\n", b"\n", b"\n", b"\r\n"])
            self.save(end.join(texts[-1]) + chance.choice([b"", end]) + b"%% save %d" % number)


def changed(chance: random.Random, texts: list[list[bytes]]) -> list[bytes]:
    """Another text: the last one after some changes, or an earlier one."""
    text = list(texts[-1])
    kind = chance.randrange(12)
    if kind == 0:
        return list(texts[0])
    if kind == 1:
        return [line.replace(b"C", b"c") for line in text]
    if kind == 2:
        return [b"X:%d" % (int(line[2:]) + 1) if line[2:].isdigit() and line[:2] == b"X:" else line for line in text]
    for _ in range(chance.randrange(1, 5)):
        at = chance.randrange(len(text) + 1)
        stop = at + chance.choice([0, 0, 1, 1, 1, 2, 9])
        put = [trial.random_line(chance).encode() for _ in range(chance.choice([0, 1, 1, 1, 3]))]
        if chance.random() < 0.2:
            put = [line.encode() for line in trial.random_tune(chance, chance.randrange(1, trial.tunes + 9))]
        if chance.random() < 0.1:
            put = text[at : at + 12]
            at = stop = chance.randrange(len(text) + 1)
        text[at:stop] = put
    return text


class Unsaved(Looks):
    """A book that nobody saves is not read."""

    def setUp(self) -> None:
        super().setUp()
        self.reads = 0
        opened = open_regular

        def counted(path: str) -> Any:
            file = opened(path)
            read = file.read
            counting: Any = type("Counting", (), {"fileno": file.fileno, "__enter__": lambda it: it, "__exit__": lambda *_: file.close()})()
            counting.read = lambda *size: self.count(read(*size))
            return counting

        patch = mock.patch.object(book_file, "open_regular", counted)
        patch.start()
        self.addCleanup(patch.stop)

    def count(self, data: bytes) -> bytes:
        """Counts what was read."""
        self.reads += 1
        return data

    def test_no_read(self) -> None:
        self.save(TUNE)
        for _ in range(9):
            self.seconds_now += 0.5
            self.look()
        before = self.reads
        self.assertLess(before, 12)
        for _ in range(100):
            self.seconds_now += 0.5
            self.assertEqual(self.look(), [])
        self.assertEqual(self.reads, before)
        self.assertEqual(self.save(TUNE + OTHER), ["written 2.mid"])

    def test_two_saves_in_one_tick(self) -> None:
        """The clock of a file system may be so slow that both leave the same time and size."""
        signature_of = book_file.signature_of
        self.addCleanup(setattr, book_file, "signature_of", signature_of)
        book_file.signature_of = lambda _: (1, 1, 1, 1, 1)
        self.save(TUNE)
        self.seconds_now += 2
        self.assertEqual(self.save(TUNE.replace(b"GAB", b"GAG")), ["written 1.mid (Kesh)"])


class Restarts(Looks):
    """The program ends while the watcher goes on."""

    def program(self) -> LiveBook:
        if (self.folder / "away").exists():
            raise ProgramMissing("program: No such file or directory")
        return super().program()

    def test_a_killed_program(self) -> None:
        self.save(TUNE + OTHER)
        self.kill_program()
        self.assertEqual(
            self.save(TUNE.replace(b"X:1", b"X:3")),
            ["the program ended with status -9; restarting it", "written 3.mid (Kesh); removed 1.mid (Kesh), 2.mid"],
        )
        self.assertEqual(self.save(TUNE), ["written 1.mid (Kesh); removed 3.mid (Kesh)"])

    def test_a_program_that_ends_again(self) -> None:
        """It ends at one text, and the files stay till there is another one."""
        build = LiveBook.build

        def fail(book: LiveBook) -> Built:
            if b"T:Crash" in book.lines:
                book.process.kill()
            return build(book)

        crashing = mock.patch.object(LiveBook, "build", fail)
        crashing.start()
        self.addCleanup(crashing.stop)
        self.save(TUNE)
        self.path.write_bytes(TUNE.replace(b"Kesh", b"Crash"))
        ended = "the program ended with status -9"
        self.assertEqual(self.look(), [f"{ended}; restarting it", f"{ended}, again; the next save tries again"])
        self.assertEqual((self.look(), trial.files_in(self.files)), ([], trial.fresh(TUNE).files))
        self.assertEqual(self.save(TUNE + OTHER), ["written 2.mid"])

    def test_no_program_for_a_while(self) -> None:
        self.save(TUNE)
        self.kill_program()
        (self.folder / "away").touch()
        self.path.write_bytes(OTHER)
        ended = "the program ended with status -9; restarting it"
        self.assertEqual(self.look(), [ended, "program: No such file or directory; waiting for it"])
        self.assertEqual(self.look(), [])
        (self.folder / "away").unlink()
        self.assertEqual(self.look(), ["written 2.mid; removed 1.mid (Kesh)"])
        self.assertEqual(trial.files_in(self.files), trial.fresh(OTHER).files)


class AllFaults(Looks):
    """With --all each save prints all faults."""

    in_full = True

    def test_all(self) -> None:
        self.save(TUNE + b"C-z&\n" + b"&" * 20 + b"\n")
        told = self.save(TUNE + b"C-z&\n" + b"&" * 20 + b"\nC - D\n")
        self.assertEqual((told[0], len(told)), ("written 1.mid (Kesh); 22 faults, 1 new", 4))
        self.assertEqual([line.split(": ")[1] for line in told[1:]], ["BadByte", "BadByte", "LooseTie"])


class Hints(Looks):
    """Hints are printed after the faults, the new ones in full."""

    finder = Finder
    number = "/book.abc:6:1: hint: SameNumber: number 1 is used at line 1, so this tune has no file; write another number"

    def test_new_hints(self) -> None:
        self.save(TUNE + OTHER)
        self.assertEqual(self.save(TUNE + OTHER.replace(b"2", b"1")), ["removed 2.mid; 1 hint, 1 new", self.number])
        self.assertEqual(self.save(b"\n" + TUNE + OTHER.replace(b"2", b"1")), ["no file changed; 1 hint, 0 new"])
        self.assertEqual(self.save(TUNE + OTHER), ["written 2.mid"])

    def test_faults_come_first(self) -> None:
        told = self.save(TUNE + OTHER.replace(b"2", b"1") + b"C -\n")
        self.assertEqual(told[0], "written 1.mid (Kesh); 1 fault, 1 new; 1 hint, 1 new")
        self.assertEqual([line.split(": ")[1] for line in told[1:]], ["LooseTie", "hint"])

    def test_a_hint_on_a_whole_tune(self) -> None:
        """It is at a line that is edited again and again."""
        self.save(TUNE + b'"Am"c "C"e\n')
        chords = "/book.abc:5:1: hint: NotPlayed: not played in this tune: 3 chord names"
        told = self.save(TUNE + b'"Am"c "C"e "G"d\n')
        self.assertEqual(told, ["written 1.mid (Kesh); 1 hint, 1 new", chords])
        self.assertEqual(self.save(TUNE + b'"Am"C "C"E "G"D\n'), ["written 1.mid (Kesh); 1 hint, 0 new"])
        told = self.save(TUNE + b'"Am"C "C"E "G"D\n' + OTHER + b'"Am"c "C"e "G"d\n')
        self.assertEqual([told[0], len(told)], ["written 2.mid; 2 hints, 1 new", 2])

    def test_many_hints_at_the_start(self) -> None:
        """Only their number is printed; later ones are."""
        book = b"".join(b"X:1\nK:C\n%d\n" % n for n in range(22))
        told = self.save(book)
        self.assertTrue(told[0].endswith("; 21 hints, 21 new (--all prints them)"), told[0])
        self.assertFalse([line for line in told if ": hint: " in line])
        told = self.save(book + OTHER + OTHER)
        self.assertEqual([line.split(": ")[0] for line in told if ": hint: " in line], ["/book.abc:72:1"])


class LateHints(Looks):
    """If a save changes many tunes, its files are reported first. Looks without a save find the hints."""

    finder = Finder
    tunes = [b"X:%d\nK:C\n|:C|\n" % number for number in range(1, 251)]

    def test_opening(self) -> None:
        told = self.save(b"".join(self.tunes))
        self.assertEqual((len(told), "hint" in told[0], "and 242 more" in told[0]), (1, False, True))
        self.assertEqual([self.look(), self.look()], [[], ["250 hints, 250 new (--all prints them)"]])
        self.assertEqual(self.look(), [])

    def test_a_save_between(self) -> None:
        """The tunes that it changes are looked at first. Only hints on the last text are printed."""
        self.save(b"".join(self.tunes))
        book = b"".join(self.tunes[1:])
        self.assertEqual(self.save(book), ["removed 1.mid"])
        self.assertEqual(self.look(), ["249 hints, 249 new"] + [f"/book.abc:{3 * n}:1: hint: OpenRepeat: {OPEN_REPEAT}" for n in range(1, 250)])
        self.assertEqual(self.save(b"%\n" + book), ["no file changed; 249 hints, 0 new"])

    def test_json(self) -> None:
        rows: list[str] = []
        self.watch.report = JsonReport("book.abc", {}, rows.append)
        self.save(b"".join(self.tunes))
        self.look()
        self.look()
        change, hints = map(json.loads, rows)
        self.assertEqual((change["event"], change["hints"], change["hints_follow"]), ("change", [], True))
        self.assertEqual((hints["event"], len(hints["hints"]), list(hints)), ("hints", 250, ["event", "book", "hints"]))
        self.assertEqual(hints["hints"][0], {"line": 3, "column": 1, "name": "OpenRepeat", "text": OPEN_REPEAT, "new": True})

    def test_once(self) -> None:
        """A watcher that builds once looks for all hints before it reports."""
        self.start_watch(goes_on=False)
        self.assertIn("250 hints, 250 new", self.save(b"".join(self.tunes))[0])


class AllHints(Looks):
    """With --all each save prints all hints."""

    finder = Finder
    in_full = True

    def test_all(self) -> None:
        book = b"".join(b"X:1\nK:C\n%d\n" % n for n in range(22))
        for text, line in (book, "21 hints, 21 new"), (book + b"%\n", "21 hints, 0 new"):
            told = self.save(text)
            self.assertTrue(told[0].endswith(f"; {line}"), told[0])
            self.assertEqual(len([line for line in told if ": hint: " in line]), 21)


class Running(Process):
    """The watcher as a process of its own."""

    def test_from_start_to_end(self) -> None:
        self.path.write_bytes(TUNE)
        self.start("--play", f"cp -t '{self.folder}'")
        self.assertRegex(self.line(), r"^written 1\.mid \(Kesh\); \d+ ms\n$")
        (self.folder / "new").write_bytes(TUNE + OTHER)
        os.replace(self.folder / "new", self.path)
        self.assertRegex(self.line(), r"^written 2\.mid; \d+ ms\n$")
        self.wait_for(lambda: (self.folder / "2.mid").exists())
        self.assertNotEqual(os.getsid(self.pid()), os.getsid(self.process.pid))
        self.interrupt()
        self.assert_gone(self.pid())
        self.assertEqual(sorted(os.listdir(self.files)), ["1.mid", "2.mid"])

    def test_the_terminal_is_closed(self) -> None:
        self.path.write_bytes(TUNE)
        trial.hear_of_the_terminal(self)
        self.start()
        self.line()
        self.interrupt(signal.SIGHUP)
        self.assert_gone(self.pid())

    def test_the_program_is_killed(self) -> None:
        self.path.write_bytes(TUNE)
        self.start()
        self.line()
        killed = self.pid()
        os.kill(killed, signal.SIGKILL)
        self.path.write_bytes(TUNE + OTHER)
        self.assertEqual(self.line(), "the program ended with status -9; restarting it\n")
        self.assertRegex(self.line(), r"^written 2\.mid; \d+ ms\n$")
        self.assertNotEqual(self.pid(), killed)
        self.interrupt()

    def test_a_program_that_is_not_there(self) -> None:
        (self.folder / "program").unlink()
        self.start()
        output, errors, status = self.end()
        self.assertEqual((output, errors.count("\n"), status), ("", 1, 127))

    def test_a_player_that_is_not_there(self) -> None:
        self.path.write_bytes(TUNE)
        self.start("--play", "no-such-player -q")
        self.assertEqual(self.line(), "no-such-player: no such player; install it, or name another one by --play; each save tries it again\n")
        self.assertRegex(self.line(), r"^written 1\.mid")
        self.path.write_bytes(TUNE + OTHER)
        self.assertRegex(self.line(), r"^written 2\.mid")
        self.assertEqual(self.line(), "no-such-player: No such file or directory\n")
        self.interrupt()

    def test_a_player_that_fails(self) -> None:
        self.path.write_bytes(TUNE)
        for number, (script, how) in enumerate((("kill -9 $$", "was killed by signal 9"), ("exit 4", "ended with status 4"))):
            player = self.folder / "player"
            player.write_text(f"#!/bin/sh\n{script}\n")
            player.chmod(player.stat().st_mode | stat.S_IXUSR)
            self.start("--play", str(player))
            self.line()
            self.path.write_bytes(TUNE + b"G" * (number + 1))
            self.assertRegex(self.line(), r"^written 1\.mid")
            self.assertEqual(self.line(), f"{player} {how}\n")
            self.interrupt()

    def test_no_player(self) -> None:
        for words in (["--play", ""], ["--play", "'"], ["--play", "timidity", "--once"]):
            self.start(*words)
            self.assertEqual(self.end()[2], 2)

    def test_no_hints(self) -> None:
        self.path.write_bytes(TUNE + OTHER.replace(b"2", b"1"))
        self.start("--once")
        self.assertEqual([line.split("; ")[1] for line in self.end()[0].splitlines()], ["1 hint, 1 new", "write another number"])
        self.start("--once", "--no-hints")
        output, errors, status = self.end()
        self.assertEqual((output.count("\n"), "hint" in output, errors, status), (1, False, "", 0))

    def test_a_pipe_as_the_book(self) -> None:
        os.mkfifo(self.path)
        self.start()
        self.assertEqual(self.line(), f"{self.path}: it is not a regular file; waiting for it\n")
        self.path.unlink()
        self.path.write_bytes(TUNE)
        self.assertRegex(self.line(), r"^written 1\.mid")
        self.interrupt()

    def test_the_name_of_the_book(self) -> None:
        """It moves no cursor."""
        self.path = self.folder / "a\x1b[2Jb\n.abc"
        self.path.write_bytes(TUNE + b"&\n")
        self.start("--no-hints")
        self.assertRegex(self.line(), r"^written 1\.mid")
        self.assertEqual(self.line().partition(":")[0], f"{self.folder}/a?[2Jb?.abc")
        self.interrupt()


MISSING_KEY = f"/book.abc:1:1: MissingKey: {sentences()['MissingKey']}"
