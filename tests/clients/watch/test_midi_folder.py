"""The folder that the watcher keeps current."""

import os
import shutil
import signal
import subprocess
import sys
from collections.abc import Callable
from typing import TextIO
from unittest import mock

import trial
from abc2midi_live_clients.watch.midi_folder import MidiFolder
from abc2midi_live_clients.watch.reports import TextReport
from abc2midi_live_clients.watch.watched_book import prepare
from watching import OTHER, TUNE, Looks, Process

MISSING, NO_FOLDER = "No such file or directory; make the folder above it first", "Not a directory; name another folder by --dir"
FOREIGN = ["x.mid", "007.mid", "7.MID", "7.mid.bak", "1234567890.mid", "-7.mid", " 7.mid", "7.mid\n", "7", ".mid", ".x.mid.new", "٧.mid"]


class Files(Looks):
    """Files that should or should not be there."""

    def test_a_deleted_file(self) -> None:
        self.save(TUNE + OTHER)
        (self.files / "1.mid").unlink()
        self.assertEqual(self.save(TUNE + OTHER + b"% words\n"), ["written 1.mid (Kesh)"])

    def test_a_deleted_file_and_the_same_text(self) -> None:
        self.save(TUNE + OTHER)
        (self.files / "2.mid").unlink()
        self.assertEqual(self.look(), [])
        self.assertEqual(self.save(TUNE + OTHER), ["written 2.mid"])
        self.assertEqual(self.save(TUNE + OTHER), [])

    def test_a_deleted_folder(self) -> None:
        self.save(TUNE + OTHER)
        shutil.rmtree(self.files)
        self.path.write_bytes(TUNE + OTHER + b"% words\n")
        self.assertEqual(self.look(), ["/files: folder created", "written 1.mid (Kesh), 2.mid"])
        wanted = trial.fresh(TUNE + OTHER).files
        self.assertEqual({name: data for name, data in trial.files_in(self.files).items() if name in wanted}, wanted)

    def test_files_of_an_earlier_run(self) -> None:
        self.leave()
        self.path.write_bytes(TUNE + OTHER)
        what = "5 files of an earlier run that no tune of the book has: 0.mid, 7.mid, 12.mid, .8.mid.new, .9.mid.new"
        self.assertEqual(self.look(), ["written 1.mid (Kesh), 2.mid", f"{what}; --clean removes them"])
        self.assertEqual(len(os.listdir(self.files)), len(FOREIGN) + 2 + 5 + 1)
        self.path.write_bytes(TUNE)
        self.assertEqual(self.look(), ["removed 2.mid"])

    def leave(self) -> None:
        """Leaves files of an earlier run, others, and a folder that has the name of a file."""
        for name in ["0.mid", "2.mid", "7.mid", "12.mid", ".8.mid.new", ".9.mid.new", *FOREIGN]:
            (self.files / name).write_text("earlier")
        (self.files / "3.mid").mkdir()


class Clean(Files):
    """With --clean files of an earlier run are removed."""

    clean = True

    def test_files_of_an_earlier_run(self) -> None:
        self.leave()
        self.path.write_bytes(TUNE + OTHER)
        what = "5 files of an earlier run that no tune of the book has: 0.mid, 7.mid, 12.mid, .8.mid.new, .9.mid.new"
        self.assertEqual(self.look(), ["written 1.mid (Kesh), 2.mid", f"removed {what}"])
        self.assertEqual(sorted(os.listdir(self.files)), sorted(["1.mid", "2.mid", "3.mid", *FOREIGN]))
        (self.files / "7.mid").write_text("later")
        self.path.write_bytes(TUNE)
        self.assertEqual(self.look(), ["removed 2.mid"])
        self.assertEqual(sorted(os.listdir(self.files)), sorted(["1.mid", "3.mid", "7.mid", *FOREIGN]))

    def test_a_book_without_tunes(self) -> None:
        """It may be the wrong one."""
        (self.files / "7.mid").write_text("earlier")
        self.path.write_bytes(b"no tune is here\n")
        what = "1 file of an earlier run that no tune of the book has: 7.mid; --clean removes them"
        self.assertEqual(self.look(), ["no file changed", what, "the book has no tune, so --clean removes nothing"])
        self.assertEqual(os.listdir(self.files), ["7.mid"])


class Writing(trial.Folder):
    """One file of the folder, which the watcher writes again."""

    def test_a_half_file_beside_a_file_that_somebody_deleted(self) -> None:
        """It is in no way, whether it is a file or a link, which is not followed."""
        folder, half = MidiFolder(str(self.files)), self.files / ".1.mid.new"
        other = self.folder / "other"
        other.write_bytes(b"of somebody else")
        makes: list[Callable[[], object]] = [lambda: half.write_bytes(b"half"), lambda: half.symlink_to(other)]
        for make in makes:
            make()
            self.assertEqual(folder.missing([1]), [1])
            folder.write(1, b"whole")
            self.assertEqual((os.listdir(self.files), (self.files / "1.mid").read_bytes()), (["1.mid"], b"whole"))
            (self.files / "1.mid").unlink()
        self.assertEqual(other.read_bytes(), b"of somebody else")


class Locks(trial.Folder):
    """The lock in a folder of another user, where nobody else makes files."""

    def prepare(self) -> list[str]:
        """What it prints to prepare the folder, which is then unlocked."""
        told: list[str] = []
        opened = os.open

        def refuse_new_files(path: str, flags: int, *mode: int) -> int:
            if flags & os.O_CREAT:
                raise PermissionError(13, "Permission denied", path)
            return opened(path, flags, *mode)

        folder = MidiFolder(str(self.files))
        self.addCleanup(folder.release)
        with mock.patch("os.open", refuse_new_files):
            prepare(folder, TextReport("book.abc", {}, False, told.append))
        self.is_locked = folder.lock is not None
        return told

    def test_no_lock_file(self) -> None:
        """The reason is that of the folder."""
        told = [f"{self.files}: Permission denied; so a second watcher of this folder is not noticed"]
        self.assertEqual((self.prepare(), self.is_locked), (told, False))

    def test_a_lock_file_to_read(self) -> None:
        (self.files / ".watch.lock").touch()
        self.assertEqual((self.prepare(), self.is_locked), ([], True))


class Output(trial.Folder):
    """Standard output that takes no line. No program is needed: the first line says that the folder was made."""

    def errors_over(self, output: TextIO) -> tuple[str, int]:
        """What the watcher prints on standard error, and its exit status."""
        words = [sys.executable, str(trial.clients / "watch"), "book.abc", "--dir", str(self.folder / "new")]
        ended = subprocess.run(words, stdout=output, stderr=subprocess.PIPE, text=True, timeout=trial.SECONDS)
        return ended.stderr, ended.returncode

    def test_a_full_disk(self) -> None:
        """The reason names standard output and not the folder."""
        with open("/dev/full", "w") as full:
            self.assertEqual(self.errors_over(full), ("watch: standard output: No space left on device\n", 1))

    def test_nobody_reads(self) -> None:
        reader, writer = os.pipe()
        os.close(reader)
        with open(writer, "w") as pipe:
            self.assertEqual(self.errors_over(pipe), ("", 1))


class Folders(Process):
    """The folder as the command line names it."""

    def setUp(self) -> None:
        super().setUp()
        self.path.write_bytes(TUNE)

    def test_a_folder_that_is_made(self) -> None:
        new = self.folder / "new"
        self.start("--once", files=new)
        output, errors, status = self.end()
        self.assertEqual((output.splitlines()[0], errors, status), (f"{new}: folder created", "", 0))
        self.assertEqual(trial.files_in(new), trial.fresh(TUNE).files)

    def test_folders_that_cannot_be_made(self) -> None:
        (self.folder / "file").touch()
        for name, why in (("none/new", MISSING), ("file", NO_FOLDER), ("file/new", NO_FOLDER)):
            self.start("--once", files=self.folder / name)
            self.assertEqual(self.end(), ("", f"watch: {self.folder / name}: {why}\n", 1))
        self.assertFalse((self.folder / "none").exists())

    def test_a_second_watcher(self) -> None:
        self.start()
        self.line()
        first = self.process
        more: list[list[str]] = [[], ["--once"], ["--clean"]]
        for words in more:
            self.start(*words)
            why = f"watch: {self.files}: another watcher keeps this folder current (process {first.pid}); end it, or name another folder by --dir\n"
            self.assertEqual(self.end(), ("", why, 1))
        (self.folder / "link").symlink_to(self.files)
        self.start(files=self.folder / "link")
        self.assertEqual(self.end()[2], 1)
        first.send_signal(signal.SIGINT)
        first.wait(trial.SECONDS)
        self.start("--once")
        self.assertEqual(self.end()[2], 0)
        self.assertEqual(os.listdir(self.files), ["1.mid"])

    def test_a_stale_lock(self) -> None:
        self.start()
        self.line()
        self.process.kill()
        self.process.wait()
        self.assertEqual(sorted(os.listdir(self.files)), [".watch.lock", "1.mid"])
        self.start("--once")
        self.assertEqual(self.end()[2], 0)
        self.assertEqual(os.listdir(self.files), ["1.mid"])
