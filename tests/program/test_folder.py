"""The folder of the files: what is stored when, and what happens if it cannot be."""

from __future__ import annotations

import os
import subprocess
import unittest
from pathlib import Path

from built_program import FILE_OF_C, FILE_OF_D, TOP, TWO_TUNES, WRITTEN_BOTH, Ended, ProgramTest

TWO = TWO_TUNES.rstrip("\n")
BOTH_WRITTEN = "ok written 1 2 removed"
BOTH = {"1.mid": FILE_OF_C, "2.mid": FILE_OF_D}


class Stored(ProgramTest):
    def test_files_are_stored_before_the_answer(self) -> None:
        """And the answer is there before the next command."""
        with self.conversation() as talk:
            talk.ask(TWO, BOTH_WRITTEN)
            talk.ask("build", WRITTEN_BOTH)
            self.assert_files(BOTH)
            talk.ask("delete 1 7", "ok written removed 1 2")
            talk.ask("build", "removed 1.mid\nremoved 2.mid\nend")
            self.assert_files({})

    def test_a_file_is_replaced_in_one_step(self) -> None:
        """A reader that has the old one open reads on in it."""
        with self.conversation() as talk:
            talk.ask(TWO, BOTH_WRITTEN)
            talk.ask("build", WRITTEN_BOTH)
            with (self.folder / "1.mid").open("rb") as old:
                talk.ask("replace 3 3 1\nD", "ok written 1 removed")
                talk.ask("build", "written 1.mid\nend")
                self.assertEqual(old.read().hex().upper(), FILE_OF_C)
            self.assert_files({"1.mid": FILE_OF_D, "2.mid": FILE_OF_D})

    def test_other_names_stay(self) -> None:
        """Even similar ones. An earlier file, and the half-written one of a crash, are replaced."""
        others = dict.fromkeys(("01.mid", "1.MID", "1.mid.bak", "3.mid", "notes"), b"a\n".hex().upper())
        for name in (*others, "1.mid", ".1.mid.new"):
            (self.folder / name).write_bytes(b"a\n")
        (self.folder / "2.mid").symlink_to("notes")
        (self.folder / ".2.mid.new").symlink_to("notes")
        self.run_program(f"{TWO_TUNES}build\n")
        self.assert_files({**others, **BOTH})
        ended = self.run_program(f"{TWO_TUNES}build\ndelete 1 7\nbuild\nbuild\n")
        self.assert_files(others)
        self.assertEqual(ended.out.decode().splitlines()[-4:], ["removed 1.mid", "removed 2.mid", "end", "end"])

    def test_runs_that_are_killed_inside_a_build(self) -> None:
        """Each file is an old one or a new one, whole."""
        ran = subprocess.run([TOP / "tests/failures/kill_builds", *self.words("10")], capture_output=True, text=True)
        self.assertEqual(ran.returncode, 0, ran.stdout + ran.stderr)


class Failing(ProgramTest):
    """A folder, or a name in it, that fails at first."""

    def told(self, rows: list[str], name: str, times: int) -> None:
        """Standard error says so often that a file is the name of a folder, and nothing else."""
        self.assertEqual(rows, [f"{name}: Is a directory (os error 21)"] * times)

    def test_the_second_file(self) -> None:
        """The build names that file and ends, and the next one resumes there. Each time standard error has the reason."""
        (self.folder / "2.mid").mkdir()
        with self.conversation() as talk:
            talk.ask(TWO, BOTH_WRITTEN)
            talk.ask("build", "written 1.mid\nfailed 2.mid\nend")
            talk.ask("build", "failed 2.mid\nend")
            self.told(talk.said(), "2.mid", 2)
            (self.folder / "2.mid").rmdir()
            talk.ask("build", "written 2.mid\nend")
            talk.ask("build", "end")
            self.assert_files(BOTH)

    def test_a_folder_under_the_name_of_a_file(self) -> None:
        """That file fails, and later files are not tried until the folder is gone. A file that cannot be removed is tried again
        too; one that is already removed is not a failure."""
        name = self.folder / "1.mid"
        name.mkdir()
        with self.conversation() as talk:
            talk.ask(TWO, BOTH_WRITTEN)
            talk.ask("build", "failed 1.mid\nend")
            talk.ask("build", "failed 1.mid\nend")
            self.assertEqual(os.listdir(self.folder), ["1.mid"])
            name.rmdir()
            talk.ask("build", WRITTEN_BOTH)
            talk.ask("delete 1 4", "ok written removed 1")
            name.unlink()
            name.mkdir()
            talk.ask("build", "failed 1.mid\nend")
            self.told(talk.said(), "1.mid", 3)
            name.rmdir()
            talk.ask("build", "removed 1.mid\nend")
            talk.ask("build", "end")
            self.assert_files({"2.mid": FILE_OF_D})

    def test_a_folder_that_is_missing_at_first(self) -> None:
        """It is not made, and the run goes on. Once it is there the files are written."""
        none = self.room / "none"
        with self.conversation(none) as talk:
            talk.ask(TWO, BOTH_WRITTEN)
            talk.ask("build", "failed 1.mid\nend")
            self.assertFalse(none.exists())
            none.mkdir()
            talk.ask("build", WRITTEN_BOTH)
            talk.ask("build", "end")
            for name in BOTH:
                (none / name).unlink()
            none.rmdir()
            talk.ask("replace 7 7 1\nC", "ok written 2 removed")
            talk.ask("build", "failed 2.mid\nend")
            talk.ask("delete 1 4", "ok written removed 1")
            talk.ask("build", "removed 1.mid\nfailed 2.mid\nend")
            none.mkdir()
            talk.ask("build", "written 2.mid\nend")
            self.assert_files({"2.mid": FILE_OF_C}, none)


class Unwritable(ProgramTest):
    """A folder that no file can be put into: each `build` names the first file, and the run goes on."""

    def unwritable(self, folder: Path) -> None:
        commands = ["build", "build", "delete 5 7", "build", "hex 1"]
        ended = self.run_words(self.words("--dir", folder), input=(TWO_TUNES + "\n".join(commands) + "\n").encode())
        failed = ["failed 1.mid", "end"]
        self.assertEqual(ended.status, 0)
        self.assertEqual(ended.out.decode().splitlines(), [BOTH_WRITTEN, *failed, *failed, "ok written removed 2", *failed, FILE_OF_C])

    def test_a_file_in_place_of_the_folder(self) -> None:
        """Or in its path. It stays."""
        (self.folder / "file").write_text("text\n")
        self.unwritable(self.folder / "file")
        self.unwritable(self.folder / "file/below")
        self.assert_files({"file": b"text\n".hex().upper()})

    @unittest.skipIf(os.geteuid() == 0, "root may write everywhere")
    def test_a_folder_that_may_not_be_written(self) -> None:
        self.folder.chmod(0o555)
        self.addCleanup(self.folder.chmod, 0o755)
        self.unwritable(self.folder)
        self.assert_files({})

    @unittest.skipUnless(Path("/proc/self").is_dir(), "there is no /proc")
    def test_a_folder_that_takes_no_files_from_anybody(self) -> None:
        self.unwritable(Path("/proc"))

    def test_a_folder_with_an_empty_name(self) -> None:
        """Without a name there is no folder, and nothing is written into another one."""
        ended = self.run_words(self.words("--dir", ""), input=f"{TWO_TUNES}build\n".encode(), cwd=self.folder)
        self.assertEqual(ended.out.decode().splitlines(), [BOTH_WRITTEN, "failed 1.mid", "end"])
        self.assert_files({})
        self.assertFalse(Path("/1.mid").exists())


class Full(ProgramTest):
    def test_no_room_for_a_file(self) -> None:
        """Files have at most a kilobyte here, so a long one cannot be written: the old one stays, nothing else is left, and the run
        continues. The next run, without the limit, writes it."""
        long, short = f"replace 7 7 1\n{'D' * 200}\n", "replace 3 3 1\nD\n"
        stream = f"{TWO_TUNES}build\n{long}build\n{short}build\nbuild\n"
        limited = ["bash", "-c", 'trap "" XFSZ; ulimit -f 1; exec "$@"', "bash", *self.words("--dir", self.folder)]
        failed = ["failed 2.mid", "end"]
        rows = [BOTH_WRITTEN, *WRITTEN_BOTH.splitlines(), "ok written 2 removed", *failed, "ok written 1 removed", "written 1.mid", *failed, *failed]
        self.assertEqual(self.run_words(limited, input=stream.encode()).out.decode().splitlines(), rows)
        self.assert_files({"1.mid": FILE_OF_D, "2.mid": FILE_OF_D})
        rows = self.run_program(f"{TWO_TUNES}{long}build\nhex 2\n").out.decode().splitlines()
        self.assertEqual(rows[-3:-1], ["written 2.mid", "end"])
        self.assert_files({"1.mid": FILE_OF_C, "2.mid": rows[-1]})

    def test_a_file_system(self) -> None:
        """A full one, and then a read-only one, if one can be mounted."""
        mount = ["mount", "-t", "tmpfs", "-o", "size=4k", "tmpfs", str(self.folder)]
        if subprocess.run(mount, capture_output=True).returncode:
            self.skipTest("no file system can be mounted here")
        self.addCleanup(lambda: subprocess.run(["umount", self.folder]))
        ended = self.run_program(f"{TWO_TUNES}build\n")
        self.assertEqual(ended.out.decode().splitlines(), [BOTH_WRITTEN, "written 1.mid", "failed 2.mid", "end"])
        self.assert_files({"1.mid": FILE_OF_C})
        subprocess.run(["mount", "-o", "remount,ro", str(self.folder)], check=True)
        self.nothing_is_written(self.run_program(f"{TWO_TUNES}build\nbuild\n"))
        self.assert_files({"1.mid": FILE_OF_C})

    def nothing_is_written(self, ended: Ended) -> None:
        self.assertEqual(ended.out.decode().splitlines(), [BOTH_WRITTEN, *["failed 1.mid", "end"] * 2])
