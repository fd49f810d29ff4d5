"""Where the program, the library and the version are found."""

import os
import subprocess
import sys
from pathlib import Path
from unittest import mock

import abc2midi_live
import setting
from abc2midi_live import LibraryMissing, ProgramMissing, finding


class Found(setting.Room):
    def patch(self, name: str, value: object) -> None:
        patched = mock.patch.object(finding, name, value)
        patched.start()
        self.addCleanup(patched.stop)

    def write(self, name: str, text: str = "") -> Path:
        path = self.folder / name
        path.parent.mkdir(parents=True, exist_ok=True)
        path.write_text(text)
        path.chmod(0o755)
        return path

    def place(self, package: str) -> None:
        """Lets the package be in a folder."""
        (self.folder / package).mkdir(parents=True)
        self.patch("PACKAGE", self.folder / package)
        self.patch("TOP", (self.folder / package).parent.parent)
        self.patch("INSTALLED", (self.folder / package).parent / "version")

    def test_in_a_checkout(self) -> None:
        self.place("python/abc2midi_live")
        digest = self.write("scripts/build/digest_of_sources", "#!/bin/sh\necho now\n")
        self.write("scripts/build/version", "#!/bin/sh\necho 1.2.3\n")
        launcher = self.folder / "scripts/installed/launcher"
        self.write("crates/program/out/program")
        of = self.write("crates/program/out/program.digest", "now\n")
        self.assertEqual((finding.find_program(), finding.version()), (str(launcher), "1.2.3"))
        of.write_text("before\n")
        with self.assertRaisesRegex(ProgramMissing, "./build"):
            finding.find_program()
        library = self.write("out/c_library/lib/libabc2midi_live.so.1")
        of_library = self.write("out/c_library/digest", "before\n")
        library.chmod(0o644)  # as scripts/package/c_library leaves it
        with self.assertRaisesRegex(LibraryMissing, "run ./build"):
            finding.find_library()
        of_library.write_text("now\n")
        self.assertEqual(finding.find_library(), str(library))
        of.write_text("now\n")
        digest.write_text("#!/bin/sh\nexit 1\n")
        with self.assertRaises(ProgramMissing):
            finding.find_program()

    def test_a_digest_without_what_was_built(self) -> None:
        """The digest of the present sources alone is no build."""
        self.place("python/abc2midi_live")
        self.write("scripts/build/digest_of_sources", "#!/bin/sh\necho now\n")
        self.write("crates/program/out/program.digest", "now\n")
        self.write("out/c_library/digest", "now\n")
        with self.assertRaisesRegex(ProgramMissing, "run ./build"):
            finding.find_program()
        with self.assertRaisesRegex(LibraryMissing, "run ./build"):
            finding.find_library()
        self.write("crates/program/out/program").chmod(0o644)
        with self.assertRaisesRegex(ProgramMissing, "run ./build"):
            finding.find_program()

    def test_in_an_installation(self) -> None:
        self.place("prefix/share/abc2midi_live/abc2midi_live")
        self.write("prefix/share/abc2midi_live/version", "1.2.3\n")
        with self.assertRaisesRegex(ProgramMissing, "install it again"):
            finding.find_program()
        program = self.write("prefix/bin/abc2midi_live")
        self.assertEqual((finding.find_program(), finding.version()), (str(program), "1.2.3"))
        self.assertEqual(finding.find_library(), finding.LIBRARY)
        library = self.write(f"prefix/lib/{finding.LIBRARY}")
        self.assertEqual(finding.find_library(), str(library))

    def test_where_pip_puts_the_package(self) -> None:
        self.place("site-packages/abc2midi_live")
        self.patch_path(str(self.folder))
        with self.assertRaisesRegex(ProgramMissing, "on the path"):
            finding.find_program()
        program = self.write("abc2midi_live")
        self.assertEqual((finding.find_program(), finding.find_library()), (str(program), finding.LIBRARY))
        library = self.write(f"site-packages/abc2midi_live/{finding.LIBRARY}")
        self.assertEqual(finding.find_library(), str(library))

    def patch_path(self, path: str) -> None:
        patched = mock.patch.dict(os.environ, {"PATH": path})
        patched.start()
        self.addCleanup(patched.stop)

    def test_the_library_first_and_the_process_if_there_is_none(self) -> None:
        library, process = "abc2midi_live.library.LibrarySession", "abc2midi_live.opening.ProcessSession"
        with mock.patch(library, side_effect=LibraryMissing("no library")):
            with mock.patch(process) as begun:
                self.assertIs(abc2midi_live.open(), begun.return_value)
            with mock.patch(process, side_effect=ProgramMissing("no program")):
                with self.assertRaisesRegex(ProgramMissing, "no library; no program"):
                    abc2midi_live.open()
        with mock.patch(library) as loaded, mock.patch(process) as begun:
            self.assertIs(abc2midi_live.open(), loaded.return_value)
            begun.assert_not_called()
            self.assertIs(abc2midi_live.open(program="x"), begun.return_value)
            begun.assert_called_once_with("x")

    def test_a_session_that_cannot_take_its_book_is_closed(self) -> None:
        with mock.patch("abc2midi_live.opening.ProcessSession") as begun:
            begun.return_value.insert.side_effect = KeyboardInterrupt
            with self.assertRaises(KeyboardInterrupt):
                abc2midi_live.open(program="x")
            begun.return_value.close.assert_called_once_with()

    def test_a_python_without_ctypes(self) -> None:
        with mock.patch.dict(sys.modules, {"abc2midi_live.library": None}):
            with mock.patch("abc2midi_live.opening.ProcessSession") as begun:
                self.assertIs(abc2midi_live.open(), begun.return_value)
            with self.assertRaisesRegex(LibraryMissing, "cannot load"):
                abc2midi_live.open(library="x")

    def test_version(self) -> None:
        wanted = subprocess.run([setting.TOP / "scripts/build/version"], capture_output=True, text=True, check=True).stdout.strip()
        self.assertEqual((abc2midi_live.version(), abc2midi_live.__version__), (wanted, wanted))
        with self.assertRaises(AttributeError):
            abc2midi_live.none  # type: ignore[attr-defined]
