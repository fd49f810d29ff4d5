"""How the clients replace files, and that no other module does it."""

import os
import stat
from pathlib import Path
from unittest import mock

import trial
from abc2midi_live_clients.common.replaced_file import exchange, give_free_name, name_beside, new_file, replacing
from test_regular_file import calls


class ReplacedFile(trial.Folder):
    def setUp(self) -> None:
        super().setUp()
        self.path = self.files / "table"
        self.path.write_bytes(b"old")

    def names(self) -> list[str]:
        return sorted(os.listdir(self.files))

    def test_a_reader_sees_the_old_file_or_the_new_one(self) -> None:
        with replacing(str(self.path)) as file:
            file.write(b"new")
            file.flush()
            self.assertEqual((self.path.read_bytes(), len(self.names())), (b"old", 2))
        self.assertEqual((self.path.read_bytes(), self.names()), (b"new", ["table"]))

    def test_nothing_is_left_of_a_file_that_is_not_complete(self) -> None:
        """Whatever is raised, and at which step."""
        for error in (OSError(28, "No space left on device"), KeyboardInterrupt(), MemoryError()):
            for step in ("os.fdopen", "os.replace", ""):
                with self.subTest(step, error=error), self.assertRaises(type(error)):
                    with mock.patch(step or "os.fsync", side_effect=error), replacing(str(self.path)) as file:
                        file.write(b"new")
                        if not step:
                            raise error
                self.assertEqual((self.path.read_bytes(), self.names()), (b"old", ["table"]))

    def test_the_rights_are_those_of_the_mask_or_fewer(self) -> None:
        mask = os.umask(0o027)
        self.addCleanup(os.umask, mask)
        for rights, wanted in ((0o666, 0o640), (0o600, 0o600)):
            with replacing(str(self.path), rights=rights):
                pass
            self.assertEqual(stat.S_IMODE(self.path.stat().st_mode), wanted)

    def test_no_link_is_followed(self) -> None:
        other = self.files / "other"
        other.write_bytes(b"of somebody else")
        (self.files / "new").symlink_to(other)
        with self.assertRaises(FileExistsError), replacing(str(self.path), str(self.files / "new")):
            pass
        self.path.unlink()
        self.path.symlink_to(other)
        with replacing(str(self.path)) as file:
            file.write(b"new")
        self.assertEqual((self.path.is_symlink(), self.path.read_bytes(), other.read_bytes()), (False, b"new", b"of somebody else"))
        self.assertEqual(self.names(), ["new", "other", "table"])

    def test_in_an_open_folder(self) -> None:
        folder = os.open(self.files, os.O_RDONLY)
        self.addCleanup(os.close, folder)
        with replacing("table", ".table.new", folder=folder) as file:
            file.write(b"new")
            self.assertEqual(self.names(), [".table.new", "table"])
        self.assertEqual((self.path.read_bytes(), self.names()), (b"new", ["table"]))

    def test_a_file_that_syncs_is_on_the_disk_at_its_end(self) -> None:
        """All of it, and before it takes the name."""
        synced = []
        with mock.patch("os.fsync", lambda file: synced.append(os.fstat(file).st_size)):
            for syncs in (False, True):
                with new_file(str(self.files / f"new_{syncs}"), syncs=syncs) as file:
                    file.write(b"12345")
        self.assertEqual(synced, [5])

    def test_a_free_name_and_an_exchange(self) -> None:
        other = self.files / "other"
        other.write_bytes(b"other")
        with self.assertRaises(FileExistsError):
            give_free_name(str(other), str(self.path))
        with mock.patch("os.link", side_effect=PermissionError(1, "no links here")):
            self.assertFalse(give_free_name(str(other), str(self.files / "free")))
        if exchange(str(other), str(self.path)):
            self.assertEqual((other.read_bytes(), self.path.read_bytes()), (b"old", b"other"))
        with self.assertRaises(FileNotFoundError):
            exchange(str(other), str(self.files / "gone"))

    def test_a_name_beside_a_long_one(self) -> None:
        name = Path(name_beside(str(self.files / ("n" * 255))))
        self.assertEqual((name.parent, len(name.name) < 64), (self.files, True))
        self.assertNotEqual(name_beside("a"), name_beside("a"))
        self.assertEqual(os.path.dirname(name_beside("a")), "")

    def test_no_other_module_replaces_files(self) -> None:
        for name in ("os.replace", "os.rename", "os.link", "os.fsync", "tempfile.mkstemp", "tempfile.NamedTemporaryFile", "os.O_EXCL"):
            self.assertEqual(set(calls(name)) - {"common/replaced_file.py"}, set(), name)
