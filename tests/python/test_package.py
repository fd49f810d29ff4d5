"""The package as pip installs it, its wheel, and its types."""

import json
import os
import re
import shutil
import subprocess
import sys
import tempfile
import unittest
import urllib.request
from pathlib import Path
from typing import Any

import setting
from abc2midi_live import version

DEBIAN = "/usr/bin/python3"  # whose packages setuptools and wheel build the package
NEEDED = subprocess.run([DEBIAN, "-c", "import ensurepip, venv, setuptools, wheel, pip"], capture_output=True).returncode == 0
OFFLINE = {"PIP_NO_INDEX": "1", "PIP_FIND_LINKS": "", "PIP_CONFIG_FILE": os.devnull, "PIP_DISABLE_PIP_VERSION_CHECK": "1"}
MYPY = shutil.which("mypy")
WHEEL = setting.TOP / "scripts/package/wheel"
COMMANDS = [f"abc2midi_live-{name}" for name in ("watch", "page", "language-server", "archive")]
ASK = """
import abc2midi_live
with abc2midi_live.open({book!r}) as session:
    print(type(session).__name__, abc2midi_live.__version__, session.numbers)
"""
CALLER = """
import abc2midi_live

session: abc2midi_live.Session = abc2midi_live.open("book.abc")
report = session.insert(1, ["X:1", b"K:C"])
written: tuple[int, ...] = report.written
wrong: str = session.output(1)
"""


def run(*words: object, **more: Any) -> str:
    """Runs a command, and returns what it prints."""
    done = subprocess.run([str(word) for word in words], stdout=subprocess.PIPE, stderr=subprocess.STDOUT, text=True, **more)
    if done.returncode:
        raise AssertionError(f"{words}: status {done.returncode}\n{done.stdout}")
    return str(done.stdout)


class Types(setting.Room):
    def setUp(self) -> None:
        super().setUp()
        if not MYPY:
            self.skipTest("mypy is not installed")

    def test_types_of_the_package(self) -> None:
        words = ["--strict", "--python-version", "3.9", "--cache-dir", os.devnull]
        run(MYPY, *words, "-p", "abc2midi_live", cwd=setting.PACKAGE)

    def test_types_of_a_caller(self) -> None:
        caller = self.folder / "caller.py"
        caller.write_text(CALLER)
        path = {**os.environ, "MYPYPATH": str(setting.PACKAGE)}
        words = [str(MYPY), "--strict", "--cache-dir", os.devnull, str(caller)]
        done = subprocess.run(words, capture_output=True, text=True, env=path)
        self.assertEqual((done.returncode, done.stdout.count("error:")), (1, 1), done.stdout)
        self.assertIn('caller.py:7: error: Incompatible types in assignment (expression has type "Optional[bytes]"', done.stdout)


class Installed(setting.Room):
    """A new environment of Debian's Python, in which pip has nothing to download from."""

    def setUp(self) -> None:
        if not NEEDED:
            self.skipTest(f"{DEBIAN} has no venv, pip, setuptools or wheel")
        super().setUp()
        self.book = self.folder / "book.abc"
        self.book.write_text("X:1\nK:C\nC\n")
        run(DEBIAN, "-m", "venv", "--without-pip", "--system-site-packages", self.folder / "venv")

    def pip(self, *words: object) -> str:
        return run(self.folder / "venv/bin/python", "-m", "pip", *words, env={**os.environ, **OFFLINE})

    def ask(self) -> list[str]:
        """What the installed package prints, with nothing of the checkout in reach."""
        path = f"{self.folder}:/usr/bin:/bin"
        words = [self.folder / "venv/bin/python", "-c", ASK.format(book=str(self.book))]
        return run(*words, cwd=self.folder, env={"PATH": path}).splitlines()

    def checkout(self) -> Path:
        """A copy of the files of which the package is built."""
        for part in ("python", "page", "crates/program/src"):
            left_out = shutil.ignore_patterns("build", "*.egg-info", "__pycache__")
            shutil.copytree(setting.TOP / part, self.folder / "checkout" / part, symlinks=True, ignore=left_out)
        return self.folder / "checkout"

    def test_the_commands_of_the_page(self) -> None:
        """They install the package for somebody whose `python3` is Debian's."""
        commands = re.search(r"(?:^    .+\n)+", (setting.TOP / "docs/python.md").read_text("utf-8"), re.M)
        assert commands
        environment = {**os.environ, **OFFLINE, "HOME": str(self.folder), "PATH": "/usr/bin:/bin"}
        run("sh", "-e", "-c", commands[0], cwd=self.checkout(), env=environment)
        words = [self.folder / "abc-python/bin/python", "-c", "import abc2midi_live; print(abc2midi_live.__version__)"]
        self.assertEqual(run(*words, cwd=self.folder), f"{version()}\n")

    def test_from_a_checkout(self) -> None:
        self.pip("install", "--no-build-isolation", self.checkout() / "python")
        found = self.pip("show", "-f", "abc2midi_live")
        self.assertIn(f"Version: {version()}\n", found)
        self.assertIn("abc2midi_live/py.typed\n", found)
        self.assertIn("Requires: \n", found)
        if setting.program:
            (self.folder / "abc2midi_live").symlink_to(setting.program)
            self.assertEqual(self.ask(), [f"ProcessSession {version()} [1]"])

    def test_a_wheel_with_the_library(self) -> None:
        if not setting.library:
            self.skipTest("no library was named")
        words = [WHEEL, "--library", setting.library]
        wheels = [Path(run(*words, self.folder / name).strip()) for name in ("one", "other")]
        self.assertRegex(wheels[0].name, rf"^abc2midi_live-{version()}-py3-none-(manylinux_2_\d+|linux)_x86_64\.whl$")
        self.assertEqual(wheels[0].read_bytes(), wheels[1].read_bytes())
        self.pip("install", wheels[0])
        self.assertEqual(self.ask(), [f"LibrarySession {version()} [1]"])

    def test_a_wheel_without_a_library(self) -> None:
        words = [str(word) for word in (WHEEL, "--library", self.folder / "none", self.folder)]
        done = subprocess.run(words, capture_output=True, text=True)
        self.assertEqual((done.returncode, done.stdout), (1, ""))
        self.assertRegex(done.stderr, "^wheel: there is no library .*/none: run ./build")


class Commands(setting.Room):
    """The commands of a wheel, in an environment that has nothing else. Without a library its place has some other file."""

    venv: Path

    @classmethod
    def setUpClass(cls) -> None:
        if not NEEDED:
            raise unittest.SkipTest(f"{DEBIAN} has no venv, pip, setuptools or wheel")
        room = Path(tempfile.mkdtemp())
        cls.addClassCleanup(shutil.rmtree, room)
        cls.venv = room / "venv"
        wheel = run(WHEEL, "--library", setting.library or Path(sys.executable).resolve(), room).strip()
        run(DEBIAN, "-m", "venv", "--without-pip", cls.venv)
        run(DEBIAN, "-m", "pip", f"--python={cls.venv}/bin/python", "install", wheel, env={**os.environ, **OFFLINE})

    def setUp(self) -> None:
        super().setUp()
        self.book = self.folder / "book.abc"
        self.book.write_text("X:1\nK:C\n-C|\n")

    def command(self, name: str, *words: object) -> list[str]:
        return [str(self.venv / "bin" / name), *map(str, words)]

    def tried(self, name: str, *words: object, typed: str = "") -> subprocess.CompletedProcess[str]:
        """What a command prints, with `typed` on standard input."""
        path = {"PATH": f"{self.folder}:/usr/bin:/bin", "HOME": str(self.folder)}
        command = self.command(name, *words)
        return subprocess.run(command, cwd=self.folder, env=path, input=typed, capture_output=True, text=True, timeout=120)

    def needs_library(self) -> None:
        """Skips a test if the wheel has no library."""
        if not setting.library:
            self.skipTest("no library was named")

    def add_program(self) -> None:
        """Puts the program on the path."""
        if not setting.program:
            self.skipTest("no program was named")
        (self.folder / "abc2midi_live").symlink_to(setting.program)

    def test_the_version(self) -> None:
        for name in COMMANDS:
            self.assertEqual(self.tried(name, "--version").stdout, f"{name} {version()}\n")

    def test_without_the_program_the_watcher_says_so_in_one_line(self) -> None:
        done = self.tried("abc2midi_live-watch", "book.abc", "--dir", ".")
        line = "watch: there is no command abc2midi_live on the path; install it, or name a program by --program\n"
        self.assertEqual((done.returncode, done.stdout, done.stderr), (127, "", line))

    def test_without_a_library_the_others_say_so_in_one_line(self) -> None:
        words: dict[str, list[str]] = {"page": ["book.abc"], "language-server": []}
        for name, books in words.items():
            done = self.tried(f"abc2midi_live-{name}", "--library", "missing", *books)
            self.assertEqual((done.returncode, done.stdout), (127, ""))
            self.assertRegex(done.stderr, rf"\A{name.replace('-', '_')}: missing: cannot open [^\n]*\n\Z")

    def test_the_watcher_has_the_sentences_of_the_faults(self) -> None:
        self.add_program()
        done = self.tried("abc2midi_live-watch", "book.abc", "--dir", "midi", "--once")
        sentences = {row["name"]: row["wrong"] for row in json.loads((setting.TOP / "python/abc2midi_live_clients/common/faults.json").read_text("utf-8"))}
        self.assertIn(sentences["LooseTie"].rstrip("."), done.stdout)
        self.assertEqual((self.folder / "midi/1.mid").read_bytes()[:4], b"MThd")

    def test_the_page_has_its_files(self) -> None:
        self.needs_library()
        path = {"PATH": f"{self.folder}:/usr/bin:/bin", "HOME": str(self.folder)}
        page = subprocess.Popen(self.command("abc2midi_live-page", self.book), env=path, stdout=subprocess.PIPE, text=True)
        self.addCleanup(page.communicate)
        self.addCleanup(page.terminate)
        assert page.stdout
        address = page.stdout.readline().strip()
        for name, has in (("", b"<html"), ("shell/application.js", b"import")):
            with urllib.request.urlopen(address + name, timeout=120) as answer:
                self.assertIn(has, answer.read())

    def test_the_language_server_answers(self) -> None:
        self.needs_library()
        initialize: dict[str, Any] = {"id": 1, "method": "initialize", "params": {"capabilities": {}}}
        texts = [json.dumps({"jsonrpc": "2.0", **message}) for message in (initialize, {"id": 2, "method": "shutdown"}, {"method": "exit"})]
        typed = "".join(f"Content-Length: {len(text)}\r\n\r\n{text}" for text in texts)
        done = self.tried("abc2midi_live-language-server", typed=typed)
        self.assertEqual((done.returncode, done.stderr), (0, ""))
        self.assertIn('"capabilities"', done.stdout)

    def test_the_archive_compiles_by_the_library_of_the_wheel(self) -> None:
        self.needs_library()
        done = self.tried("abc2midi_live-archive", "book.abc", "--to", "archive", "--jobs", "1")
        self.assertEqual((done.returncode, done.stderr), (0, ""))
        self.assertEqual([path.read_bytes()[:4] for path in (self.folder / "archive").rglob("*.mid")], [b"MThd"])
