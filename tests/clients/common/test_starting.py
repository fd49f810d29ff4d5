"""What the clients import when they start, which takes most of the time until their first answer."""

import json
import signal
import subprocess
import sys

import trial

COMMANDS = ["watch", "page", "language_server", "archive"]
OURS = ("abc2midi_live", "abc2midi_live_clients", "abc2midi_live_archive")
SLOW = {"asyncio", "concurrent", "email", "html", "http", "importlib.metadata", "multiprocessing", "ssl", "unittest", "zipfile"}
MOST_FOR_VERSION, MOST_FOR_ANSWER = 70, 151  # modules

# Runs a command, and sends it Ctrl-C when it imports a module, when it reads its arguments, or when Python ends after it.
INTERRUPTED = """
import argparse, atexit, os, runpy, signal, sys
_, place, *sys.argv = sys.argv
class Interrupt:
    def find_spec(self, name, *_):
        if name == place:
            os.kill(os.getpid(), signal.SIGINT)
sys.meta_path.insert(0, Interrupt())
if place == "arguments":
    argparse.ArgumentParser.parse_args = lambda _: os.kill(os.getpid(), signal.SIGINT)
if place == "end":
    atexit.register(lambda: os.kill(os.getpid(), signal.SIGINT))
runpy.run_path(sys.argv[0], run_name="__main__")
"""

# Runs a command, and prints on standard error the modules that it imported.
RUN = """
import atexit, runpy, sys
before = set(sys.modules)
atexit.register(lambda: print(*sorted(set(sys.modules) - before), file=sys.stderr))
sys.argv = sys.argv[1:]
runpy.run_path(sys.argv[0], run_name="__main__")
"""


def message(**parts: object) -> bytes:
    """A message to the language server."""
    body = json.dumps({"jsonrpc": "2.0", **parts}).encode()
    return b"Content-Length: %d\r\n\r\n%s" % (len(body), body)


class Starts(trial.Folder):
    """A start of a command that reports what it imported."""

    def imported(self, name: str, *words: str, data: bytes = b"") -> tuple[set[str], bytes]:
        """The modules that a command imports, and what it prints. `-S`: no module of another package is imported before."""
        command = [sys.executable, "-S", "-c", RUN, str(trial.CLIENTS / name), *words]
        ran = subprocess.run(command, input=data, capture_output=True, timeout=trial.SECONDS)
        self.assertEqual(ran.returncode, 0, ran.stderr)
        return set(ran.stderr.decode().split()), ran.stdout

    def assert_quick(self, modules: set[str], most: int) -> None:
        """No slow module is among these, and they are few."""
        self.assertEqual({name for name in modules for slow in SLOW if name == slow or name.startswith(f"{slow}.")}, set())
        self.assertLessEqual(len(modules), most, sorted(modules))


class Imports(Starts):
    """The version needs hardly a module."""

    def test_the_version(self) -> None:
        for name in COMMANDS:
            with self.subTest(name):
                modules, printed = self.imported(name, "--version")
                self.assertRegex(printed, rb"^%s \d+\.\d+\.\d+\n$" % name.encode())
                ours = {module for module in modules if module.startswith(OURS) and not module.startswith("abc2midi_live.")}
                self.assertEqual(ours, {"abc2midi_live", "abc2midi_live_clients", "abc2midi_live_clients.starting"})
                self.assert_quick(modules, MOST_FOR_VERSION)

    def test_ctrl_c(self) -> None:
        """It ends the command, which prints nothing."""
        for name, module in zip(COMMANDS, ("watch.command", "page.command", "language_server", "common.faults")):
            for place in ("abc2midi_live", f"abc2midi_live_clients.{module}", "arguments"):
                with self.subTest(name, place=place):
                    words = [sys.executable, "-c", INTERRUPTED, place, str(trial.CLIENTS / name)]
                    ran = subprocess.run(words, capture_output=True, timeout=trial.SECONDS)
                    self.assertEqual((ran.returncode, ran.stdout, ran.stderr), (-signal.SIGINT, b"", b""))

    def test_ctrl_c_after_the_end(self) -> None:
        """It prints no more than the command did."""
        for name in COMMANDS:
            words = [sys.executable, "-c", INTERRUPTED, "end", str(trial.CLIENTS / name), "--none"]
            ran = subprocess.run(words, capture_output=True, text=True, timeout=trial.SECONDS)
            self.assertEqual((ran.returncode, ran.stdout, "Traceback" in ran.stderr), (-signal.SIGINT, "", False), ran.stderr)
            self.assertIn("usage: ", ran.stderr)

    def test_the_version_beside_another_option(self) -> None:
        printed = self.imported("watch", "--no-hints", "--version")[1]
        self.assertEqual(printed, self.imported("watch", "--version")[1])


class Answers(Starts):
    """The first answer needs no module that is slow to import."""

    def test_the_first_answer_of_the_language_server(self) -> None:
        asked = message(id=1, method="initialize", params={"capabilities": {}})
        end = message(id=2, method="shutdown") + message(method="exit")
        modules, printed = self.imported("language_server", "--library", trial.library, data=asked + end)
        self.assertIn(b'"capabilities"', printed)
        self.assert_quick(modules, MOST_FOR_ANSWER)
