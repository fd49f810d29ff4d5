"""The server of the page as a fork of the tests' process, which has its modules: so a test in a browser does not wait till a Python
imports them. All of them have one folder of cached files, whatever the keys of their books, so a browser reads these files once. The
command itself is tried by `test_page`, and the folder by `test_served_files`."""

import multiprocessing
import os
import signal
import subprocess
import sys
import tempfile
from typing import Optional
from unittest import mock

from abc2midi_live_clients.page import command, served_files

KEY = "00" * 32


def serve(words: list[str], environment: dict[str, str], output: int, errors: int) -> None:
    """Runs the server as the command would, with these words and streams."""
    os.dup2(output, 1)
    os.dup2(errors, 2)
    os.environ.update(environment)
    tempfile.tempdir = None  # that of the environment
    sys.argv[1:] = words
    folder = served_files.cached_folder
    with mock.patch.object(served_files, "cached_folder", lambda _, files: folder(KEY, files)):
        sys.exit(command.main())


class ForkedServer:
    """The process, with what the tests use of `subprocess.Popen`."""

    def __init__(self, words: list[str], environment: dict[str, str]) -> None:
        outputs, errors = os.pipe(), os.pipe()
        self.process = multiprocessing.get_context("fork").Process(target=serve, args=(words, environment, outputs[1], errors[1]))
        self.process.start()
        self.pid = self.process.pid or 0
        os.close(outputs[1])
        os.close(errors[1])
        self.stdout, self.stderr = os.fdopen(outputs[0], "rb"), os.fdopen(errors[0], "rb")

    @property
    def returncode(self) -> Optional[int]:
        """The exit status, or None if the process has not ended."""
        return self.process.exitcode

    def send_signal(self, number: int) -> None:
        if self.returncode is None:
            os.kill(self.pid, number)

    def kill(self) -> None:
        self.send_signal(signal.SIGKILL)

    def terminate(self) -> None:
        self.send_signal(signal.SIGTERM)

    def wait(self, timeout: Optional[float] = None) -> Optional[int]:
        """The exit status. Raises TimeoutExpired."""
        self.process.join(timeout)
        if self.returncode is None:
            raise subprocess.TimeoutExpired("page", timeout or 0)
        return self.returncode

    def communicate(self, timeout: Optional[float] = None) -> tuple[bytes, bytes]:
        """What the process printed, after its end. Raises TimeoutExpired."""
        self.wait(timeout)
        found = [b"" if stream.closed else stream.read() for stream in (self.stdout, self.stderr)]
        self.stdout.close()
        self.stderr.close()
        return found[0], found[1]
