"""What a program writes that runs in the walls of `limits`: in an empty folder, for a limited time, in a group of processes that
is killed at the end."""

import os
import select
import shutil
import signal
import subprocess
import sys
import tempfile
import threading
import time
from contextlib import suppress
from functools import lru_cache
from pathlib import Path
from typing import NamedTuple

from .limits import CONVERTING, READING_A_FILE, SYSTEM

BUBBLEWRAP = "bwrap"
OUTER = "bubblewrap"  # the name of the outer wall
READ_FILE = "file"  # the name of what a program reads that takes no standard input
SECONDS_FOR_A_TRIAL = 10


class TooLate(Exception):
    """The program took too long."""


class TooLarge(Exception):
    """The program wrote too much."""


class Killed(Exception):
    """A signal ended the program; the words are what it means."""


class Output(NamedTuple):
    """What a program writes, and the walls that it has: `OUTER`, and those of `limits`."""

    data: bytes
    walls: frozenset[str]


def output_of(command: list[str], text: bytes, environment: dict[str, str], seconds: float, most: int) -> Output:
    """What a program writes for a text. The command is `limits.py`, a use, and the program with its words. For the use `READING_A_FILE`
    the text is in the file `READ_FILE` of its folder. Raises one of the errors above, or OSError if the program cannot be run."""
    limits, use, program, *words = command
    with tempfile.TemporaryDirectory() as folder, tempfile.TemporaryFile() as asked:
        if use == READING_A_FILE:
            Path(folder, READ_FILE).write_bytes(text)
        else:
            asked.write(text)
            asked.seek(0)
        outer = outer_wall(limits, use, program, folder)
        inner = [sys.executable, "-I", "-S", limits, use, os.path.realpath(program) if outer else program, *words]
        process = subprocess.Popen(
            [*outer, *inner], stdin=asked, stdout=subprocess.PIPE, stderr=subprocess.DEVNULL,
            cwd=folder, env=environment, start_new_session=True,
        )  # fmt: skip
        try:
            data = read_output(process, seconds, most)
        finally:
            end(process)
    number = -process.returncode if not outer else process.returncode - 128  # bubblewrap ends as a shell does
    if number in (signal.SIGXCPU, signal.SIGKILL):
        raise TooLate
    if number > 0:
        raise Killed(signal.strsignal(number) or f"signal {number}")
    walls, _, written = data.partition(b"\n")
    return Output(written, frozenset([*walls.decode("ascii", "replace").split(), *([OUTER] if outer else [])]))


def outer_wall(limits: str, use: str, program: str, folder: str) -> list[str]:
    """The words before a command that has bubblewrap show it a machine with the system's programs, Python and one folder, and no other
    process and network; none if that is not possible."""
    wall = outer_program()
    if not wall:
        return []
    python = [os.path.realpath(sys.executable), sys.executable, sys.prefix, sys.base_prefix]
    seen = [path for path in dict.fromkeys([*python, os.path.dirname(os.path.realpath(limits)), os.path.realpath(program)]) if path not in SYSTEM]
    words = [wall, "--unshare-all", "--die-with-parent"]
    for path in SYSTEM:
        words += ["--dev-bind-try" if path.startswith("/dev/") else "--ro-bind-try", path, path]
    for path in seen:
        words += ["--ro-bind", path, path]
    return [*words, "--bind" if use == CONVERTING else "--ro-bind", folder, folder, "--chdir", folder, "--"]


def is_outer_installed() -> bool:
    """Whether bubblewrap is installed, whether or not the system lets it work."""
    return shutil.which(BUBBLEWRAP, path="/usr/bin:/bin") is not None


@lru_cache(maxsize=1)
def outer_program() -> str:
    """The path of bubblewrap; nothing if it is not installed, or the system has no user namespaces for it."""
    found = shutil.which(BUBBLEWRAP, path="/usr/bin:/bin")
    if not found:
        return ""
    trial = [found, "--unshare-all", "--ro-bind", "/", "/", "--", "/bin/true"]
    try:
        is_usable = subprocess.run(trial, capture_output=True, timeout=SECONDS_FOR_A_TRIAL, check=False).returncode == 0
    except (OSError, subprocess.TimeoutExpired):
        is_usable = False
    return found if is_usable else ""


def read_output(process: "subprocess.Popen[bytes]", seconds: float, most: int) -> bytes:
    """What a process writes until it ends, or is killed because it takes too long."""
    assert process.stdout
    until = time.monotonic() + seconds
    looks = select.poll()
    looks.register(process.stdout, select.POLLIN)
    data = bytearray()
    while looks.poll(1000 * max(0.0, until - time.monotonic())):
        part = os.read(process.stdout.fileno(), 1 << 16)
        data += part
        if len(data) > most:
            raise TooLarge
        if not part:
            break
    else:
        raise TooLate
    limit = threading.Timer(max(0.0, until - time.monotonic()), kill, [process])
    limit.start()
    os.waitid(os.P_PID, process.pid, os.WEXITED | os.WNOWAIT)  # its number stays its own till it is let go
    limit.cancel()
    return bytes(data)


def kill(process: "subprocess.Popen[bytes]") -> None:
    """Kills a process, with all that it started."""
    with suppress(ProcessLookupError, PermissionError):
        os.killpg(process.pid, signal.SIGKILL)


def end(process: "subprocess.Popen[bytes]") -> None:
    """Kills a process and all that it started, and lets go of it."""
    kill(process)
    with process:
        pass
