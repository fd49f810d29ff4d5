"""Conversations in the program's commands, held with a session: the answers are written as the program writes them."""

import re
import subprocess
import tempfile
from collections.abc import Iterator
from itertools import islice
from typing import NamedTuple, Optional

from abc2midi_live import EditError, Report, Session

EDIT = re.compile(rb"(insert|delete)( [0-9]{1,9}){2}|replace( [0-9]{1,9}){3}")
QUESTION = re.compile(rb"titles|faults|hex [0-9]{1,9}")


class Command(NamedTuple):
    """A command of the program: its name, its numbers without the count of lines, and its lines."""

    name: str
    numbers: list[int]
    lines: list[bytes]


def commands_of(stream: bytes) -> Optional[list[Command]]:
    """The commands of a stream; None if it has others than edits and questions, or is cut short."""
    rows = iter(stream.split(b"\n") if not stream.endswith(b"\n") else stream[:-1].split(b"\n"))
    found = []
    for row in rows:
        words = row.decode("latin-1").split(" ")
        if EDIT.fullmatch(row):
            numbers = [int(word) for word in words[1:]]
            count = numbers.pop() if words[0] != "delete" else 0
            lines = list(islice(rows, count))
            if len(lines) < count:
                return None
            found.append(Command(words[0], numbers, lines))
        elif QUESTION.fullmatch(row):
            found.append(Command(words[0], [int(word) for word in words[1:]], []))
        else:
            return None
    return found


def stream_of(commands: list[Command]) -> bytes:
    """The stream of commands."""
    rows = []
    for name, numbers, lines in commands:
        count = [len(lines)] if name in ("insert", "replace") else []
        rows += [" ".join([name, *map(str, numbers + count)]).encode(), *lines]
    return b"".join(row + b"\n" for row in rows)


def answers_of(session: Session, commands: list[Command]) -> bytes:
    """What a session answers to commands, as the program writes it."""
    return b"".join(answer + b"\n" for command in commands for answer in answer_of(session, command))


def answer_of(session: Session, command: Command) -> Iterator[bytes]:
    """The rows of the answer to a command."""
    name, numbers, lines = command
    if name == "titles":
        yield from (b"%d %s" % title for title in session.titles)
        yield b"end"
    elif name == "faults":
        yield from (f"{line}:{column} {fault}".encode() for line, column, fault in session.faults)
        yield b"end"
    elif name == "hex":
        output = session.output(numbers[0])
        yield b"none" if output is None else output.hex().upper().encode()
    else:
        yield edit_answer(session, name, numbers, lines)


def edit_answer(session: Session, name: str, numbers: list[int], lines: list[bytes]) -> bytes:
    """The answer to an edit."""
    try:
        if name == "delete":
            return report_row(session.delete(*numbers))
        return report_row(getattr(session, name)(*numbers, lines))
    except EditError as error:
        return f"error {type(error).__name__}".encode()


def report_row(report: Report) -> bytes:
    """A report as the program writes it."""
    return " ".join(["ok written", *map(str, report.written), "removed", *map(str, report.removed)]).encode()


def run(words: list[str], stream: bytes) -> bytes:
    """What a program answers to a stream."""
    with tempfile.TemporaryDirectory() as folder:
        return subprocess.run([*words, "--dir", folder], input=stream, stdout=subprocess.PIPE, check=True).stdout
