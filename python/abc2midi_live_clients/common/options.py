"""The options that all clients have, and what they name: the program and the library."""

import argparse
from typing import Any, Optional

import abc2midi_live
from abc2midi_live import LibraryMissing, ProgramMissing, Session
from abc2midi_live.opening import library_session


def find_program() -> str:
    """The program to start without the option `--program`. Raises ProgramMissing."""
    try:
        return abc2midi_live.find_program()
    except ProgramMissing as missing:
        raise ProgramMissing(f"{missing} by --program") from missing


def open_library(library: Optional[str]) -> Session:
    """A session over a library, or over the installed or built one. Raises LibraryMissing."""
    try:
        return library_session(library)
    except LibraryMissing as missing:
        raise LibraryMissing(str(missing) if library else f"{missing} by --library") from missing


class ShowVersion(argparse.Action):
    """The option `--version`."""

    def __call__(self, parser: argparse.ArgumentParser, *_: Any) -> None:
        print(f"{parser.prog} {abc2midi_live.version()}")
        parser.exit()


def add_common_options(parser: argparse.ArgumentParser) -> None:
    """Adds the options of the clients over the program."""
    parser.add_argument("--program", metavar="FILE", help="start this program instead of the installed or built one")
    add_version_option(parser)


def add_version_option(parser: argparse.ArgumentParser) -> None:
    """Adds the option `--version`."""
    parser.add_argument("--version", action=ShowVersion, nargs=0, help="print the version and end")
