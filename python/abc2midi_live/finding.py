"""Where the program and the library are, and which version this is.

The package is in one of three places: in a checkout, below `share` of an installation by `./install`, or where pip puts it."""

import os
import shutil
import subprocess
from pathlib import Path
from typing import Union

from .errors import LibraryMissing, ProgramMissing

PathName = Union[str, "os.PathLike[str]"]
PACKAGE = Path(__file__).resolve().parent
TOP = PACKAGE.parent.parent  # of a checkout; in an installation the folder `share`
INSTALLED = PACKAGE.parent / "version"  # beside this package only an installation has this file
LIBRARY = "libabc2midi_live.so.1"


def is_installed() -> bool:
    """Returns whether `./install` put the package where it is."""
    return PACKAGE.parent.name == "abc2midi_live" and INSTALLED.is_file()


def is_checkout() -> bool:
    """Returns whether the package is in a checkout of the repository."""
    return PACKAGE.parent.name == "python" and (TOP / "scripts/build/digest_of_sources").is_file()


def find_program() -> str:
    """The program of the installation, of the checkout if it is built of the present sources, or else on the path. Raises
    ProgramMissing."""
    if is_installed():
        program = TOP.parent / "bin/abc2midi_live"
        if not os.access(program, os.X_OK):
            raise ProgramMissing(f"{program} is missing; install it again, or name a program")
        return str(program)
    if is_checkout():
        program = TOP / "crates/program/out/program"
        if not os.access(program, os.X_OK) or not is_of_sources(program.with_name("program.digest")):
            raise ProgramMissing("there is no build of these sources; run ./build, or name a program")
        return str(TOP / "scripts/installed/launcher")
    found = shutil.which("abc2midi_live")
    if not found:
        raise ProgramMissing("there is no command abc2midi_live on the path; install it, or name a program")
    return found


def find_library() -> str:
    """The library of the wheel, of the installation, of the checkout if it is built of the present sources, or else the name
    by which the system finds it. Raises LibraryMissing."""
    if (PACKAGE / LIBRARY).is_file():
        return str(PACKAGE / LIBRARY)
    if is_installed():
        library = TOP.parent / "lib" / LIBRARY
        return str(library) if library.is_file() else LIBRARY
    if is_checkout():
        library = TOP / "out/c_library/lib" / LIBRARY
        if not library.is_file() or not is_of_sources(TOP / "out/c_library/digest"):
            raise LibraryMissing("there is no library of these sources; run ./build, or name a library")
        return str(library)
    return LIBRARY


def is_of_sources(digest: Path) -> bool:
    """Returns whether this file has the digest of the present sources of the checkout."""
    try:
        of = digest.read_text().strip()
        asked = subprocess.run([TOP / "scripts/build/digest_of_sources"], capture_output=True, text=True, check=True)
    except (OSError, subprocess.CalledProcessError):
        return False
    return bool(of) and of == asked.stdout.strip()


def version() -> str:
    """The version of the installation, of the checkout, or of what pip installed."""
    if is_installed():
        return INSTALLED.read_text().strip()
    if is_checkout():
        return subprocess.run([TOP / "scripts/build/version"], capture_output=True, text=True, check=True).stdout.strip()
    from importlib import metadata  # a slow import, which no other place needs

    return metadata.version("abc2midi_live")
