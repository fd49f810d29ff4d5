"""Finds the files, commands and flags that the pages quote."""

from __future__ import annotations

import re
import subprocess
import sys
from functools import lru_cache
from typing import Optional

from .markdown import TOP, code, pages
from .outcome import Outcome, Outcomes

CLIENTS = {"watch": "watch", "page": "page", "language-server": "language_server", "archive": "archive"}  # by their installed names
PAGES = {"watch": "docs/watch.md", "page": "docs/page.md", "language_server": "docs/editors.md", "archive": "docs/archive.md"}
FOLDERS = "clients|scripts|tests|docs|crates|examples|manual|python"
FILE = re.compile(rf"(?<![\w./:~-])(?:\./)?((?:{FOLDERS})/[\w./-]*\w)(?![\w*{{])")
COMMAND = re.compile(rf"(?:^|[\s|(])(\./\w+(?![\w.-])|abc2midi_live(?:-[a-z-]+)?|(?:{FOLDERS})/[\w/]+)((?:\s+[^\s|<>()`]+)*)")
FLAG = re.compile(r"(?<![\w-])(--[a-z][a-z-]+)")


@lru_cache(maxsize=None)
def words_of(name: str) -> Optional[str]:
    """The help of a command, or its source, which has its flags; None if there is no such command."""
    name = name.removeprefix("./")
    if name == "abc2midi_live":
        return (TOP / "tests/transcripts/arguments/help.stderr").read_text("utf-8")
    if name == "abc2midi_live-uninstall":
        return (TOP / "scripts/installed/uninstall").read_text("utf-8")
    client = CLIENTS.get(name.removeprefix("abc2midi_live-"), name.removeprefix("clients/"))
    if client != name and client in CLIENTS.values():
        words = [sys.executable, "-B", str(TOP / "clients" / client), "--help"]
        return subprocess.run(words, capture_output=True, text=True, check=True).stdout
    if name == "build":
        name = "scripts/build/build_program"
    path = TOP / name
    return path.read_text("utf-8", "replace") if path.is_file() else None


def unknown_flag(line: str) -> Optional[str]:
    """What is wrong with a command of a line and its flags, or None."""
    for name, rest in COMMAND.findall(line):
        is_path = "/" in name.removeprefix("./")
        if is_path and not (TOP / name).is_file() or (TOP / name).is_dir():
            continue  # `missing_file` looks at it
        words = words_of(name)
        if words is None:
            return f"there is no command {name}"
        for flag in FLAG.findall(rest):
            if not re.search(rf"(?<![\w-]){flag}(?![\w-])", words):
                return f"{name} has no {flag}"
    return None


def missing_file(line: str) -> Optional[str]:
    """What is wrong with the files that a line names, or None."""
    for name in FILE.findall(line):
        if "/out/" not in f"{name}/" and not re.search(r"NAME|MODULE|FUNCTION|VERSION", name) and not (TOP / name).exists():
            return f"there is no {name}"
    return None


def is_flag_of_ours(flag: str) -> bool:
    """Whether some command of the repository has a flag."""
    scripts = [path.relative_to(TOP) for folder in ("scripts/*", "tests", "tests/*") for path in TOP.glob(f"{folder}/*") if path.is_file()]
    names = ["./build", "./check", "./install", "./bench", "abc2midi_live", *(f"clients/{name}" for name in CLIENTS.values())]
    found = [words_of(str(name)) or "" for name in [*names, *scripts]]
    return any(re.search(rf"(?<![\w-]){flag}(?![\w-])", words) for words in found)


def client_flags() -> Outcomes:
    """Each flag of a client, which the client's page has to describe."""
    for name, page in PAGES.items():
        text = (TOP / page).read_text("utf-8")
        for flag in dict.fromkeys(FLAG.findall(words_of(f"clients/{name}") or "")):
            is_there = flag == "--help" or f"`{flag}" in text
            yield Outcome(f"{page}: {flag}", None if is_there else f"it does not describe {flag} of clients/{name}")


def code_lines() -> Outcomes:
    """Each line of code that names a file, a command or a flag of ours."""
    for page in pages():
        for line in dict.fromkeys(code(page)):
            where = f"{page.relative_to(TOP)}: {line.strip()[:100]}"
            if FILE.search(line) or COMMAND.search(line):
                yield Outcome(where, missing_file(line) or unknown_flag(line))
            elif re.fullmatch(r"--[a-z][a-z-]+(?: [A-Z]+| \w+)?", line):
                flag = line.split()[0]
                yield Outcome(where, None if is_flag_of_ours(flag) else f"no command has {flag}")
