"""The crates that crates.txt lists: what each uses, and how many functions it has."""

from __future__ import annotations

import re
from dataclasses import dataclass
from pathlib import Path

FUNCTION = re.compile(r"^\s*(?:pub(?:\(\w+\))? )?(?:const )?fn \w", re.M)


@dataclass(frozen=True)
class Crate:
    """A crate: its line of crates.txt, the crates of the repository that it uses, and the number of its functions."""

    name: str
    row: str
    uses: list[str]
    functions: int


def read_crates(top: Path) -> dict[str, Crate]:
    """The crates that crates.txt lists, lowest first."""
    rows = [row for row in (top / "crates.txt").read_text(encoding="utf-8").splitlines() if row.partition("#")[0].strip()]
    heads = {row: row.partition("#")[0].partition(":") for row in rows}
    names = {row: head.split()[0] for row, (head, _, _) in heads.items()}
    uses = {row: [use for use in of.split() if use in names.values()] for row, (_, _, of) in heads.items()}
    return {name: Crate(name, row, uses[row], functions_in(top / "crates" / name / "src")) for row, name in names.items()}


def functions_in(folder: Path) -> int:
    """The number of functions in the sources of a folder."""
    return sum(len(FUNCTION.findall(path.read_text(encoding="utf-8"))) for path in folder.rglob("*.rt"))


def needed_by(crates: dict[str, Crate], *tops: str) -> dict[str, Crate]:
    """The crates of these names and all below them, lowest first."""
    names = set(tops)
    for crate in reversed(list(crates.values())):
        if crate.name in names:
            names.update(crate.uses)
    return {name: crate for name, crate in crates.items() if name in names}


def users_of(crates: dict[str, Crate], bottom: str) -> dict[str, Crate]:
    """The crate of this name and all above it that use it, lowest first: what is proved again after a change of it."""
    names = {bottom}
    for crate in crates.values():
        if not names.isdisjoint(crate.uses):
            names.add(crate.name)
    return {name: crate for name, crate in crates.items() if name in names}
