"""Says what a run would do, and writes nothing."""

from __future__ import annotations

import hashlib
from collections import Counter
from collections.abc import Sequence
from typing import Optional

from abc2midi_live_clients.common.terminal_text import count_of, printable

from .archive import Folder
from .catalogue import Catalogue, Known
from .planning import Manner, Planner, plan_books
from .pruning import Gone
from .reading import read_file
from .sources import Source, reason
from .storing import has_files
from .units import Unit

CURRENT = "as before"
NEW, AGAIN, OTHERWISE, CHANGED, MISSING = "new", "not completed", "other options or another version", "changed", "a file is missing"


class DryRun:
    """A look at what a run over sources would do."""

    def __init__(self, folder: Folder, catalogue: Catalogue, manner: Manner):
        """The catalogue is a copy."""
        self.folder, self.catalogue, self.manner = folder, catalogue, manner
        self.counts: Counter[str] = Counter()
        self.problems: dict[str, str] = {}  # why books cannot be read, by their names

    def lines(self, sources: Sequence[Source]) -> list[str]:
        """Returns a line for each book that would be compiled."""
        known = {source.identity: self.catalogue.find(source) for source in sources}
        planned = plan_books(sources, self.folder, self.catalogue)
        before = {book.name: known[book.source.identity] for book in planned}
        found = []
        for unit in Planner(self.folder, self.catalogue, self.manner, self.problems.__setitem__).units(planned):
            why = self.why(unit, before[unit.book])
            if why is not None:
                self.counts[why] += 1
                if why != CURRENT:
                    found.append(f"{printable(unit.book)}: to compile: {why}")
        return found

    def why(self, unit: Unit, known: Optional[Known]) -> Optional[str]:
        """Returns why a book would be compiled. None if it cannot be read."""
        try:
            data = read_file(unit.path, unit.follows) if unit.data is None else unit.data
            if not known:
                return NEW
            if not known.digest:
                return AGAIN
            if hashlib.sha256(data).hexdigest() != known.digest:
                return CHANGED
            if known.options != self.manner.options:
                return OTHERWISE
            return CURRENT if has_files(self.folder.inside(unit.book), self.catalogue.sizes_of(known.id)) else MISSING
        except OSError as error:
            self.problems[unit.book] = reason(error)
            return None

    def summary(self, gone: Sequence[Gone]) -> str:
        """Returns the counts in a line."""
        done = [f"{count_of(sum(self.counts.values()) - self.counts[CURRENT], 'book')} to compile"]
        if self.counts[CURRENT]:
            done.append(f"{self.counts[CURRENT]} {CURRENT}")
        if gone:
            done.append(f"{len(gone)} to prune")
        if self.problems:
            done.append(f"{len(self.problems)} with a problem")
        return f"{'; '.join(done)}; nothing is written"
