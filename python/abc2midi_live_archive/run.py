"""A run over an archive: has the units done, keeps what they find, and counts it."""

from __future__ import annotations

import signal
import sys
import time
from collections import Counter
from collections.abc import Sequence
from contextlib import suppress
from dataclasses import dataclass, field

from abc2midi_live_clients.common.terminal_text import count_of, printable

from abc2midi_live_archive.progress import Progress
from abc2midi_live_clients.common.clock import clock
from .archive import Archive
from .catalogue import Catalogue
from .planning import Manner, Planned, Planner
from .pruning import Gone, prune
from .sources import reason
from .storing import remove_halves, store_files
from .units import FILE, SHA256, Effect, Outcome, Result, number_of_file
from .workers import Workers

STATES = """SELECT books.name, state, count(*) FROM tunes JOIN books ON books.id = book WHERE state IS NOT NULL GROUP BY 1, 2"""


HIDDEN = "{} without a file, since {} (--number-by place gives each tune one)"


@dataclass
class Counts:
    """What a run did."""

    compiled: int = 0
    current: int = 0
    problems: int = 0
    unreadable: int = 0  # of those with a problem
    tunes: int = 0
    files: int = 0
    faults: int = 0
    hints: int = 0
    cut: int = 0
    hidden: int = 0
    left_out: int = 0
    pruned: int = 0
    states: Counter[str] = field(default_factory=Counter)  # of the tunes of all books, if losses are looked for
    started: float = field(default_factory=time.monotonic)

    def summary(self, total: int) -> str:
        """Returns the counts in a line."""
        seconds = time.monotonic() - self.started
        done = [f"{count_of(self.compiled, 'book')} compiled, with {count_of(self.tunes, 'tune')}, {count_of(self.files, 'file')}"]
        done[0] += f", {count_of(self.faults, 'fault')}" + (f", {count_of(self.hints, 'hint')}" if self.hints else "")
        if self.hidden:
            done.append(HIDDEN.format(count_of(self.hidden, "tune"), "an earlier one has its number" if self.hidden == 1 else "earlier ones have their numbers"))
        if self.states:
            done.append(states_text(self.states))
        if self.cut:
            done.append(f"{count_of(self.cut, 'book')} cut into parts")
        if self.current:
            done.append(f"{self.current} as before")
        if self.problems:
            done.append(f"{self.problems} with a problem")
        if self.left_out:
            done.append(f"{self.left_out} left out")
        if self.pruned:
            done.append(f"{self.pruned} pruned")
        left = total - self.compiled - self.current - self.problems
        if left > 0:
            done.append(f"{left} not done")
        return f"{'; '.join(done)}; {clock(seconds)}"


def states_text(states: Counter[str]) -> str:
    """Returns how many tunes sound as they are written, and how many do not."""
    names = {Effect.COMPLETE: "complete", Effect.SILENT: "with something silent", Effect.OTHER: "other than written"}
    return "of all tunes " + ", ".join(f"{states[effect.value]} {name}" for effect, name in names.items())


def now() -> str:
    """Returns the time, in UTC, as the catalogue has it."""
    return time.strftime("%Y-%m-%dT%H:%M:%SZ", time.gmtime())


def ignore_signals() -> None:
    """Has this process end in order, whatever signals still come."""
    for number in (signal.SIGINT, signal.SIGTERM, signal.SIGHUP):
        signal.signal(number, signal.SIG_IGN)


class Run:
    """A run over planned books."""

    def __init__(self, archive: Archive, catalogue: Catalogue, manner: Manner, prints_changes: bool, progress: Progress):
        self.archive, self.catalogue, self.manner = archive, catalogue, manner
        self.prints_changes, self.progress = prints_changes, progress
        self.counts = Counts()
        self.planned: dict[str, Planned] = {}

    def do(self, planned: Sequence[Planned], workers: Workers) -> None:
        """Does all books. If it is interrupted, no file is left half."""
        self.planned = {book.name: book for book in planned}
        planner = Planner(self.archive, self.catalogue, self.manner, self.note_unreadable)
        try:
            for unit, result in workers.do(planner.units(planned)):
                self.keep(unit.book, result)
        except BaseException:
            ignore_signals()  # a second Ctrl-C would leave workers
            workers.stop()
            for book in workers.under_way:
                with suppress(OSError):
                    remove_halves(self.archive.inside(book))
            raise

    def keep(self, name: str, result: Result) -> None:
        """Keeps what came of a book."""
        known = self.catalogue.find(self.planned[name].source)
        assert known, "each book is in the catalogue"
        if result.outcome is Outcome.COMPILED and result.files is not None:
            result = self.store(name, result)
        if result.outcome is Outcome.CURRENT:
            self.counts.current += 1
        elif result.outcome is Outcome.COMPILED:
            if self.prints_changes:
                self.print_changes(name, known.id, known.faults, result)
            self.catalogue.keep(known.id, result, self.manner.options)
            self.count(result)
        else:
            self.catalogue.keep_problem(known.id, f"{result.outcome.value}: {result.why}")
            self.note_problem(name, result.outcome, result.why)
        self.progress.step(len(result.tunes))

    def store(self, name: str, result: Result) -> Result:
        """Stores the files that a worker returned."""
        try:
            store_files(self.archive.inside(name), result.files or {})
        except OSError as error:
            return Result(Outcome.UNWRITABLE, reason(error))
        return result._replace(files=None)

    def count(self, result: Result) -> None:
        """Counts a compiled book."""
        self.counts.compiled += 1
        self.counts.tunes += len(result.tunes)
        self.counts.files += result.file_count
        self.counts.faults += result.fault_count
        self.counts.hints += result.hint_count
        self.counts.cut += result.parts > 1
        self.counts.hidden += result.hidden

    def count_states(self) -> None:
        """Counts the tunes of all books of the run by how they sound."""
        for name, state, count in self.catalogue.ask(STATES):
            if name in self.planned:
                self.counts.states[state] += count

    def prune(self, gone: Sequence[Gone]) -> None:
        """Removes books that are gone."""
        for book in gone:
            try:
                prune(self.archive, self.catalogue, book)
            except OSError as error:
                self.counts.problems += 1
                self.progress.message(f"{printable(book.name)}: cannot be pruned: {printable(reason(error))}", sys.stderr)
                continue
            self.counts.pruned += 1
            self.progress.message(f"{printable(book.name)}: pruned, with {count_of(book.files, 'file')}", sys.stdout)

    def print_changes(self, name: str, book: int, faults: int, result: Result) -> None:
        """Prints which files of a book differ from those of the last run, and how many faults it had and has."""
        before = self.catalogue.files_of(book)
        after = {number_of_file(tune[FILE]): tune[SHA256] for tune in result.tunes if tune[FILE]}
        written = [number for number, sha256 in sorted(after.items()) if before.get(number) != sha256]
        removed = sorted(before.keys() - after.keys())
        if written or removed or faults != result.fault_count:
            numbers = " ".join(map(str, ["written", *written, "removed", *removed]))
            self.progress.message(f"{name}: {numbers}; faults {result.fault_count}, before {faults}", sys.stdout)

    def note_unreadable(self, name: str, why: str) -> None:
        """Notes a book that cannot be read."""
        self.keep(name, Result(Outcome.UNREADABLE, why))

    def note_problem(self, name: str, outcome: Outcome, why: str) -> None:
        """Prints why a book is not compiled."""
        self.counts.problems += 1
        self.counts.unreadable += outcome is Outcome.UNREADABLE
        self.progress.message(f"{printable(self.planned[name].source.identity)}: {outcome.value}: {printable(why)}", sys.stderr)
