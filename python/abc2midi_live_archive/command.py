"""Compiles archives of tune books: each tune becomes a MIDI file, and a catalogue has all tunes and faults."""

from __future__ import annotations

import argparse
import os
import sys
import tempfile
from collections.abc import Iterable
from typing import Any, NamedTuple, Optional

from abc2midi_live import ProgramMissing
from abc2midi_live_clients.common.signals import when_told_to_end
from abc2midi_live_clients.common.terminal_text import count_of, printable

from .archive import Archive, ArchiveTaken, Folder
from .arguments import arguments
from .catalogue import NAME, BadCatalogue, Catalogue
from .choosing import Patterns
from .cluster import Cluster, NoCluster
from .dry_run import DryRun
from .exports import export, export_losses
from .manner import manner_of
from .planning import Manner, plan_books
from .pool import Pool
from .progress import Progress, start_progress
from .pruning import gone_books
from .report.page import write_report
from .run import Run, ignore_signals, now
from .sources import BadSource, Source, Trouble, find_books, reason
from .units import Effect
from .workers import Workers
from .zipped import is_zip_archive, pack, unpack, work_folder

DONE, FAILED, WRONG_ARGUMENTS, NOT_COMPLETE, NOTHING_COMPILES = 0, 1, 2, 3, 127  # exit statuses
NOT_PRUNED = "nothing is pruned, since a source could not be read"


class Books(NamedTuple):
    """The books of the sources, those of them that a run takes, and whether all sources could be read."""

    found: list[Source]
    taken: list[Source]
    are_whole: bool


def interrupt(*_: Any) -> None:
    """Ends the run, as Ctrl-C does."""
    raise KeyboardInterrupt


def tell(text: str) -> None:
    """Prints a line about what failed."""
    print(f"archive: {text}", file=sys.stderr)


def find_sources(words: argparse.Namespace) -> Books:
    """The books of the sources."""
    found: list[Source] = []
    is_whole = True
    for source in find_books(words.sources, names_on_input(words.nul), words.follow_links):
        if isinstance(source, BadSource):
            is_whole = is_whole and source.trouble is Trouble.SKIPPED
            print(f"{printable(source.name)}: {source.trouble.value}: {printable(source.why)}", file=sys.stderr)
        else:
            found.append(source)
    taken = list(filter(Patterns(words.include, words.exclude).take, found))
    if is_whole and not found:  # standard input was empty
        tell("there is no book")
    elif found and not taken:
        tell("--include and --exclude leave no book")
    return Books(found, taken, is_whole and bool(taken))


def names_on_input(end_with_nul: bool) -> Iterable[bytes]:
    """The names on standard input."""
    return sys.stdin.buffer.read().split(b"\0") if end_with_nul else sys.stdin.buffer


def fill(words: argparse.Namespace, manner: Manner, archive: Archive, catalogue: Catalogue) -> int:
    """Does the books of the sources; the exit status."""
    books = find_sources(words)
    planned = plan_books(books.taken, archive, catalogue)
    progress = start_progress(len(planned))
    run = Run(archive, catalogue, manner, words.changed, progress)
    run.counts.left_out = len(books.found) - len(books.taken)
    stopped: Optional[BaseException] = None
    try:
        workers = start_workers(words, progress)
        run.do(planned, workers)
        catalogue.see(books.found, now())
        if words.prune:
            prune(run, books)
        catalogue.commit()
        workers.stop()
    except (KeyboardInterrupt, BadCatalogue, NoCluster, OSError) as error:
        ignore_signals()  # the summary comes at once
        stopped = error
    finally:
        progress.close()
    if manner.with_losses and not stopped:
        run.count_states()
    print(f"{printable(words.to)}: {run.counts.summary(len(planned))}{'; stopped' if stopped else ''}", flush=True)
    if stopped and not isinstance(stopped, KeyboardInterrupt):
        raise stopped
    if not stopped:
        write_tables(words, archive, catalogue)
    if not books.are_whole or stopped or run.counts.problems:
        return FAILED
    return NOT_COMPLETE if words.strict and run.counts.states.keys() - {Effect.COMPLETE.value} else DONE


def prune(run: Run, books: Books) -> None:
    """Removes the books that are gone, if all sources and books could be read: a disk may be away. Raises BadCatalogue."""
    gone = gone_books(run.catalogue, books.found)
    if books.are_whole and not run.counts.unreadable:
        run.prune(gone)
    elif gone:
        tell(NOT_PRUNED)


def start_workers(words: argparse.Namespace, progress: Progress) -> Workers:
    """Starts the workers that the command line asks for. Raises NoCluster."""
    if words.scheduler:
        return Cluster(words.scheduler, words.patience, lambda text: progress.message(f"archive: {text}", sys.stderr))
    return Pool(words.jobs or len(os.sched_getaffinity(0)))


def write_tables(words: argparse.Namespace, archive: Archive, catalogue: Catalogue) -> None:
    """Writes the tables and the report that the command line asks for."""
    for form in dict.fromkeys(words.catalogue):
        export(catalogue, archive.path, form)
    if words.losses:
        export_losses(catalogue, words.losses)
    if words.report:
        write_report(catalogue, os.path.abspath(words.to), words.report)
    catalogue.note_run(now())  # after the report, which has what is new since the last one


def run_command(words: argparse.Namespace) -> int:
    """Runs the command; the exit status."""
    manner = manner_of(words)
    is_zip = is_zip_archive(words.to)
    if words.dry_run:
        return look(words, manner, is_zip)
    archive = Archive(work_folder(words.to) if is_zip else words.to)
    try:
        if is_zip:
            unpack(words.to, archive.path)
        catalogue = Catalogue(archive.inside(NAME), archive.sync)
        try:
            status = fill(words, manner, archive, catalogue)
        finally:
            catalogue.close()
        if is_zip:
            pack(archive.path, words.to)
        return status
    finally:
        archive.release()


def look(words: argparse.Namespace, manner: Manner, is_zip: bool) -> int:
    """Prints what a run would do; the exit status."""
    books = find_sources(words)
    with tempfile.TemporaryDirectory() as room:
        folder = Folder(words.to)
        if is_zip:
            folder = Folder(work_folder(words.to))
            if not os.path.exists(folder.inside(NAME)):
                folder = Folder(room)
                unpack(words.to, room)
        return look_in(folder, words, manner, books)


def look_in(folder: Folder, words: argparse.Namespace, manner: Manner, books: Books) -> int:
    """Prints what a run would do in a folder; the exit status."""
    catalogue = Catalogue(folder.inside(NAME), is_copy=True)
    run = DryRun(folder, catalogue, manner)
    for line in run.lines(books.taken):
        print(line)
    gone = gone_books(catalogue, books.found) if words.prune and books.are_whole and not run.problems else []
    for book in gone:
        print(f"{printable(book.name)}: to prune, with {count_of(book.files, 'file')}")
    for name, why in run.problems.items():
        print(f"{printable(name)}: cannot be read: {printable(why)}", file=sys.stderr)
    print(f"{printable(words.to)}: {run.summary(gone)}", flush=True)
    return DONE if books.are_whole and not run.problems else FAILED


def main() -> int:
    """Runs the command, and says why it failed; the exit status."""
    words = arguments(__doc__)
    when_told_to_end(interrupt)
    try:
        return run_command(words)
    except KeyboardInterrupt:
        tell("stopped")
    except ProgramMissing as error:
        tell(str(error))
        return NOTHING_COMPILES
    except (ArchiveTaken, BadCatalogue, NoCluster) as error:
        tell(printable(str(error)))
    except BrokenPipeError:  # nobody reads the lines
        os.dup2(os.open(os.devnull, os.O_WRONLY), sys.stdout.fileno())
    except OSError as error:
        name = f"{printable(str(error.filename))}: " if error.filename is not None else ""
        tell(f"{name}{reason(error)}")
    return FAILED
