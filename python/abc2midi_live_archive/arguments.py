"""The arguments of the command line."""

from __future__ import annotations

import argparse

from abc2midi_live_clients.common.options import add_common_options

from .exports import FORMATS
from .limits import LEAST_MEMORY, Limits, size_of, size_text
from .sources import INPUT
from .units import Numbering

MOST_SECONDS = 1_000_000
PATIENCE = 60.0  # seconds
EPILOG = (
    "Ctrl-C ends a run with a summary; the same command resumes it. Exit status: 0 if all books are done; 1 if some could not be read or "
    "written, or the run was stopped; 2 for wrong arguments; 3 with --strict, if a tune is not complete; 127 if there is no library and no program."
)
WRITES_NOTHING = ("report", "losses", "catalogue", "changed", "strict")  # the options that a dry run has nothing for


def processes(text: str) -> int:
    """A count of processes, as the option `--jobs` has it."""
    count = int(text)
    if not 1 <= count <= 1024:
        raise ValueError
    return count


def memory_size(text: str) -> int:
    """A size of memory, as the option `--memory-per-book` has it."""
    size = size_of(text)
    if size < LEAST_MEMORY:
        raise argparse.ArgumentTypeError(f"a book needs {size_text(LEAST_MEMORY)} at least")
    return size


def seconds_of(text: str) -> float:
    """A number of seconds, as the options have it."""
    seconds = float(text)
    if not 0 < seconds <= MOST_SECONDS:
        raise ValueError
    return seconds


def arguments(description: str) -> argparse.Namespace:
    """The arguments of the command line."""
    parser = argparse.ArgumentParser(description=description, epilog=EPILOG)
    sources = "a tune book, a folder, a .zip or .tar.gz; - reads names from standard input, one a line"
    parser.add_argument("sources", metavar="SOURCE", nargs="+", help=sources)
    to = "the folder of the archive; it is made if it is missing. With a name that ends in .zip it is one file"
    parser.add_argument("--to", metavar="DIR", required=True, help=to)
    add_choices(parser)
    add_results(parser)
    add_means(parser)
    add_common_options(parser)
    words = parser.parse_args()
    refuse_contradictions(parser, words)
    return words


def add_choices(parser: argparse.ArgumentParser) -> None:
    """Adds the options that say which books a run takes."""
    pattern = "books whose path below their source has this pattern, as 'irish/*'; without a / that of the file's name; may be given again"
    parser.add_argument("--include", metavar="PATTERN", action="append", default=[], help=f"take only {pattern}")
    parser.add_argument("--exclude", metavar="PATTERN", action="append", default=[], help=f"leave out {pattern}")
    parser.add_argument("-0", dest="nul", action="store_true", help="the names on standard input end with NUL, as those of find -print0")
    parser.add_argument("--follow-links", action="store_true", help="follow symbolic links below the folders of sources")
    prune = "remove the files of books that are in no source and not at their places any more"
    parser.add_argument("--prune", action="store_true", help=prune)
    parser.add_argument("--dry-run", action="store_true", help="print what a run would compile and prune, and write nothing")


def add_results(parser: argparse.ArgumentParser) -> None:
    """Adds the options that say what a run makes."""
    numbering = "name a file for the number of its tune, or for its place in the book: then each tune has a file; number without it"
    ways = [way.value for way in Numbering]
    parser.add_argument("--number-by", metavar="WAY", choices=ways, default=ways[0], help=f"{numbering}")
    parser.add_argument("--hints", action="store_true", help="find hints, too; this takes several times as long")
    losses = "write what of each tune does not sound as it is written: JSON lines if FILE ends in .jsonl, else CSV"
    parser.add_argument("--losses", metavar="FILE", help=losses)
    parser.add_argument("--strict", action="store_true", help="end with status 3 if a tune does not sound as it is written")
    parser.add_argument("--changed", action="store_true", help="print which files differ from those of the last run")
    forms = "write the catalogue as tables of this form, too: csv or jsonl"
    parser.add_argument("--catalogue", metavar="FORM", choices=sorted(FORMATS), action="append", default=[], help=forms)
    parser.add_argument("--report", metavar="FILE", help="write a page with charts of the whole archive")


def add_means(parser: argparse.ArgumentParser) -> None:
    """Adds the options that say what compiles, where, and within which limits."""
    parser.add_argument("--jobs", metavar="N", type=processes, help="use N processes; without it one for each processor")
    parser.add_argument("--scheduler", metavar="ADDRESS", help="use the workers of this Dask scheduler, as tcp://host:8786")
    patience = f"how long a cluster may have no worker before the run ends; {PATIENCE:g} seconds without it"
    parser.add_argument("--patience", metavar="N", type=seconds_of, default=PATIENCE, help=patience)
    parser.add_argument("--collect", action="store_true", help="read and write all files here, so that workers need no shared disk")
    parser.add_argument("--library", metavar="FILE", help="compile by this C library")
    memory, seconds = "the most memory that a process may use for a book", "the most time that a book may take"
    default = Limits()
    parser.add_argument("--memory-per-book", metavar="SIZE", type=memory_size, default=default.memory, help=f"{memory}, as 1G; 4G without it")
    parser.add_argument("--seconds-per-book", metavar="N", type=seconds_of, default=default.seconds, help=f"{seconds}; {default.seconds:g} without it")


def refuse_contradictions(parser: argparse.ArgumentParser, words: argparse.Namespace) -> None:
    """Ends the command if two arguments do not fit together."""
    if words.library and words.program:
        parser.error("name a library or a program, not both")
    if words.jobs and words.scheduler:
        parser.error("--jobs is for this machine alone: leave out --jobs or --scheduler")
    if words.nul and INPUT not in words.sources:
        parser.error("-0 is for names on standard input: name - as a source, too")
    if words.program and (words.losses or words.strict):
        parser.error("--losses and --strict need the C library: name one by --library, instead of --program")
    if words.dry_run:
        for option in WRITES_NOTHING:
            if getattr(words, option):
                parser.error(f"--dry-run writes nothing: leave out --dry-run or --{option}")
