"""The command that an editor starts."""

import argparse
import sys

from abc2midi_live import LibraryMissing

from ..common.options import add_version_option, open_library
from ..common.player import Player, command
from ..common.signals import when_told_to_end
from .messages import BadMessage, write_message
from .server import Server
from .workspace import Settings

ABOUT = "Shows the faults and tunes of tune books in an editor, by the Language Server Protocol on standard input and output."


def arguments() -> argparse.Namespace:
    """The arguments of the command line."""
    parser = argparse.ArgumentParser(description=ABOUT)
    parser.add_argument("--play", metavar="COMMAND", type=command, help="the player for the action Play")
    parser.add_argument("--library", metavar="FILE", help="compile by this C library instead of the installed or built one")
    add_version_option(parser)
    parser.add_argument("--no-hints", action="store_true", help="show no hints")
    parser.add_argument("--stdio", action="store_true", help=argparse.SUPPRESS)  # many editors add it; there is no other way
    return parser.parse_args()


def main() -> int:
    """Serves one editor; the exit status."""
    words = arguments()
    when_told_to_end(lambda *_: sys.exit(1))
    server = None
    try:
        player = Player(words.play) if words.play else None
        open_library(words.library).close()  # if there is none, the editor shows it now
        server = Server(write_message, Settings(words.library, player, not words.no_hints))
        return server.serve(open(sys.stdin.fileno(), "rb", buffering=0, closefd=False))
    except (LibraryMissing, BadMessage) as error:
        print(f"language_server: {error}", file=sys.stderr)
        return 127 if isinstance(error, LibraryMissing) else 1
    except MemoryError:
        print("language_server: out of memory", file=sys.stderr)
        return 1
    except (KeyboardInterrupt, BrokenPipeError):
        return 1
    finally:
        if server:
            server.end()
