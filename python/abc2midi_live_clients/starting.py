"""Starts a client. `--version` alone is answered before the modules of the client are imported, which takes most of a start."""

import importlib
import os
import signal
import sys
from collections.abc import Callable


def start(module: str) -> int:
    """Runs the function `main` of a module, or prints the version; the exit status. Ctrl-C while modules are imported ends the process as
    it ends any other one: Python would print where it was, or drop the exception."""
    is_heard = signal.getsignal(signal.SIGINT) is signal.default_int_handler  # a shell's background job ignores it
    if is_heard:
        signal.signal(signal.SIGINT, signal.SIG_DFL)
    if sys.argv[1:] == ["--version"]:
        print(f"{os.path.basename(sys.argv[0])} {importlib.import_module('abc2midi_live.finding').version()}")
        return 0
    main = importlib.import_module(module).main
    if is_heard:
        signal.signal(signal.SIGINT, signal.default_int_handler)
    return status_of(main)


def status_of(main: Callable[[], int]) -> int:
    """Runs a client; its exit status. Ctrl-C that it does not hear, as while it reads its arguments or after its end, ends the process."""
    try:
        return main()
    except KeyboardInterrupt:
        signal.signal(signal.SIGINT, signal.SIG_DFL)
        os.kill(os.getpid(), signal.SIGINT)
        raise
    finally:
        if signal.getsignal(signal.SIGINT) is signal.default_int_handler:
            signal.signal(signal.SIGINT, signal.SIG_DFL)


def watch() -> int:
    """Runs the watcher."""
    return start("abc2midi_live_clients.watch.command")


def page() -> int:
    """Runs the page's server."""
    return start("abc2midi_live_clients.page.command")


def language_server() -> int:
    """Runs the language server."""
    return start("abc2midi_live_clients.language_server")


def archive() -> int:
    """Runs the archive."""
    return start("abc2midi_live_archive.command")
