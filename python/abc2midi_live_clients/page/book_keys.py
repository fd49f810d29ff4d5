"""The keys of books, by which a page and the server of its book know each other again after a loss, without sending what they know.

Each book has a key, which the page gets with its files. `server_host.js` makes and checks the same proof; the tests in a browser compare
them. `proof` is a keyed digest of the port, the server's run and a number that the page drew: whoever took the port cannot make it,
and cannot get it from a server at another port."""

import hmac
import os
import re
import secrets
import stat
from contextlib import suppress
from pathlib import Path
from typing import Optional

from .saving import digest

KEY = re.compile(r"[0-9a-f]{64}")


def proof(key: str, who: str, port: int, run: str, nonce: str) -> str:
    """The proof that the `server` or the `page` has the key."""
    return hmac.new(bytes.fromhex(key), f"{who} {port} {run} {nonce}".encode(), "sha256").hexdigest()


def state_folder() -> Path:
    """The folder of what the servers of a user keep. Without a home it raises RuntimeError, before Python 3.10 KeyError."""
    return Path(os.environ.get("XDG_STATE_HOME") or Path.home() / ".local/state") / "abc2midi_live"


def book_key(path: Optional[str]) -> str:
    """The secret of a book, one and the same for each start. It is in a file that nobody else may read. If there can be no such
    file, the secret is this start's alone."""
    key = secrets.token_hex(32)
    with suppress(OSError, ValueError, RuntimeError, KeyError):  # without a home RuntimeError, before Python 3.10 KeyError
        file = state_folder() / "keys" / digest(os.fsencode(path or ""))[:32]
        file.parent.mkdir(mode=0o700, parents=True, exist_ok=True)
        return kept_key(file, key) or key
    return key


def kept_key(file: Path, new: str) -> Optional[str]:
    """The secret in a file, if it is one and nobody else may read it. A file that is missing, or empty as a full disk leaves it, gets
    a new secret."""
    descriptor = open_key(file)
    with open(descriptor, "rb") as kept:
        found = os.fstat(descriptor)
        if not stat.S_ISREG(found.st_mode) or found.st_uid != os.getuid() or found.st_mode & 0o077:
            return None
        key = kept.read(100).decode("ascii", "replace")
        if not key:
            os.write(descriptor, new.encode())
            return new
    return key if KEY.fullmatch(key) else None


def open_key(file: Path) -> int:
    """A descriptor of the file of a secret, which is made if it is missing. It can only be read if nobody may write it."""
    flags = os.O_NONBLOCK | os.O_NOFOLLOW | os.O_CLOEXEC
    try:
        return os.open(file, flags | os.O_RDWR | os.O_CREAT, 0o600)
    except OSError:
        return os.open(file, flags | os.O_RDONLY)
