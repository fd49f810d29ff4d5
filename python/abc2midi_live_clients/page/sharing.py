"""Links to tunes: the address to which they lead, which all books of a user share, and their QR codes, which Debian's `python3-segno` makes."""

import os
import re
from contextlib import suppress
from importlib import import_module
from importlib.util import find_spec

from ..common.json_object import Json
from .book_keys import state_folder
from .refused import Refused

INSTALL = "For a QR code of this link, install segno: sudo apt install python3-segno"
TOO_LONG = "This link is too long for a QR code that a telephone can read."
NO_ADDRESS = "an address begins with https:// or http://, and has no blank and no #"
MOST_BYTES = 1_273  # of a link in a code: the most of a code of 117 squares a side, which a screen shows large enough
ADDRESS = re.compile(r"https?://[!-\"$-~]{1,500}")
NOTHING = (OSError, ValueError, RuntimeError, KeyError)  # raised without a home, or without the right to write there
FILE = "share_address"


def kept_address() -> Json:
    """The address that a window wrote last; nothing if none did."""
    found = ""
    with suppress(*NOTHING):
        found = (state_folder() / FILE).read_text("ascii")[:1000].strip()
    return {"address": found if ADDRESS.fullmatch(found) else ""}


def keep_address(asked: Json) -> Json:
    """Keeps the address that a window writes, for all books, and returns it. If the disk does not take it, it holds for this time alone."""
    address = asked.get("address")
    if not isinstance(address, str) or address and not ADDRESS.fullmatch(address):
        raise Refused(400, NO_ADDRESS)
    with suppress(*NOTHING):
        folder = state_folder()
        folder.mkdir(mode=0o700, parents=True, exist_ok=True)
        new = folder / f"{FILE}.{os.getpid()}"
        new.write_text(address, "ascii")
        new.replace(folder / FILE)
    return {"address": address}


def code_of(asked: Json) -> Json:
    """The rows of the QR code of a text, of 0 and of 1 for dark squares; or why there is none."""
    text = asked.get("text")
    if not isinstance(text, str) or not text:
        raise Refused(400, "a QR code has a text")
    if not find_spec("segno"):
        return {"why": INSTALL}
    if len(text.encode()) > MOST_BYTES:
        return {"why": TOO_LONG}
    code = import_module("segno").make(text, error="l", micro=False)
    return {"rows": ["".join(map(str, row)) for row in code.matrix]}
