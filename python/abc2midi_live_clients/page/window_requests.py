"""What windows ask of a book, as it is read."""

import re
from typing import Optional

from ..common.json_object import Json
from .refused import Refused
from .tokens_and_plays import Sight

WINDOW = re.compile(r"[\w.-]{1,64}", re.ASCII)  # the name of a window


def lines_in(asked: Json, count: int) -> tuple[int, int, list[str]]:
    """The places and the lines of an edit of a text, which has `count` lines."""
    start, stop, lines = asked.get("start"), asked.get("stop"), asked.get("lines")
    if not (type(start) is int and type(stop) is int and 0 <= start <= stop <= count):
        raise Refused(400, "these are no lines of the book")
    if not isinstance(lines, list) or not all(isinstance(line, str) and "\n" not in line for line in lines):
        raise Refused(400, "an edit has a list of lines")
    if not lines and stop - start == count:
        raise Refused(400, "a text has a line")
    return start, stop, lines


def edits_in(asked: Json) -> Optional[dict[str, int]]:
    """The edits that the text has with an edit, if the window that asks says so: by author, the number of the last one."""
    has = asked.get("has")
    if not has:
        return None
    if isinstance(has, dict) and all(WINDOW.fullmatch(author) and is_count(number) for author, number in has.items()):
        return has
    raise Refused(400, "these are no authors with the numbers of their edits")


def sight_of(asked: Json) -> Optional[Sight]:
    """What a window shows, if it says so."""
    seen = asked.get("sees")
    if seen is None:
        return None
    if isinstance(seen, dict):
        start, stop, tune = seen.get("from"), seen.get("to"), seen.get("tune")
        if type(start) is int and type(stop) is int and start >= 0 and stop >= 0 and (tune is None or is_count(tune)):
            return Sight(start, stop, tune)
    raise Refused(400, "these are no lines and no tune that a window sees")


def window_of(asked: Json) -> Optional[str]:
    """The name of the window that asks, if it has one."""
    window = asked.get("window")
    if window is None or isinstance(window, str) and WINDOW.fullmatch(window):
        return window
    raise Refused(400, "this is no name of a window")


def is_count(value: object) -> bool:
    """Whether this is a number from 0."""
    return type(value) is int and value >= 0
