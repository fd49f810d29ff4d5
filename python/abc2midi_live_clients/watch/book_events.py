"""The events of the folders in which a book is saved, so that a save is seen at once.

They come from Linux by Debian's python3-inotify. Without that package, and for folders of which there are no events, a caller sees a
save at its next look."""

import importlib
import os
import time
from contextlib import suppress
from typing import Any, NamedTuple, Optional

MOST_LINKS = 40  # as many as Linux follows
SAVED = 0x08 | 0x80  # IN_CLOSE_WRITE, IN_MOVED_TO: a file was written, or was renamed to this name


Key = tuple[int, int]  # the device and the inode of a folder


class Place(NamedTuple):
    """A name under which a book is saved, and its folder."""

    folder: str
    name: str


def places_of(path: str) -> list[Place]:
    """Where a book is saved: at its path, and at the end of each link there."""
    found = []
    for _ in range(MOST_LINKS):
        place = Place(*os.path.split(os.path.abspath(path)))
        if place in found:
            break
        found.append(place)
        try:
            path = os.path.join(place.folder, os.readlink(path))
        except OSError:  # no link, or nothing at all
            break
    return found


def key_of(folder: str) -> Optional[Key]:
    """The key of a folder, or None if it is gone."""
    try:
        found = os.stat(folder)
    except OSError:
        return None
    return found.st_dev, found.st_ino


class BookEvents:
    """Waits until a book is saved, if its folders have events."""

    def __init__(self, path: str):
        self.path = path
        self.until = 0.0
        self.folders: dict[str, Key] = {}  # that are watched
        self.names: set[str] = set()
        self.inotify = self.start()
        self.follow()

    def start(self) -> Any:
        """The events of Linux, or None if there are none here."""
        try:
            return importlib.import_module("inotify.adapters").Inotify(block_duration_s=self.left)
        except Exception:  # it is not installed, finds no calls of Linux, or has too many watchers
            return None

    def left(self) -> float:
        """The seconds until the next look."""
        return max(self.until - time.monotonic(), 0.0)

    def wait(self, seconds: float) -> None:
        """Waits until the book is saved, but at most so long. It returns at once if the book is in another folder than before."""
        self.until = time.monotonic() + seconds
        if self.inotify is None:
            time.sleep(seconds)
        elif not self.follow():
            self.wait_for_event()

    def wait_for_event(self) -> None:
        """Waits for an event of one of the names, or until the next look."""
        try:
            for event in self.inotify.event_gen():
                if self.left() == 0 or (event and event[3] in self.names):
                    return
        except Exception:  # a name that is not UTF-8, or more events than Linux stores: the book may be among them
            return

    def follow(self) -> bool:
        """Watches the folders in which the book is saved now. Returns whether one of them is new."""
        places = places_of(self.path) if self.inotify is not None else []
        self.names = {place.name for place in places}
        now = {folder: key for folder in {place.folder for place in places} if (key := key_of(folder))}
        for folder in [folder for folder, key in self.folders.items() if now.get(folder) != key]:
            del self.folders[folder]
            with suppress(Exception):  # Linux drops the watch of a folder that is gone
                self.inotify.remove_watch(folder)
        return any([self.watch(folder, key) for folder, key in now.items() if folder not in self.folders])

    def watch(self, folder: str, key: Key) -> bool:
        """Watches a folder. Returns whether that is possible."""
        try:
            self.inotify.add_watch(folder, SAVED)
        except Exception:  # the folder is gone, cannot be read, or has a name that is not UTF-8
            return False
        self.folders[folder] = key
        return True
