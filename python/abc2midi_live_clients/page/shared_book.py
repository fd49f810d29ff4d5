"""A tune book on disk that windows of a browser edit together: reading it, saving it, and what other programs write."""

import os
import threading
from typing import Optional

from ..common.book_file import BookFile
from ..common.json_object import Json
from ..common.terminal_text import printable
from .book_copies import BadName, copy_path, save_copy
from .book_text import Text
from .refused import Refused
from .saving import BookChanged, NotSaved, digest, digest_of, read_book, save_book
from .shared_text import Disk, SharedText, shown_lines
from .window_requests import window_of

SECONDS_OF_PATIENCE = 3  # with an edit or a save, before a look at the file
GONE = "the book is not on the disk any more"


class SharedBook(SharedText):
    """The text of a tune book, and its file. Whoever reads or writes the file holds `file_lock`."""

    def __init__(self, path: Optional[str], library: Optional[str] = None):
        self.path = os.path.realpath(path) if path else None
        self.name = printable(os.path.basename(self.path)) if self.path else ""
        self.file_lock = threading.Lock()
        self.file = BookFile(self.path) if self.path else None
        self.was_gone = False  # at the last look
        super().__init__(read_book(self.path) if self.path else b"", library)

    def is_new(self) -> bool:
        """Whether the book has a name, and no file yet."""
        return self.path is not None and self.disk.saved is None

    def snapshot(self) -> Json:
        """The whole book as a window sees it, with what the file has now if nothing is unsaved."""
        self.look()
        return {"name": self.name, "id": digest(os.fsencode(self.path or ""))[:16], **super().snapshot()}

    # ---- what other programs write

    def look(self) -> None:
        """Looks at the file. What another program wrote becomes an edit if nothing is unsaved; else the windows ask."""
        if not self.file or not self.file_lock.acquire(timeout=SECONDS_OF_PATIENCE):
            return
        try:
            if self.disk.present != self.disk.saved and not self.is_unsaved:
                self.file = BookFile(self.file.path)  # the text is again what was saved: nothing is left to ask
            data = self.file.saved()
            self.was_gone = False
            if data is not None and not self.is_taken(data):
                self.know(digest(data))
        except FileNotFoundError:
            self.be_gone()
        except OSError as error:
            self.know(self.disk.present, error.strerror or str(error))
            self.file = BookFile(self.file.path)
        except Refused:
            self.file = BookFile(self.file.path)
        finally:
            self.file_lock.release()

    def be_gone(self) -> None:
        """There is no file. That counts at the second look: an editor may remove a file before it writes it."""
        if self.was_gone:
            self.know(None)
        self.was_gone, self.file = True, BookFile(self.path or "")

    def is_taken(self, data: bytes) -> bool:
        """Takes the content of the file as the text, if it is another one and nothing is unsaved."""
        if digest(data) == self.disk.saved or not self.turn.acquire(timeout=SECONDS_OF_PATIENCE):
            return False
        try:
            if self.is_unsaved:
                return False
            self.take(data)
            return True
        finally:
            self.turn.release()

    def take(self, data: bytes) -> list[Json]:
        """Makes the content of the file the text, by few edits, and returns the changes. Whoever calls this has the turn."""
        text = Text.of(data)
        return self.become(text, None, Disk(text, digest(data), digest(data)))

    def know(self, present: Optional[str], trouble: str = "") -> None:
        """Sends the windows the present state of the file."""
        with self.moved:
            disk = self.disk._replace(present=present, trouble=trouble)
            if disk != self.disk:
                self.disk = disk
                self.moment += 1
                self.moved.notify_all()

    def lines_on_disk(self) -> Json:
        """The lines of the file as it is now, as windows see them."""
        try:
            data = read_book(self.path) if self.path else None
        except OSError as error:
            raise Refused(500, f"the book cannot be read: {error.strerror}") from error
        if data is None:
            raise Refused(404, GONE)
        return shown_lines(Text.of(data))

    def load(self, asked: Json) -> Json:
        """Makes the content of the file the text, for a window that names this content; returns the changes too."""
        path = self.checked_path()
        with self.file_lock, self.turn:
            self.same_version(asked)
            try:
                data = read_book(path)
            except OSError as error:
                raise Refused(500, f"the book cannot be read: {error.strerror}") from error
            if data is None or digest(data) != asked.get("over"):
                self.know(digest_of(data))
                why = GONE if data is None else "the book on disk was changed once more"
                raise Refused(409, why, ask=digest_of(data))
            changes = self.take(data)
            return {"changes": changes, **self.now()}

    # ---- saving

    def save(self, asked: Json) -> Json:
        """Writes the book, as a new file that replaces the old one. If the file is not the one that was read or saved last, it is
        written only for a window that names the one to replace."""
        path = self.checked_path()
        with self.file_lock:
            with self.moved:
                self.same_version(asked)
                text, expected = self.text, asked["over"] if "over" in asked else self.disk.saved
            data = text.data()
            try:
                save_book(path, data, expected)
            except BookChanged as changed:
                self.know(changed.present)
                why = GONE if changed.present is None else "the book on disk was changed by another program"
                raise Refused(409, why, ask=changed.present) from changed
            except NotSaved as error:
                raise Refused(500, str(error)) from error
            except OSError as error:
                raise Refused(500, f"the book cannot be saved: {error.strerror}") from error
            return self.be_saved(text, digest(data))

    def be_saved(self, text: Text, saved: str) -> Json:
        """The file has a text, with a digest. Returns the state."""
        with self.moved:
            self.disk = Disk(text, saved, saved)
            self.is_unsaved = self.text.lines != text.lines
            self.moment += 1
            self.moved.notify_all()
            return self.state()

    def save_in_utf8(self, asked: Json) -> Json:
        """Writes the book in UTF-8, whatever its lines were."""
        self.checked_path()
        with self.turn:
            self.same_version(asked)
            self.become(self.text.in_utf8(), window_of(asked))
            version = self.version
        return self.save({**asked, "version": version})

    def save_as(self, asked: Json) -> Json:
        """Writes a copy of the text into the book's folder. The book is the same as before. A file that has the name already is
        replaced only for a window that names the content to replace."""
        if not self.path:
            raise Refused(400, "no book was named, so there is no folder")
        with self.moved:
            self.same_version(asked)
            data = self.text.data()
        try:
            save_copy(copy_path(self.path, asked.get("name")), data, asked)
        except BadName as error:
            raise Refused(400, str(error)) from error
        except BookChanged as changed:
            there = "there is no file of this name any more" if changed.present is None else "there is a file of this name"
            raise Refused(409, there, there=changed.present) from changed
        except NotSaved as error:
            raise Refused(500, str(error)) from error
        except OSError as error:
            raise Refused(500, f"the copy cannot be saved: {error.strerror}") from error
        return self.now()

    def checked_path(self) -> str:
        """The path of the book. Refuses a page without one."""
        if not self.path:
            raise Refused(400, "no book was named")
        return self.path
