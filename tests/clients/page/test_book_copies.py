"""Copies of the book in its folder, by plain requests to the server of the page."""

import os
from typing import Any

import served_page
from abc2midi_live_clients.common.json_object import Json
from abc2midi_live_clients.page import saving


class Copies(served_page.Page):
    """What `save-as` writes, and what it refuses."""

    def copy(self, name: Any, **more: Any) -> Json:
        """What answers a copy of the present text."""
        state = self.ask("state")
        return self.ask("save-as", {"run": state["run"], "version": state["version"], "name": name, **more})

    def refused(self, name: Any, sentence: str, **more: Any) -> None:
        """A copy is refused by a sentence, and nothing in the folder is another."""
        before = self.listing()
        answer = self.copy(name, **more)
        self.assertEqual((answer.get("error"), answer.get("status"), self.listing()), (sentence, 400, before), name)

    def listing(self) -> dict[str, int]:
        """The files below the folder, with what they have."""
        found = (os.path.join(folder, name) for folder, _, names in os.walk(self.folder) for name in names)
        return {path: os.stat(path).st_size for path in found}

    def test_a_copy(self) -> None:
        """It has the text of the windows; the book stays as it was, unsaved."""
        self.edit(0, 0, "% é 𝄞")
        state = self.copy("other name.abc")
        self.assertEqual((self.folder / "other name.abc").read_bytes(), "% é 𝄞\n".encode() + served_page.BOOK)
        self.assertEqual((self.path.read_bytes(), state["unsaved"], self.book()["name"]), (served_page.BOOK, True, "book.abc"))
        self.assertFalse([name for name in os.listdir(self.folder) if name.startswith(".")])
        self.save()
        self.finish()

    def test_bytes_of_the_book(self) -> None:
        """Carriage returns, a mark, and bytes that are no text are the same in the copy."""
        self.finish()
        data = b"\xef\xbb\xbfX:1\r\nT:\xe9\x01\r\nK:C\r\n"
        self.path.write_bytes(data)
        self.start(str(self.path))
        self.copy("copy.abc")
        self.assertEqual((self.folder / "copy.abc").read_bytes(), data)
        self.finish()

    def test_a_file_that_is_there(self) -> None:
        """It is replaced only if the window names its content."""
        there = self.folder / "there.abc"
        there.write_bytes(b"mine")
        others: list[Json] = [{}, {"over": "another"}, {"over": None}, {"over": True}, {"over": 1}]
        for more in others:
            asked = self.copy("there.abc", **more)
            self.assertEqual((asked["status"], asked["error"]), (409, "there is a file of this name"))
            self.assertEqual((asked["there"], there.read_bytes()), (saving.digest(b"mine"), b"mine"))
        there.write_bytes(b"changed meanwhile")
        self.assertEqual((self.copy("there.abc", over=saving.digest(b"mine"))["status"], there.read_bytes()), (409, b"changed meanwhile"))
        self.copy("there.abc", over=saving.digest(b"changed meanwhile"))
        self.assertEqual(there.read_bytes(), served_page.BOOK)
        self.assertEqual(self.copy("gone.abc", over=saving.digest(b"mine"))["there"], None)
        self.assertFalse((self.folder / "gone.abc").exists())
        self.finish()

    def test_no_way_out_of_the_folder(self) -> None:
        (self.folder / "below").mkdir()
        slash = "a name has no slash: the copy goes into the folder of the book"
        out = f"out of {self.folder.name}.abc"
        for name in (f"../{out}", "below/in.abc", f"{self.files}/in.abc", "./book.abc", "a/../b.abc", "/", "below/"):
            self.refused(name, slash)
        self.assertFalse((self.folder.parent / out).exists())
        for name in (".", "..", ".hidden.abc"):
            self.refused(name, "a name does not begin with a dot")
        self.finish()

    def test_names_that_are_none(self) -> None:
        for name in ("", "  ", None, 7, ["a.abc"], {"a": 1}, True):
            self.refused(name, "the copy needs a name")
        for name in ("a\0b.abc", "a\nb.abc", "\x1b[31m.abc", "\ud800.abc", "\udc0a.abc", "a\u202eb.abc"):
            self.refused(name, "the name has characters that cannot be shown")
        self.refused(252 * "n" + ".abc", "a name has at most 255 bytes")
        self.refused(126 * "é" + ".abc", "a name has at most 255 bytes")
        self.assertFalse("error" in self.copy(251 * "n" + ".abc"))
        self.finish()

    def test_the_book_itself(self) -> None:
        self.edit(0, 0, "%")
        self.refused("book.abc", "this is the book itself: save it")
        os.link(self.path, self.folder / "same.abc")
        self.refused("same.abc", "this is the book itself: save it", over=saving.digest(served_page.BOOK))
        self.finish()

    def test_what_is_no_regular_file(self) -> None:
        """Links and folders of the name stay, and what a link names stays as it is."""
        (self.folder / "folder.abc").mkdir()
        outside = self.folder / "files/outside"
        outside.write_bytes(b"outside")
        (self.folder / "link.abc").symlink_to(outside)
        for name, kind in (("folder.abc", "a folder"), ("link.abc", "a symbolic link")):
            named: list[Json] = [{}, {"over": saving.digest(b"outside")}]
            for more in named:
                asked = self.copy(name, **more)
                self.assertEqual((asked["status"], asked["error"]), (500, f"the copy cannot be saved: it is {kind}, and not a regular file"))
        self.assertEqual((outside.read_bytes(), (self.folder / "link.abc").is_symlink()), (b"outside", True))
        outside.unlink()

    def test_a_copy_over_a_file_that_is_read_only(self) -> None:
        there = self.folder / "there.abc"
        there.write_bytes(b"mine")
        there.chmod(0o444)
        asked = self.copy("there.abc", over=saving.digest(b"mine"))
        self.assertEqual((asked["status"], asked["error"], there.read_bytes()), (500, "the file is read-only", b"mine"))

    def test_no_book_is_named(self) -> None:
        self.finish()
        self.start()
        self.refused("copy.abc", "no book was named, so there is no folder")
        self.finish()

    def test_whoever_may_not(self) -> None:
        """Without the token of the page, from another page, or for a text that the window does not know, nothing is written."""
        state = self.ask("state")
        asked = {"run": state["run"], "version": state["version"], "name": "copy.abc"}
        for path in ("/save-as", f"/{self.token[:-1]}/save-as", f"/{self.token.swapcase()}/save-as"):
            self.assertEqual(self.request("", asked, path=path)[0], 403)
        self.assertEqual(self.request("save-as", asked, {"Origin": "http://evil.example"})[0], 403)
        self.assertEqual(self.request("save-as", asked, {"Host": "evil.example"})[0], 403)
        self.assertEqual(self.request("save-as")[0], 404)
        self.edit(0, 0, "%")
        self.assertEqual(self.ask("save-as", asked)["status"], 409)
        self.assertEqual(self.ask("save-as", {**asked, "run": "another", "version": 1})["status"], 409)
        self.assertEqual(self.request("save-as", b"[]")[0], 400)
        self.assertFalse((self.folder / "copy.abc").exists())
        self.finish()


class Changes(served_page.Page):
    """The changes after a version, for a page that was loaded anew."""

    def test_changes(self) -> None:
        made = [self.edit(0, 1, f"X:{number}") for number in range(5, 8)]
        self.assertEqual(self.ask("changes/1"), {"changes": made[1:]})
        self.assertEqual(self.ask("changes/3"), {"changes": []})
        for name in ("changes/", "changes/x", "changes/-1", "changes/1/"):
            self.assertEqual(self.request(name)[0], 404)
        self.assertEqual(self.ask("state")["windows"], 0)
        self.finish()
