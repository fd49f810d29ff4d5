"""What can be undone after a reload and beside other windows, in a real browser."""

import test_page_in_browser
from browser_keys import CONTROL, END, HOME, LEFT


class Undo(test_page_in_browser.Browser):
    """Undoing."""

    def kept(self) -> None:
        """Waits till the browser has kept what can be undone of the present text."""
        script = """
        const key = Object.keys(sessionStorage).find((one) => one.startsWith("abc2midi_live undo "));
        return key ? JSON.parse(sessionStorage[key]).version : -1;
        """
        version = self.ask("state")["version"]
        self.wait(lambda: self.run_script(script) == version)

    def other(self, start: int, stop: int, *lines: str) -> None:
        """An edit of another window, which the page shows."""
        state = self.ask("state")
        self.ask("edit", {"run": state["run"], "version": state["version"], "window": "other", "start": start, "stop": stop, "lines": lines})
        self.wait(lambda: all(line in self.run_script("return document.querySelector('textarea').value") for line in lines))

    def test_a_reload(self) -> None:
        """What was typed before it can be undone, and be done again."""
        self.put("X:1\nK:C\n")
        self.wait_for_lines("X:1", "K:C", "")
        self.put("CDE")
        self.wait_for_lines("X:1", "K:C", "CDE")
        self.kept()
        self.load()
        self.type("z", CONTROL)
        self.wait_for_lines("X:1", "K:C", "")
        self.kept()
        self.load()
        self.type("y", CONTROL)
        self.wait_for_lines("X:1", "K:C", "CDE")
        self.press("z", CONTROL)
        self.press("z", CONTROL)
        self.wait_for_lines("")

    def test_a_restart_of_the_server(self) -> None:
        self.put("X:1\nK:C\n")
        self.put("C")
        self.wait_for_lines("X:1", "K:C", "C")
        self.press("s", CONTROL)
        self.wait(lambda: not self.is_unsaved())
        self.kept()
        self.kill()
        self.start(str(self.path), port=str(self.port))
        self.load()
        self.type("z", CONTROL)
        self.wait_for_lines("X:1", "K:C", "")

    @test_page_in_browser.opens_the_page
    def test_another_window(self) -> None:
        """Its edits of other lines leave what can be undone, those of the same line do not."""
        self.edit(0, 1, "X:1", "K:C", "C", "", "X:2", "K:D", "D")
        self.load()
        self.type(END, CONTROL)
        self.put("EF")
        self.wait_for_lines("X:1", "K:C", "C", "", "X:2", "K:D", "DEF")
        self.other(2, 3, "CCC", "GGG")
        self.press("z", CONTROL)
        self.wait_for_lines("X:1", "K:C", "CCC", "GGG", "", "X:2", "K:D", "D")
        self.press("y", CONTROL)
        self.wait_for_lines("X:1", "K:C", "CCC", "GGG", "", "X:2", "K:D", "DEF")
        self.other(7, 8, "another's")
        self.press("z", CONTROL)
        self.press("z", CONTROL)
        self.type(HOME, CONTROL)
        self.press("% ")
        self.wait_for_lines("% X:1", "K:C", "CCC", "GGG", "", "X:2", "K:D", "another's")

    def test_a_reload_and_another_window(self) -> None:
        """What another window edits while the page is loaded anew moves what can be undone."""
        self.put("X:1\nK:C\nC")
        self.wait_for_lines("X:1", "K:C", "C")
        self.put("DE")
        self.wait_for_lines("X:1", "K:C", "CDE")
        self.kept()
        self.driver.get("about:blank")
        self.edit(0, 0, "% one", "% two")
        self.load()
        self.type("z", CONTROL)
        self.wait_for_lines("% one", "% two", "X:1", "K:C", "C")

    def test_what_came_from_disk(self) -> None:
        self.put("X:1")
        self.wait_for_lines("X:1")
        self.press("s", CONTROL)
        self.wait(lambda: not self.is_unsaved())
        self.path.write_bytes(b"X:1\nK:C\nC")
        self.shows("X:1\nK:C\nC")
        self.kept()
        self.load()
        self.type("z", CONTROL)
        self.wait_for_lines("X:1")
        self.press("z", CONTROL)
        self.wait_for_lines("")

    def test_changes_of_the_disk_are_one_step(self) -> None:
        """So is a book that is loaded. The caret is then where it was before."""
        lines = ["X:1", "T:One", "K:C", "CDE", "", "X:2", "T:Two", "K:D", "DEF"]
        self.put("\n".join(lines))
        self.wait_for_lines(*lines)
        self.press("s", CONTROL)
        self.wait(lambda: not self.is_unsaved())
        self.type(LEFT)
        written = ["X:1", "T:Another", "K:C", "CDE", "X:2", "T:Two", "K:D", "DEF", "G"]
        self.path.write_text("\n".join(written))
        self.shows("\n".join(written))
        self.type(HOME, CONTROL)
        self.press("z", CONTROL)
        self.wait_for_lines(*lines)
        self.put("g")
        self.wait_for_lines(*lines[:-1], "DEgF")
        self.path.write_text("\n".join([*written, "A"]))
        self.answer("Load the book from disk")
        self.shows("\n".join([*written, "A"]))
        self.wait(lambda: "Ctrl-Z takes that back" in self.text("status"))
        self.press("z", CONTROL)
        self.wait_for_lines(*lines[:-1], "DEgF")
        self.put("a")
        self.wait_for_lines(*lines[:-1], "DEgaF")

    def test_a_new_key_ends_what_can_be_done_again(self) -> None:
        self.put("X:1")
        self.wait_for_lines("X:1")
        self.press("z", CONTROL)
        self.wait_for_lines("")
        self.kept()
        self.load()
        self.put("2")
        self.press("y", CONTROL)
        self.press("3")
        self.wait_for_lines("23")
