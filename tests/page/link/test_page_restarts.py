"""Typing while the server of the page ends and begins again, while another window types, and while the book is saved, in a real browser.

LONG_LOOPS=1 in the environment has the loops go on: a thousand pairs of keys, four hundred saves, and more restarts."""

import os
import random
import time
from typing import Any

import test_page_in_browser
import trial
from browser_keys import CONTROL
from test_page_in_browser import AREA

END = 1_000_000  # of a line
IS_LONG = bool(os.environ.get("LONG_LOOPS"))
PAIRS, SAVES, TIMES = (1000, 400, 3) if IS_LONG else (12, 12, 1)
TYPING = """
const [words, line, column, pause] = arguments, area = document.querySelector("textarea");
const lines = area.value.split("\\n"), at = lines.slice(0, line).join("\\n").length + 1 + Math.min(column, lines[line].length);
area.focus();
area.setSelectionRange(at, at);
window.typed = "";
window.types = true;
const next = () => {
  if (!window.types) return;
  const letter = words[window.typed.length % words.length];
  window.typed += letter;
  document.execCommand("insertText", false, letter);
  setTimeout(next, pause);
};
next();
"""  # types letters again and again, from a place on or from the end of a line, with a pause after each
CARET = """
const [line, column] = arguments, area = document.querySelector("textarea");
const at = area.value.split("\\n").slice(0, line).join("\\n").length + 1 + column;
area.focus();
area.setSelectionRange(at, at);
"""  # puts the caret at a place
KEY = """
const [letter, when] = arguments;
setTimeout(() => document.execCommand("insertText", false, letter), when - Date.now());
"""  # types a letter at a time of the clock
SAVING = """
const [rounds, done] = arguments, area = document.querySelector("textarea"), had = [];
const pause = (time) => new Promise((then) => setTimeout(then, time));
const type = (letter) => {
  document.execCommand("insertText", false, letter);
  had.push(area.value);
};
const act = async () => {
  area.focus();
  for (const [letters, before, between] of rounds) {
    type(letters[0]);
    await pause(before);
    area.dispatchEvent(new KeyboardEvent("keydown", { key: "s", ctrlKey: true, bubbles: true }));
    await pause(between);
    type(letters[1]);
  }
};
act().then(() => done(had), (error) => done([String(error)]));
"""  # types a letter, saves, and types another one, with pauses between; the texts that the area had
VALUE = f"return {AREA}.value"


class Typing(test_page_in_browser.Browser):
    """Windows that type by themselves."""

    is_slow = True

    def begin_again(self, pause: float) -> None:
        """Kills the server, and starts it a moment later."""
        self.kill()
        time.sleep(pause)
        self.start(str(self.path), port=str(self.port))

    def typed(self, *windows: str) -> list[str]:
        """What windows typed till a moment after the server is there again. Then they stop."""
        for window in windows:
            self.driver.switch_to.window(window)
            self.wait(lambda: not self.run_script("return document.getElementById('status').classList.contains('away')"))
        time.sleep(0.7)
        found = []
        for window in windows:
            self.driver.switch_to.window(window)
            found.append(str(self.run_script("window.types = false; return window.typed")))
        return found

    def no_question(self, *windows: str) -> None:
        """No window has a question."""
        for window in windows:
            self.turn_to(window)
            shown = self.run_script("return [document.getElementById('notice').hidden, document.getElementById('later').hidden]")
            self.assertEqual((shown, self.question()), ([True, True], []))

    def second_window(self) -> tuple[str, str]:
        """Opens another window over the book. Both are seen, so the browser lets neither wait."""
        first = self.driver.current_window_handle
        self.driver.switch_to.new_window("window")
        self.load()
        second = self.driver.current_window_handle
        self.addCleanup(self.close_window, second, first)
        self.turn_to(first)
        return first, second

    def close_window(self, window: str, other: str) -> None:
        """Closes a window, and goes to another one."""
        if self.driver:
            self.driver.switch_to.window(window)
            self.driver.close()
            self.driver.switch_to.window(other)


class Restarts(Typing):
    """The server is killed, and started again at the same port."""

    opening = b"X:1\nK:C\nCDEF\n\nX:2\nK:D\nDEFG\n"

    def test_one_of_two_windows_types(self) -> None:
        """Text is unsaved in both, so both have it when the server comes back without it."""
        first, second = self.second_window()
        line = "CDEFGAB"
        self.edit(2, 3, line)
        self.shows(f"X:1\nK:C\n{line}\n\nX:2\nK:D\nDEFG\n")
        for letters in ("abcdefg", "0123456789", "ABCDEFGA")[:TIMES]:
            self.run_script(TYPING, letters, 2, END, 25)
            self.begin_again(0.2)
            line += self.typed(first)[0]
            self.wait_for_lines("X:1", "K:C", line, "", "X:2", "K:D", "DEFG", "")
            self.assertEqual(self.run_script(VALUE).split("\n")[2], line)
        self.no_question(first, second)
        self.wait(lambda: self.run_script(VALUE).split("\n")[2] == line)

    def test_both_windows_type(self) -> None:
        """In two lines, and then in one line."""
        first, second = self.second_window()
        one, other = "CDEF", "DEFG"
        for mine, theirs in [("abcdefg", "GFEDCBA"), ("0123456789", "zyxw")][:TIMES]:
            self.turn_to(second)
            self.run_script(TYPING, theirs, 6, END, 45)
            self.turn_to(first)
            self.run_script(TYPING, mine, 2, END, 40)
            self.begin_again(0.2)
            mine, theirs = self.typed(first, second)
            one, other = one + mine, other + theirs
            self.wait_for_lines("X:1", "K:C", one, "", "X:2", "K:D", other, "")
        self.turn_to(second)
        self.run_script(TYPING, "x", 2, 0, 45)
        self.turn_to(first)
        self.run_script(TYPING, "y", 2, END, 40)
        self.begin_again(0.2)
        mine, theirs = self.typed(first, second)
        self.wait_for_lines("X:1", "K:C", f"{theirs}{one}{mine}", "", "X:2", "K:D", other, "")
        self.no_question(first, second)

    def test_slow_answers(self) -> None:
        """Each takes a quarter of a second."""
        line, window = "CDEF", self.driver.current_window_handle
        network = {"offline": False, "latency": 250, "downloadThroughput": -1, "uploadThroughput": -1}
        self.driver.execute_cdp_cmd("Network.enable", {})
        self.driver.execute_cdp_cmd("Network.emulateNetworkConditions", network)
        self.addCleanup(lambda: self.driver and self.driver.execute_cdp_cmd("Network.emulateNetworkConditions", {**network, "latency": 0}))
        for letters in ("abcdefg", "0123456789") * TIMES:
            self.run_script(TYPING, letters, 2, END, 110)
            self.begin_again(0.2)
            line += self.typed(window)[0]
            self.wait_for_lines("X:1", "K:C", line, "", "X:2", "K:D", "DEFG", "")
        self.no_question(window)

    @test_page_in_browser.opens_the_page
    def test_a_long_book(self) -> None:
        """Its text takes a while to come."""
        tunes = [line for number in range(1, 3601) for line in (f"X:{number}", f"T:Tune {number} of a long book", "K:C", "CDEF GABc|" * 11, "")]
        self.kill()
        self.path.write_text("\n".join(tunes))
        self.start(str(self.path), port=str(self.port))
        self.load()
        first, second = self.second_window()
        self.run_script(TYPING, "abcdefg", 3, END, 25)
        time.sleep(0.5)
        self.begin_again(0.2)
        tunes[3] += self.typed(first)[0]
        self.wait_for_lines(*tunes)
        self.no_question(first, second)


class Races(Typing):
    """Keys and saves at chosen moments."""

    opening = b"X:1\nK:C\nCDEFGAB\n"

    def test_pairs_of_keys_in_one_line(self) -> None:
        """Each letter lands where it was typed."""
        first, second = self.second_window()
        chance = random.Random(trial.seed)
        for _ in range(PAIRS):
            right = chance.randrange(1, 8)
            left = chance.randrange(right)
            for window, column in ((first, right), (second, left)):
                self.driver.switch_to.window(window)
                self.run_script(CARET, 2, column)
            when = time.time() * 1000 + 30
            self.run_script(KEY, "x", when + chance.uniform(-15, 15))
            self.driver.switch_to.window(first)
            self.run_script(KEY, "1", when)
            wanted = f"X:1\nK:C\n{'CDEFGAB'[:left]}x{'CDEFGAB'[left:right]}1{'CDEFGAB'[right:]}\n"
            for window in (first, second):
                self.driver.switch_to.window(window)
                self.shows(wanted)
            self.settled(wanted)
            self.edit(2, 3, "CDEFGAB")
            for window in (first, second):
                self.driver.switch_to.window(window)
                self.shows(self.opening.decode())

    def test_saves_while_keys_are_typed(self) -> None:
        """The file has a text that the window had, and 'unsaved' is right in each window."""
        first, second = self.second_window()
        chance, had = random.Random(trial.seed), {self.opening.decode()}
        for start in range(0, SAVES, 4):
            rounds = [["ab", chance.randrange(51), chance.randrange(51)] for _ in range(min(4, SAVES - start))]
            self.driver.switch_to.window(first)
            texts: list[Any] = self.driver.execute_async_script(SAVING, rounds)
            had.update(texts)
            self.settled(texts[-1])
            self.wait(lambda: self.run_script("return document.getElementById('status').textContent") != "")
            for window in (first, second):
                self.driver.switch_to.window(window)
                self.shows(texts[-1])
                self.wait(self.is_mark_right)
            self.assertIn(self.path.read_text(), had)
        self.driver.switch_to.window(first)
        self.press("s", CONTROL)
        self.wait(lambda: self.path.read_text() == self.run_script(VALUE) and not self.is_unsaved())

    def is_mark_right(self) -> bool:
        """Whether 'unsaved' shows just if the file has another text."""
        text: str = self.run_script(VALUE)
        return bool(self.is_unsaved()) == (self.path.read_text() != text)
