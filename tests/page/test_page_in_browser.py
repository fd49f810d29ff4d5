"""The page in a real browser. It is skipped if there is none."""

import multiprocessing.util
import os
import random
import signal
import subprocess
import sys
import unittest
from collections.abc import Callable
from contextlib import suppress
from typing import Any, Optional, TypeVar

import browser
import ports
import served_page
import trial
from forked_server import ForkedServer

AREA = "document.querySelector('textarea')"
EDITS = """
const [edits, done] = arguments;
const area = document.querySelector("textarea");
const act = async () => {
  area.focus();
  for (const [at, length, put, pause] of edits) {
    const start = Math.floor(at * (area.value.length + 1));
    area.setSelectionRange(start, Math.min(area.value.length, start + length));
    if (put === null) area.dispatchEvent(new KeyboardEvent("keydown", { key: "z", ctrlKey: true, bubbles: true }));
    else if (put) document.execCommand("insertText", false, put);
    else document.execCommand("delete");
    if (pause) await new Promise((then) => setTimeout(then, pause));
  }
};
act().then(() => done(true), (error) => done(String(error)));
"""
FAULTS = "return [...document.querySelectorAll('mark')].map((mark) => mark.fault).sort((a, b) => a[0] - b[0])"
LINES = "return document.querySelector('.numbers').textContent.trim().split('\\n').map(Number)"
TITLES = """
return [...document.querySelectorAll("[role=option]")].map((row) => {
  return [Number(row.dataset.at), ...[...row.children].map((part) => part.textContent)];
});
"""
ANSWER = """
const button = [...document.querySelectorAll("#notice:not([hidden]) button:enabled")].find((one) => one.textContent === arguments[0]);
button?.click();
return Boolean(button);
"""
HAND = """
const [bytes, done] = arguments;
const waves = [], louds = [];
const ramp = AudioParam.prototype.linearRampToValueAtTime;
const start = OscillatorNode.prototype.start;
AudioParam.prototype.linearRampToValueAtTime = function (value, when) { louds.push(value); return ramp.call(this, value, when); };
OscillatorNode.prototype.start = function (when) { waves.push(this.type); return start.call(this, when); };
const act = async () => {
  const { scoreOf } = await import("./music/midi_file.js");
  const { Player } = await import("./music/player.js");
  const score = scoreOf(new Uint8Array(bytes).buffer);
  const player = new Player();
  await player.play(score);
  player.stop();
  return {
    notes: score.notes.map((note) => [note.voice, note.start, note.end, note.key, note.velocity, note.program]),
    waves, louds, keys: played.map(([_, key]) => key),
  };
};
act().then(done, (error) => done(String(error)));
"""
# Made by hand: a tenth of a second a quarter note. The first voice has program 41 and two notes, of the velocities 30 and
# 127, then at tick 480 program 5 and one of 80; the second, on the next channel, has none and a note of 105.
HAND_MADE = bytes.fromhex(
    "4D546864 00000006 0001 0003 01E0"
    "4D54726B 0000000C 00 FF510301 86A0 8550 FF2F00"
    "4D54726B 00000025 00 C029 00 903C1E 8170 803C40 00 903E7F 8170 803E40 00 C005 00 904050 8170 804040 00 FF2F00"
    "4D54726B 0000000E 00 914369 8170 814340 8360 FF2F00"
)
CONTROL, SHIFT, HOME, END, BACKSPACE, ESCAPE, F8 = "\ue009", "\ue008", "\ue011", "\ue010", "\ue003", "\ue00c", "\ue038"
TUNE = "X:1\nT:Scale\nM:3/4\nL:1/4\nQ:1/4=240\nK:C\nCEG|[Q:1/4=480]c2 z|\n"
TUNES = [line for number in range(1, 101) for line in (f"X:{number}", f"T:Tune {number}", "K:C", "C", "")]
STANDING = """
const area = document.querySelector("textarea");
const from = area.value.lastIndexOf("\\n", area.selectionStart - 1) + 1;
return document.activeElement === area && area.value.slice(from).split("\\n", 1)[0];
"""
SEEN = """
const mark = document.querySelector("mark").getBoundingClientRect();
const view = document.querySelector(".scroller").getBoundingClientRect();
return view.left < mark.left && mark.right < view.right && view.top < mark.top && mark.bottom < view.bottom;
"""
THIEF = """
import socket, sys
with socket.create_server(("127.0.0.1", int(sys.argv[1]))) as server:
    while True:
        with server.accept()[0] as connection:
            print(connection.recv(65536).decode("latin-1"), flush=True)
            connection.sendall(b'HTTP/1.1 200 OK\\r\\nContent-Length: 27\\r\\nConnection: close\\r\\n\\r\\n{"run":"0","proof":"0" }    ')
"""
LACKING = browser.lacking()
Test = TypeVar("Test", bound=Callable[..., None])


def opens_the_page(test: Test) -> Test:
    """Marks a test that opens the page itself, after it wrote the text of the book, so `setUp` does not open it before."""
    setattr(test, "opens_the_page", True)
    return test


class Kept(unittest.TestResult):
    """How one try of a test ended."""

    def __init__(self) -> None:
        super().__init__()
        self.wrong: list[tuple[str, Any]] = []  # how it is reported, and the error

    def addError(self, _: unittest.TestCase, error: Any) -> None:
        self.wrong.append(("addError", error))

    def addFailure(self, _: unittest.TestCase, error: Any) -> None:
        self.wrong.append(("addFailure", error))

    def reason(self) -> str:
        """The first line of what went wrong first."""
        error = self.wrong[0][1][1]
        return f"{type(error).__name__}: {str(error).strip()}".partition("\n")[0]

    def tell(self, test: unittest.TestCase, result: unittest.TestResult) -> None:
        """Tells it as the end of the test. Where the browser itself failed the test counts as skipped."""
        result.startTest(test)
        if self.skipped:
            result.addSkip(test, self.skipped[0][1])
        elif any(browser.broke(error[1]) for _, error in self.wrong):
            result.addSkip(test, f"the browser failed: {self.reason()}")
        elif not self.wrong:
            result.addSuccess(test)
        else:
            for how, error in self.wrong:
                getattr(result, how)(test, error)
        result.stopTest(test)


@unittest.skipIf(LACKING, LACKING)
class Browser(served_page.Page):
    """Someone at the page. A test that fails is tried a second time, in a fresh browser. All tests of a process share one."""

    opening = b""
    is_opened = True  # by `setUp`
    seconds = 10 * trial.SECONDS
    driver: Any = None  # of `Browser` alone, as the next three
    first_window = ""
    starts = 0  # how often in a row no browser started
    port_of_tests: Optional[ports.Reserved] = None

    def run(self, result: Optional[unittest.TestResult] = None) -> Optional[unittest.TestResult]:
        ended = self.tried()
        if ended.wrong:
            print(f"tried again: {self.id()}: {ended.reason()}", flush=True)
            ended = self.tried()
        if result is not None:
            ended.tell(self, result)
        return result

    def tried(self) -> Kept:
        """One try, after which the browser stays where all was well."""
        ended = Kept()
        super().run(ended)
        if ended.wrong:
            self.quit()
        return ended

    @staticmethod
    def quit() -> None:
        """Ends the browser."""
        driver, Browser.driver = Browser.driver, None
        if driver:
            with suppress(Exception):
                driver.quit()

    @classmethod
    def tearDownClass(cls) -> None:
        """Leaves the page, which would ask for its server again and again."""
        if Browser.driver:
            with suppress(Exception):
                Browser.driver.get("about:blank")

    @staticmethod
    def start_browser() -> None:
        """Starts a browser if none is there, which ends with this process. After two failures it is not tried again."""
        if Browser.driver:
            return
        if Browser.starts > 1:
            raise unittest.SkipTest("no browser starts")
        Browser.starts += 1
        Browser.driver = browser.started(is_light=True)
        Browser.first_window = Browser.driver.current_window_handle
        Browser.starts = 0
        multiprocessing.util.Finalize(None, Browser.quit, exitpriority=0)

    def begun(self, words: list[str], environment: dict[str, str], _: int) -> ForkedServer:
        return ForkedServer(words, environment)

    def free_port(self) -> int:
        """The port of all tests of this process, if no server has it now. So the browser caches the files of the page."""
        Browser.port_of_tests = Browser.port_of_tests or ports.Reserved()
        return Browser.port_of_tests.free_number()

    def setUp(self) -> None:
        super().setUp()
        self.start_browser()
        self.forget()
        self.driver.get_log("browser")
        if self.is_opened and not hasattr(getattr(self, self._testMethodName), "opens_the_page"):
            self.load()

    def forget(self) -> None:
        """Closes the windows of the last test, and removes what the browser stored for it. The cached files of the page stay. The
        address without a token shows no page that could store something again."""
        for window in set(self.driver.window_handles) - {Browser.first_window}:
            self.driver.switch_to.window(window)
            self.driver.close()
        self.driver.switch_to.window(Browser.first_window)
        self.driver.get(f"http://127.0.0.1:{self.port}/")
        self.run_script("localStorage.clear(); sessionStorage.clear()")
        self.driver.delete_all_cookies()

    def tearDown(self) -> None:
        """Nothing went wrong in the page, whatever the network did."""
        self.assertEqual(self.run_script("return window.wrong ?? []"), [])
        told = self.driver.get_log("browser")
        self.assertEqual([one for one in told if one["level"] == "SEVERE" and one["source"] != "network"], [])

    def load(self) -> None:
        """Opens the page anew."""
        self.driver.get(self.address)
        self.wait(lambda: self.driver.title.endswith("abc2midi_live") and self.text("name") == "book.abc")

    def wait(self, comes: Callable[[], Any]) -> Any:
        """Waits till something comes about, and gives it; else tells what the page shows."""
        try:
            return browser.wait(comes)
        except AssertionError as error:
            shown = self.run_script("return document.body.innerText.toWellFormed()")  # the driver takes no lone halves
            raise AssertionError(f"{error}; the page shows {shown[:500]!r}") from error

    def run_script(self, script: str, *words: Any) -> Any:
        return self.driver.execute_script(script, *words)

    def text(self, identifier: str) -> str:
        return str(self.run_script("return document.getElementById(arguments[0]).textContent", identifier))

    def type(self, words: str, *held: str) -> None:
        """Types into the text."""
        self.run_script(f"{AREA}.focus()")
        self.press(words, *held)

    def put(self, words: str) -> None:
        """Types words at once, as one step."""
        self.run_script(f"{AREA}.focus(); document.execCommand('insertText', false, arguments[0])", words)

    def press(self, words: str, *held: str) -> None:
        """Presses keys, wherever the focus is, while others are held down."""
        browser.type_keys(self.driver, words, *held)

    def size(self, wide: int, high: int) -> None:
        """Another size of the page, till the end of the test."""
        metrics = {"width": wide, "height": high, "deviceScaleFactor": 1, "mobile": wide < 500}
        self.driver.execute_cdp_cmd("Emulation.setDeviceMetricsOverride", metrics)
        self.addCleanup(lambda: self.driver and self.driver.execute_cdp_cmd("Emulation.clearDeviceMetricsOverride", {}))

    def turn_to(self, window: str) -> None:
        """Goes to a window, which comes to the front."""
        self.driver.switch_to.window(window)
        self.driver.execute_cdp_cmd("Page.bringToFront", {})

    def settled(self, lines: str) -> None:
        """Waits till the server has this text."""
        self.wait(lambda: "\n".join(self.book()["lines"]) == lines)

    def wait_for_lines(self, *lines: str) -> None:
        """Waits till the server has a text of these lines."""
        self.settled("\n".join(lines))

    def answer(self, name: str) -> None:
        """Answers a question, which then is gone."""
        self.wait(lambda: self.run_script(ANSWER, name))

    def roll(self, *words: str) -> None:
        """Waits till the roll says these of the tune that is in it."""
        label = "return document.getElementById('roll').getAttribute('aria-label')"
        self.wait(lambda: all(word in self.run_script(label) for word in words))

    def hear(self, seconds: float, *keys: int) -> None:
        """Moves the clock of the sound on, and waits till just these notes are scheduled so far."""
        self.run_script("clock = arguments[0]", seconds)
        self.wait(lambda: [key for _, key in self.run_script("return played")] == list(keys))

    def kill(self) -> None:
        """Ends the server at once."""
        self.server.send_signal(signal.SIGKILL)
        self.server.wait(trial.SECONDS)

    def question(self) -> Any:
        """The answers to the question that is shown."""
        return self.run_script("return [...document.querySelectorAll('#notice:not([hidden]) button')].map((one) => one.textContent)")

    def shows(self, text: str) -> None:
        """Waits till the page shows this text."""
        self.wait(lambda: self.run_script(f"return {AREA}.value") == text)

    def is_unsaved(self) -> bool:
        return not self.run_script("return document.getElementById('unsaved').hidden")

    def stored(self) -> str:
        """What the browser keeps."""
        return str(self.run_script("return JSON.stringify(localStorage)"))


class Editing(Browser):
    """Typing, hearing, and going about."""

    def test_type_hear_and_save(self) -> None:
        self.type(TUNE)
        self.settled(TUNE)
        self.wait(lambda: self.run_script(TITLES) == [[0, "1", "Scale"]])
        self.assertEqual(self.run_script(FAULTS), [])
        self.type("C -")
        self.wait(lambda: self.run_script(FAULTS) == [[7, 2, 3, "LooseTie"]])
        self.assertIn("Line 8- This tie is not directly after a note", self.text("told"))
        self.type(3 * BACKSPACE)
        self.wait(lambda: self.text("count") == "No faults" and not self.run_script(FAULTS))
        self.roll("2 bars, 0:01", "from C4 to C5")
        self.press(" ", CONTROL)
        self.hear(0, 60)
        self.hear(0.2, 60, 64)
        self.hear(0.45, 60, 64, 67)
        self.hear(0.7, 60, 64, 67, 72)
        self.assertIn("Stop", self.text("play"))
        self.hear(2, 60, 64, 67, 72)
        self.wait(lambda: "Play" in self.text("play"))
        starts = [when for when, _ in self.run_script("return played")]
        self.assertEqual([round(start - starts[0], 3) for start in starts], [0, 0.25, 0.5, 0.75])
        self.assertEqual(self.path.read_bytes(), b"")
        self.press("s", CONTROL)
        self.wait(lambda: self.path.read_text() == TUNE)
        self.load()
        self.wait(lambda: self.run_script(f"return {AREA}.value") == TUNE)

    def test_velocities_and_programs(self) -> None:
        """The page reads and plays them as a file says them."""
        found = self.driver.execute_async_script(HAND, list(HAND_MADE))
        notes = [[0, 0, 240, 60, 30, 41], [1, 0, 240, 67, 105, 0], [0, 240, 480, 62, 127, 41], [0, 480, 720, 64, 80, 5]]
        self.assertEqual(found["notes"], notes)
        self.assertEqual(found["keys"], [60, 67, 62, 64])
        bowed, plucked = "sawtooth", "triangle"
        self.assertEqual(found["waves"], [bowed, plucked, bowed, plucked])
        self.assertEqual(sorted(range(4), key=found["louds"].__getitem__), [0, 3, 1, 2])

    def test_what_dynamics_and_programs_do(self) -> None:
        """They come to the page in the files of the tunes; a program that there is not is marked over its line."""
        text = "X:1\nL:1/4\n%%MIDI program 128\nK:C\n!p!C!f!D"
        self.type(text)
        self.settled(text)
        self.wait(lambda: self.run_script(FAULTS) == [[2, 0, 18, "BadProgram"]])
        self.assertIn("Line 3%%MIDI program 128 There is no program of this number", self.text("told"))
        self.roll("from C4 to D4")

    def test_a_change_while_it_plays(self) -> None:
        self.type("X:1\nM:2/4\nL:1/4\nQ:1/4=20\nK:C\nC2|D2|E2|")
        self.roll("3 bars, 0:18", "from C4 to E4")
        self.press(" ", CONTROL)
        self.hear(0, 60)
        self.hear(7, 60, 62)
        self.type(3 * BACKSPACE + "G2|")
        self.roll("3 bars, 0:18", "from C4 to G4")
        self.hear(13, 60, 62, 67)

    @opens_the_page
    def test_the_mouse(self) -> None:
        """A click goes to the tune of a row: the first one after loading, a second one, and one in whose midst, far down the
        list, another window changes a tune and the list is scrolled a little."""
        self.edit(0, 1, *TUNES)
        self.load()
        for at in (2, 0):
            browser.press_button(self.driver, self.row(at))
            browser.release_button(self.driver)
            self.stands_at(f"X:{at + 1}")
        self.run_script("document.getElementById('list').scrollTop = 60 * document.getElementById('tune-0').offsetHeight")
        browser.press_button(self.driver, self.row(64))
        self.edit(64 * 5 + 1, 64 * 5 + 2, "T:Another title")
        self.wait(lambda: self.row(64).text == "65\nAnother title")
        self.run_script("document.getElementById('list').scrollTop += 9")
        browser.release_button(self.driver)
        self.stands_at("X:65")

    def row(self, at: int) -> Any:
        """Waits for the row at a place of the list."""
        return self.wait(lambda: self.run_script("return document.getElementById(`tune-${arguments[0]}`)", at))

    def stands_at(self, line: str) -> None:
        """Waits till the text has the focus, and the caret is in this line."""
        self.wait(lambda: self.run_script(STANDING) == line)

    @opens_the_page
    def test_the_next_fault(self) -> None:
        """A key goes there, to the side too where its line is longer than the view; another tune begins at the left again."""
        long = 200 * "C " + "&"
        self.edit(0, 1, *TUNES, "X:101", "K:C", long)
        self.load()
        self.row(2)
        self.press(F8)
        self.stands_at(long)
        self.wait(lambda: self.run_script(SEEN))
        self.run_script("document.getElementById('list').scrollTop = 0")
        browser.press_button(self.driver, self.row(2))
        browser.release_button(self.driver)
        self.stands_at("X:3")
        self.assertEqual(self.run_script("return document.querySelector('.scroller').scrollLeft"), 0)

    @opens_the_page
    def test_hints(self) -> None:
        """They are marked in another colour than faults, and told beside them."""
        self.kill()
        self.start(str(self.path), hints=True)
        self.load()
        self.type("X:1\nK:C\nC -&\n")
        self.wait(lambda: self.text("count") == "2 faults" and self.text("hinted") == "1 hint")
        kinds = self.run_script("return [...document.querySelectorAll('mark')].map((mark) => [mark.fault[3], mark.className])")
        self.assertEqual(sorted(kinds), [["BadByte", ""], ["LooseTie", ""], ["Overlay", "hint"]])
        self.assertIn("Line 3, hint& What follows this & is played after", self.text("told"))
        colours = "return ['mark:not(.hint)', 'mark.hint'].map((one) => getComputedStyle(document.querySelector(one)).backgroundColor)"
        self.assertEqual(len(set(self.run_script(colours))), 2)
        self.type("X:2\nK:C\n|:C|")
        self.wait(lambda: self.text("hinted") == "2 hints")

    @opens_the_page
    def test_faults_come_before_hints(self) -> None:
        """The key goes through all faults, then through the hints, then begins again; with Shift it goes back the same way."""
        self.kill()
        self.start(str(self.path), hints=True)
        self.load()
        self.type("X:1\nK:C\n|:C|\n\nX:2\nK:C\nC -\n\nX:3\nK:C\n|:D|\n\nX:4\nK:C\nD -\n")
        self.wait(lambda: self.text("count") == "2 faults" and self.text("hinted") == "2 hints")
        self.press(HOME, CONTROL)
        lines = ["C -", "D -", "|:C|", "|:D|", "C -"]
        for line in lines:
            self.press(F8)
            self.stands_at(line)
        for line in reversed(lines[:-1]):
            self.press(F8, SHIFT)
            self.stands_at(line)

    @opens_the_page
    def test_kinds_of_hints(self) -> None:
        """A kind can be hidden in the book, or in all books, which is kept; a book of many hints says of how many kinds they are."""
        choose = """
            document.getElementById("hinted").click();
            const choice = document.querySelector(`#hints select[aria-label="${arguments[0]}"]`);
            const words = choice.parentElement.querySelector("b").textContent;
            choice.value = arguments[1];
            choice.dispatchEvent(new Event("change"));
            document.getElementById("hints").close();
            return words;
        """
        self.kill()
        self.start(str(self.path), hints=True)
        self.load()
        self.type("X:1\nK:C\n|:C|\n\nX:2\nK:C\n|:D|\n\nX:3\nK:C\nC &D\n")
        self.wait(lambda: self.text("hinted") == "3 hints")
        self.assertEqual(self.run_script(choose, "OpenRepeat", "book"), "OpenRepeat: 2 hints")
        self.wait(lambda: self.text("hinted") == "1 hint")
        self.assertEqual(self.run_script("return document.querySelectorAll('mark.hint').length"), 1)
        self.press("s", CONTROL)
        self.wait(lambda: not self.is_unsaved())
        self.load()
        self.wait(lambda: self.text("hinted") == "1 hint")
        self.run_script(choose, "Overlay", "all")
        self.wait(lambda: self.text("hinted") == "Hints are hidden")
        self.assertEqual(self.run_script("return document.cookie"), "abc2midi_live_hidden_hints=Overlay")
        self.load()
        self.wait(lambda: self.text("hinted") == "Hints are hidden")
        for name in ("OpenRepeat", "Overlay"):
            self.run_script(choose, name, "shown")
        self.wait(lambda: self.text("hinted") == "3 hints")
        self.type("\ue010", CONTROL)
        self.put("".join(f"\nX:{number}\nK:C\n|:C|\n" for number in range(4, 104)))
        self.wait(lambda: self.text("hinted") == "Hints of 2 kinds")

    def test_escape_in_the_text(self) -> None:
        """Where nothing is to be closed it does nothing: what is typed next is in the text."""
        self.type("X:1\nK:C\nC")
        self.settled("X:1\nK:C\nC")
        for words in ("D", "E", " F"):
            self.press(ESCAPE)
            self.press(words)
        self.settled("X:1\nK:C\nCDE F")
        self.assertEqual(self.path.read_bytes(), b"")

    def test_a_number_of_two_tunes(self) -> None:
        self.type("X:1\nK:C\nC\n\nX:1\nK:C\nD")
        self.wait(lambda: self.text("empty") == "Number 1 is used at line 1; this tune has no file.")

    def test_two_windows(self) -> None:
        self.type("X:1\nK:C\nC\nD")
        first = self.driver.current_window_handle
        self.settled("X:1\nK:C\nC\nD")
        self.driver.switch_to.new_window("tab")
        self.load()
        self.wait(lambda: self.text("windows") == "2 windows have this book")
        self.type(HOME, CONTROL)
        self.press("% words\n")
        self.settled("% words\nX:1\nK:C\nC\nD")
        second = self.driver.current_window_handle
        self.turn_to(first)
        self.wait(lambda: self.run_script(f"return {AREA}.value") == "% words\nX:1\nK:C\nC\nD")
        self.wait(lambda: self.text("windows") == "2 windows have this book")
        self.type("E")
        self.settled("% words\nX:1\nK:C\nC\nDE")
        self.turn_to(second)
        self.wait(lambda: self.run_script(f"return {AREA}.value") == "% words\nX:1\nK:C\nC\nDE")
        self.driver.close()
        self.turn_to(first)
        self.wait(lambda: self.run_script("return document.getElementById('windows').hidden"))

    @opens_the_page
    def test_two_windows_in_one_line(self) -> None:
        """What each one types follows what it typed before."""
        self.edit(0, 1, "X:1", "K:C", "CDEF")
        self.load()
        first = self.driver.current_window_handle
        self.driver.switch_to.new_window("tab")
        self.load()
        second = self.driver.current_window_handle
        self.type(END, CONTROL)
        self.press(HOME)
        self.turn_to(first)
        self.type(END, CONTROL)
        line = "CDEF"
        for number in range(8):
            self.turn_to(second)
            self.press("z")
            self.turn_to(first)
            self.press(f"{number}")
            line = f"{'z' * (number + 1)}CDEF{''.join(map(str, range(number + 1)))}"
            self.settled(f"X:1\nK:C\n{line}")
        self.driver.switch_to.window(second)
        self.driver.close()
        self.turn_to(first)
        self.shows(f"X:1\nK:C\n{line}")

    @opens_the_page
    def test_a_letter_that_is_composed(self) -> None:
        """An edit of another window waits for its end, and the composition goes on."""
        self.edit(0, 1, "X:1", "K:C", "T:")
        self.load()
        self.type(END, CONTROL)

        def compose(words: str) -> None:
            selected = {"text": words, "selectionStart": len(words), "selectionEnd": len(words)}
            self.driver.execute_cdp_cmd("Input.imeSetComposition", selected)

        compose("に")
        self.settled("X:1\nK:C\nT:に")
        self.edit(0, 0, "% other")
        compose("にほ")
        self.edit(0, 1, "% another")
        compose("にほん")
        self.shows("X:1\nK:C\nT:にほん")
        self.driver.execute_cdp_cmd("Input.insertText", {"text": "日本"})
        self.settled("% another\nX:1\nK:C\nT:日本")
        self.shows("% another\nX:1\nK:C\nT:日本")
        self.press("C")
        self.settled("% another\nX:1\nK:C\nT:日本C")

    def test_a_book_in_latin1(self) -> None:
        """Its letters are letters, and a button saves it in UTF-8."""
        self.path.write_bytes(b"X:1\nT:Fr\xe8re\nK:C\nC\n")
        self.shows("X:1\nT:Frère\nK:C\nC\n")
        self.wait(lambda: self.run_script(TITLES) == [[0, "1", "Frère"]])
        self.wait(lambda: self.run_script("return document.getElementById('utf-8').checkVisibility()"))
        self.type(END, CONTROL)
        self.run_script("document.execCommand('insertText', false, '% é')")  # one step
        self.press("s", CONTROL)
        self.wait(lambda: self.path.read_bytes() == b"X:1\nT:Fr\xe8re\nK:C\nC\n% \xe9")
        self.run_script("document.getElementById('utf-8').focus()")
        self.press(" ")
        self.wait(lambda: self.path.read_bytes() == "X:1\nT:Frère\nK:C\nC\n% é".encode())
        self.wait(lambda: not self.run_script("return document.getElementById('utf-8').checkVisibility()"))
        self.wait(lambda: self.text("status") == "Saved book.abc in UTF-8." or "by another" not in self.text("status"))
        self.assertEqual(self.run_script("return document.activeElement.tagName"), "TEXTAREA")
        self.press("z", CONTROL)
        self.settled("X:1\nT:Frère\nK:C\nC\n")

    def test_random_edits(self) -> None:
        """After edits at random the page's faults and titles are those of a fresh run."""
        chance = random.Random(trial.seed)
        tunes = [trial.random_tune(chance, number + 1) for number in range(4)]
        edits = [[0, 0, "\n".join(line for tune in tunes for line in tune), 0]]
        for _ in range(trial.changes):
            kind = chance.random()
            put: Optional[str] = chance.choice([trial.random_line(chance), "\n", "C", f"\n\nX:{chance.randrange(9)}\nT:New\nK:D\nD-|&\n", "\u00e9-"])
            put = None if kind < 0.1 else "" if kind < 0.45 else put
            edits.append([chance.random(), chance.choice([0, 0, 1, 3, 30]), put, chance.choice([0, 0, 5, 50])])
        for at in range(0, len(edits), 20):
            self.assertEqual(self.driver.execute_async_script(EDITS, edits[at : at + 20]), True)
        self.settled(self.run_script(f"return {AREA}.value"))
        book = self.book()
        lines = self.run_script(LINES)
        fresh = trial.fresh("\n".join(book["lines"]).encode())
        self.assertEqual([(line + 1, name) for line, _, _, name in book["faults"]], [(line, name) for line, _, name in fresh.faults])
        self.wait(lambda: self.run_script(FAULTS) == [fault for fault in book["faults"] if fault[0] + 1 in lines])
        titles = [[at, str(tune[1]), tune[2] or "(no title)"] for at, tune in enumerate(book["tunes"])]
        self.wait(lambda: self.shows_some_of(titles))
        self.assertTrue(titles or not fresh.files)

    def shows_some_of(self, titles: list[Any]) -> bool:
        """Whether the list shows the titles of its places, and at least one if there is one."""
        shown = self.run_script(TITLES)
        return bool(shown or not titles) and shown == [titles[row[0]] for row in shown if row[0] < len(titles)]


class Losing(Browser):
    """Text that could be lost: the server is away, the book changes, or somebody asks who may not."""

    def test_the_server_is_away(self) -> None:
        self.type("X:1\nK:C\nC")
        self.settled("X:1\nK:C\nC")
        self.kill()
        self.type("DE")
        away = "The server is away", "kept in this browser"
        self.wait(lambda: all(words in self.text("status") for words in away))
        self.wait(lambda: "CDE" in self.run_script("return JSON.stringify(localStorage)"))
        self.start(str(self.path), port=str(self.port))
        self.settled("X:1\nK:C\nCDE")
        self.wait(lambda: self.run_script("return localStorage.length") == 0)
        self.kill()
        self.path.write_bytes(b"X:9\n")
        self.start(str(self.path), port=str(self.port))
        self.answer("Keep this window's text")
        self.settled("X:1\nK:C\nCDE")
        self.assertEqual(self.path.read_bytes(), b"X:9\n")

    def test_a_page_of_which_a_part_does_not_come(self) -> None:
        """It is loaded again. If that fails too the page says so, and takes no text that nobody would keep."""
        seen = "return document.getElementById('loading').checkVisibility({ visibilityProperty: true })"
        is_hidden = "return document.getElementById('loading').hidden"  # else it comes after five seconds
        self.assertTrue(self.run_script(is_hidden))
        self.run_script("sessionStorage.setItem('abc2midi_live loads', '3')")
        self.driver.execute_cdp_cmd("Network.enable", {})
        self.driver.execute_cdp_cmd("Network.setBlockedURLs", {"urls": ["*/midi_file.js"]})
        self.driver.get(self.address)
        self.wait(lambda: self.run_script(seen))
        self.type("C")
        self.assertEqual(self.run_script(f"return {AREA}.value"), "")
        self.run_script("sessionStorage.setItem('abc2midi_live loads', '2')")
        self.driver.get(self.address)
        self.driver.execute_cdp_cmd("Network.setBlockedURLs", {"urls": []})
        self.wait(lambda: self.run_script(f"return !{AREA}.readOnly"))
        self.assertTrue(self.run_script(is_hidden))
        self.type("C")
        self.settled("C")

    def test_the_caret_after_a_restart(self) -> None:
        """It stays with its text: what is typed on follows what was typed last."""
        self.type("X:1\nK:C\nC")
        self.settled("X:1\nK:C\nC")
        self.press("s", CONTROL)
        self.wait(lambda: not self.is_unsaved())
        self.press("\nDEF\nG")
        self.settled("X:1\nK:C\nC\nDEF\nG")
        self.kill()
        self.press("A")
        self.wait(lambda: "GA" in self.stored())
        self.start(str(self.path), port=str(self.port))
        self.settled("X:1\nK:C\nC\nDEF\nGA")
        self.press("B")
        self.settled("X:1\nK:C\nC\nDEF\nGAB")

    def test_text_of_an_earlier_window(self) -> None:
        self.type("X:1\nK:C\nC")
        self.settled("X:1\nK:C\nC")
        self.kill()
        self.wait(lambda: "nC" in self.run_script("return JSON.stringify(localStorage)"))
        self.driver.get("about:blank")
        self.start(str(self.path), port=str(self.port))
        self.load()
        self.answer("Take it")
        self.settled("X:1\nK:C\nC")

    def test_text_of_a_window_that_was_closed(self) -> None:
        """The server had it, so nothing is asked when the page is loaded again."""
        self.type("X:1\nK:C\nC")
        self.settled("X:1\nK:C\nC")
        first = self.driver.current_window_handle
        self.driver.switch_to.new_window("window")
        self.load()
        self.shows("X:1\nK:C\nC")
        self.driver.close()
        self.driver.switch_to.window(first)
        self.wait(lambda: "nC" in self.stored())
        self.type("DE")
        self.settled("X:1\nK:C\nCDE")
        self.load()
        self.shows("X:1\nK:C\nCDE")
        self.assertEqual(self.question(), [])

    def test_the_book_on_disk_was_changed(self) -> None:
        """What another program writes is shown, and can be undone; if text is unsaved the page asks which one to take."""
        self.type("X:1\nK:C\nC")
        self.settled("X:1\nK:C\nC")
        self.press("s", CONTROL)
        self.wait(lambda: self.text("status") == "Saved book.abc.")
        self.path.write_bytes(b"X:1\nK:C\nCDE")
        self.shows("X:1\nK:C\nCDE")
        self.assertEqual(self.question(), [])
        self.press("z", CONTROL)
        self.shows("X:1\nK:C\nC")
        self.settled("X:1\nK:C\nC")
        self.path.write_bytes(b"another's")
        self.wait(self.question)
        self.assertEqual(self.question(), ["Save this text over it", "Load the book from disk", "Decide later", "Show the differences"])
        self.assertEqual(self.run_script("return document.activeElement.tagName"), "TEXTAREA")
        self.answer("Decide later")
        self.wait(lambda: self.text("later") == "1 question")
        self.run_script("document.getElementById('later').focus()")
        self.press(" ")
        self.answer("Decide later")
        self.assertEqual(self.run_script("return document.activeElement.tagName"), "TEXTAREA")
        self.press("s", CONTROL)
        self.answer("Load the book from disk")
        self.shows("another's")
        self.assertEqual((self.path.read_bytes(), self.question()), (b"another's", []))
        self.press("z", CONTROL)
        self.shows("X:1\nK:C\nC")
        self.settled("X:1\nK:C\nC")
        self.path.write_bytes(b"once more")
        self.answer("Save this text over it")
        self.wait(lambda: self.path.read_bytes() == b"X:1\nK:C\nC")
        self.wait(lambda: not self.is_unsaved() and not self.question())

    def test_a_loaded_page_shows_the_book_on_disk(self) -> None:
        self.type("X:1")
        self.settled("X:1")
        self.press("s", CONTROL)
        self.wait(lambda: not self.is_unsaved())
        self.path.write_bytes(b"X:2")
        self.load()
        self.assertEqual(self.run_script(f"return {AREA}.value"), "X:2")

    def test_unsaved(self) -> None:
        """It shows as soon as something is typed, and no more when the text is again what was saved."""
        self.type("C")
        self.settled("C")
        self.press("s", CONTROL)
        self.wait(lambda: not self.is_unsaved())
        self.server.send_signal(signal.SIGSTOP)
        self.press("D")
        self.assertTrue(self.is_unsaved())
        self.server.send_signal(signal.SIGCONT)
        self.settled("CD")
        self.assertTrue(self.is_unsaved())
        self.press(BACKSPACE)
        self.settled("C")
        self.wait(lambda: not self.is_unsaved())

    def test_two_questions(self) -> None:
        """The text of one question survives the other: the server is away, text is typed, the book changes, the server is there
        again, and the book changes once more."""
        self.type("X:1\nK:C\nC")
        self.settled("X:1\nK:C\nC")
        self.press("s", CONTROL)
        self.wait(lambda: not self.is_unsaved())
        self.kill()
        self.type("DEF")
        self.wait(lambda: "CDEF" in self.stored())
        self.path.write_bytes(b"X:2\nK:C\nG")
        self.start(str(self.path), port=str(self.port))
        self.wait(self.question)
        self.shows("X:2\nK:C\nG")
        self.press("s", CONTROL)
        self.assertIn("answer the question first", self.text("status"))
        self.type("A")
        self.settled("X:2\nK:C\nGA")
        self.path.write_bytes(b"X:3\nK:C\nB")
        self.wait(lambda: "1 more question" in self.text("notice"))
        self.press("s", CONTROL)
        self.assertEqual(self.path.read_bytes(), b"X:3\nK:C\nB")
        self.answer("Decide later")
        self.wait(lambda: "Another program changed" in self.text("notice"))
        self.answer("Decide later")
        self.type("B")
        self.settled("X:2\nK:C\nGAB")
        self.assertIn("CDEF", self.stored())
        self.press("s", CONTROL)
        self.answer("Keep this window's text")
        self.settled("X:1\nK:C\nCDEF")
        self.press(END, CONTROL)
        self.press("G")
        self.settled("X:1\nK:C\nCDEFG")
        self.press("s", CONTROL)
        self.answer("Save this text over it")
        self.wait(lambda: self.path.read_bytes() == b"X:1\nK:C\nCDEFG")

    def test_whoever_takes_the_port(self) -> None:
        """The page sends it no token and no text, and goes on when the server is back."""
        self.type("X:1\nK:C\nC")
        self.settled("X:1\nK:C\nC")
        self.kill()
        requests = self.folder / "requests"
        with requests.open("w") as written:
            thief = subprocess.Popen([sys.executable, "-c", THIEF, str(self.port)], stdout=written)
        self.limit(thief)
        self.wait(lambda: "another program has its port" in self.text("status"))
        self.type("secret")
        proofs = requests.read_text().count("GET /proof/")
        self.wait(lambda: requests.read_text().count("GET /proof/") >= proofs + 2)  # so the page has read an answer since
        thief.terminate()
        thief.wait(trial.SECONDS)
        asked = requests.read_text()
        self.assertEqual((self.token in asked, "secret" in asked, asked.count("POST")), (False, False, 0))
        self.start(str(self.path), port=str(self.port))
        self.settled("X:1\nK:C\nCsecret")
        self.assertIn(self.token, self.driver.current_url)

    def test_many_windows(self) -> None:
        """Seven windows of one browser can type and save."""
        first = self.driver.current_window_handle
        for _ in range(6):
            self.driver.switch_to.new_window("tab")
            self.load()
        for count, window in enumerate(reversed(self.driver.window_handles)):
            self.turn_to(window)
            if window != first:
                self.shows(count * "C")
                self.type("C")
                self.wait(lambda: self.text("status").startswith("no file changed"))
                self.press("s", CONTROL)
                self.wait(lambda: self.text("status") == "Saved book.abc.")
                self.driver.close()
        self.turn_to(first)
        self.shows("CCCCCC")
        self.assertEqual(self.path.read_bytes(), b"CCCCCC")

    def test_a_save_that_is_refused(self) -> None:
        """The reason is shown, and the text can be had."""
        self.type("C")
        self.settled("C")
        self.path.chmod(0o444)
        self.press("s", CONTROL)
        self.wait(lambda: self.question() == ["Download the text", "Close"])
        self.assertIn("the file is read-only", self.text("notice"))
        self.path.chmod(0o644)
        self.answer("Close")
        self.press("s", CONTROL)
        self.wait(lambda: self.path.read_bytes() == b"C")
