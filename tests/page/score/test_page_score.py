"""The score in the page: what its server answers, and what a browser shows. It needs `abcm2ps`."""

import base64
import os
import re
import shutil
import unittest
from collections.abc import Iterable, Iterator
from contextlib import contextmanager
from functools import partial
from typing import Any, Optional
from unittest import mock

import browser
import served_page
import test_page_in_browser
from abc2midi_live_clients.common.json_object import Json
from abc2midi_live_clients.page.score.scorer import INSTALL

DRAWS = shutil.which("abcm2ps")
TUNE = 'X:1\nT:Scale\nM:3/4\nL:1/4\nK:C\nCEG|"é𝄞"c2 z|\n'
EVIL = '<script>window.evil = 1</script><img src=x onerror="window.evil = 1"> --><text x="1">evil</text><!--'
NOTES = "return [...document.querySelectorAll('#score .score-place')].map(({ note }) => [note.line, note.column, note.length, note.kind])"
HERE = "return [...document.querySelectorAll('#score .score-here')].map(({ note }) => [note.line, note.column])"
WHY = "return document.querySelector('#score .why')?.textContent"
GONE = """
const area = document.querySelector("textarea");
return [area.selectionStart, document.activeElement === area, document.getElementById("status").textContent];
"""
DOUBT = "const one = document.getElementById('doubt'); return one.checkVisibility() ? one.title : null"
CARET = """
const area = document.querySelector("textarea");
const before = area.value.slice(0, area.selectionStart).split("\\n");
return document.activeElement === area && [before.length - 1, before.at(-1).length];
"""
LINE = """
const line = document.querySelector("#score .score-line")?.getBoundingClientRect(), view = document.getElementById("score").getBoundingClientRect();
const x = line && (line.left + line.right) / 2;
const crossed = ({ left, right, top, bottom }) => left <= x && x <= right && top >= line.top && bottom <= line.bottom;
const found = [...document.querySelectorAll("#score .score-place")].find((one) => crossed(one.getBoundingClientRect()))?.note;
return line ? [found?.line, found?.column, view.top <= line.bottom && line.top <= view.bottom] : null;
"""
STRANGE = """
const known = new Set(["svg", "g", "defs", "path", "ellipse", "circle", "line", "rect", "text", "tspan", "use"]);
const all = [...document.querySelectorAll("#score *")];
const attributes = all.flatMap((one) => one.getAttributeNames()).filter((name) => /^on|^style$|:/.test(name));
return [all.map((one) => one.localName).filter((name) => !known.has(name)), attributes, window.evil ?? null];
"""
HOLD = """
const plain = window.fetch;
window.held = [];
window.fetch = (path, options) => {
  const answer = plain(path, options);
  return path.endsWith("/score") ? answer.then((one) => new Promise((done) => held.push(() => done(one)))) : answer;
};
"""
ASKED = """
const plain = window.fetch;
window.asked = 0;
window.fetch = (path, options) => {
  if (path.endsWith("/score")) window.asked += 1;
  return plain(path, options);
};
"""  # counts the questions for a drawing
BUSY = """
const score = document.getElementById("score"), svg = score.querySelector("svg");
return [score.getAttribute("aria-busy"), Number(getComputedStyle(svg).opacity)];
"""
WHY_SIZE = "return [document.querySelector('#score .why'), document.body].map((one) => getComputedStyle(one).fontSize)"
PIXELS = """
const [shot, done] = arguments;
const { left, top, width, height } = document.querySelector("#score svg").getBoundingClientRect();
const picture = new Image();
picture.onload = () => {
  const canvas = new OffscreenCanvas(picture.width, picture.height), pen = canvas.getContext("2d");
  pen.drawImage(picture, 0, 0);
  const { data } = pen.getImageData(left, top, width, Math.min(height, innerHeight - top));
  const lights = Array.from({ length: data.length / 4 }, (_, n) => data[4 * n] + data[4 * n + 1] + data[4 * n + 2]);
  lights.sort((a, b) => a - b);
  done([lights[0], lights[lights.length >> 1], lights.at(-1)]);
};
picture.src = `data:image/png;base64,${shot}`;
"""
SEEN_ON_PAPER = """
return [...document.querySelectorAll("body *")].filter((one) => {
  return one.checkVisibility() && ["CANVAS", "TEXTAREA", "BUTTON", "HEADER", "FOOTER", "NAV", "svg"].includes(one.tagName);
}).map((one) => one.tagName);
"""


class Programs(served_page.Page):
    """A server that finds another `abcm2ps`, or none."""

    drawing: Optional[str] = None  # the script of an `abcm2ps`; empty for none

    def start(self, *words: str, **more: Any) -> None:
        found = self.folder / "bin"
        found.mkdir(exist_ok=True)
        if self.drawing is not None:
            self.draw_by(self.drawing)
        path = os.environ["PATH"] if self.drawing is None else str(found)
        with mock.patch.dict(os.environ, {"PATH": path}):
            super().start(*words, **more)

    def draw_by(self, script: str) -> None:
        """Makes a script the `abcm2ps` that the server finds."""
        program = self.folder / "bin/abcm2ps"
        if script:
            program.write_text(f"#!/bin/sh\n{script}\n")
            program.chmod(0o755)
        else:
            program.unlink(missing_ok=True)


class Requests(Programs):
    """What the server answers."""

    is_slow = True  # waits till a drawing takes too long
    drawing = "exec sleep 1000"

    def test_who_may_ask(self) -> None:
        """Those with the token alone."""
        question = {"header": [], "tune": ["X:1", "K:C"], "width": 600}
        for path in ("/score", f"/{self.token[:-1]}/score", "/x/score"):
            self.assertEqual(self.request("", question, path=path)[0], 403)
        strange: list[dict[str, str]] = [{"Host": "example.org"}, {"Origin": "http://example.org"}]
        for headers in strange:
            self.assertEqual(self.request("score", question, headers)[0], 403)
        self.assertEqual(self.request("score")[0], 404)

    def test_questions_that_are_none(self) -> None:
        wrong: list[Json] = [{"tune": "X:1"}, {"tune": [1]}, {"tune": None}, {"header": {}}]
        wrong += [{"width": "1"}, {"width": True}, {"width": 1.5}, {"width": []}]
        for more in wrong:
            self.assertEqual(self.ask("score", {"header": [], "tune": ["K:C"], "width": 600, **more})["status"], 400, more)
        self.assertEqual(self.ask("score", {})["status"], 400)

    def test_a_program_that_hangs(self) -> None:
        """Other requests are answered meanwhile, and a server that is asked to end leaves nothing."""
        question = {"header": [], "tune": ["X:1", "K:C", "C"], "width": 600}
        self.assertIn("took too long", self.ask("score", question)["why"])
        self.finish()

    def test_no_program(self) -> None:
        self.draw_by("")
        question = {"header": [], "tune": ["X:1", "K:C", "C"], "width": 600}
        self.assertEqual(self.ask("score", question), {"why": INSTALL, "missing": True})
        self.finish()


@unittest.skipIf(not DRAWS, "abcm2ps is not installed")
class Staves(test_page_in_browser.Browser):
    """The score that `abcm2ps` draws."""

    def notes(self, *wanted: Iterable[Any]) -> None:
        """Waits till these notes are drawn."""
        self.wait(lambda: self.run_script(NOTES) == [list(note) for note in wanted])

    def here(self, *wanted: Iterable[Any]) -> None:
        """Waits till these notes are marked as that of the caret."""
        self.wait(lambda: self.run_script(HERE) == [list(place) for place in wanted])

    def caret_is(self, place: list[int]) -> None:
        """Waits till the caret is at a place."""
        self.wait(lambda: self.run_script(CARET) == place)

    def click(self, at: int) -> None:
        """Clicks a note."""
        browser.press_button(self.driver, self.run_script("return document.querySelectorAll('#score .score-place')[arguments[0]]", at))
        browser.release_button(self.driver)

    def test_a_tune(self) -> None:
        """It appears, follows an edit and other tunes, and what is edited before it."""
        self.type(TUNE)
        first = [(5, 0, 1, "note"), (5, 1, 1, "note"), (5, 2, 1, "note"), (5, 9, 2, "note"), (5, 12, 1, "rest")]
        self.notes(*first)
        self.assertIn("Scale", self.text("score"))
        self.edit(0, 0, "% one more line", "")
        self.notes(*[(line + 2, *more) for line, *more in first])
        self.type("\ue011", test_page_in_browser.CONTROL)
        self.type("X:2\nK:C\n[CE]2^f,\n\n")
        self.notes((2, 0, 5, "note"), (2, 5, 3, "note"))

    def test_places(self) -> None:
        """A click goes to a note's place; the note at the caret, or the one before it, is marked, and no other."""
        self.type(TUNE)
        self.wait(lambda: len(self.run_script(NOTES)) == 5)
        self.here()
        for at, place in ((3, [5, 9]), (0, [5, 0]), (4, [5, 12])):
            self.click(at)
            self.caret_is(place)
            self.here(place)
        self.press("\ue012")
        self.here([5, 9])
        self.press(3 * "\ue012")
        self.here([5, 2])
        self.press(6 * "\ue012")
        self.here([5, 1])
        self.press("\ue013")
        self.here()

    @test_page_in_browser.opens_the_page
    def test_a_line_of_playback(self) -> None:
        """It goes through the notes that sound, stays in view, and goes with the sound."""
        self.edit(0, 1, "X:1", "M:4/4", "L:1/4", "K:C", *(["CDEF|GABc|"] * 12))
        self.load()
        self.roll("1")
        self.wait(lambda: len(self.run_script(NOTES)) == 96)
        self.assertIsNone(self.run_script(LINE))
        self.run_script("document.getElementById('play').click()")
        for seconds, place in ((0.2, [4, 0]), (0.7, [4, 1]), (40.2, [14, 0])):
            self.run_script("clock = arguments[0]", seconds)
            self.wait(partial(self.is_line_at, place))
        self.run_script("document.getElementById('play').click()")
        self.wait(lambda: self.run_script(LINE) is None)

    def is_line_at(self, place: list[int]) -> bool:
        """Whether the line of playback is at a place, and in view."""
        return bool(self.run_script(LINE) == [*place, True])

    def test_an_answer_that_comes_late(self) -> None:
        """What was asked for an older text is not drawn over a newer one."""
        self.run_script(HOLD)
        self.type("X:1\nK:C\nC")
        self.wait(lambda: self.run_script("return held.length") == 1)
        self.type("D")
        self.settled("X:1\nK:C\nCD")
        self.run_script("held.shift()()")
        self.wait(lambda: self.run_script("return held.length") == 1)
        self.assertEqual(self.run_script(NOTES), [])
        self.run_script("held.shift()()")
        self.notes((2, 0, 1, "note"), (2, 1, 1, "note"))

    def test_texts_are_no_elements(self) -> None:
        """Nothing of a tune becomes an element of the page, nor an attribute that does something."""
        tune = f'X:1\nT:{EVIL}\nC:{EVIL}\nM:3/4\nK:C\n"^{EVIL.replace(chr(34), "")}"CDE|\nw:{EVIL.replace(" ", "~")}\nW:{EVIL}'
        self.edit(0, 1, *tune.split("\n"))
        self.wait(lambda: len(self.run_script(NOTES)) == 3)
        self.assertEqual(self.run_script(STRANGE), [[], [], None])
        self.assertEqual(self.text("score").count("<script>window.evil = 1</script>"), 5)

    def test_why_there_is_none(self) -> None:
        self.type("X:1\n")
        self.wait(lambda: self.run_script(WHY) == "abcm2ps draws no tune that has no K: line.")
        self.type("K:C\n")
        self.wait(lambda: self.run_script(WHY) == "This tune has no notes to draw.")
        size, usual = self.run_script(WHY_SIZE)
        self.assertEqual(size, usual)
        self.type("C")
        self.notes((2, 0, 1, "note"))
        self.assertIsNone(self.run_script(WHY))

    def test_a_tune_with_faults(self) -> None:
        """A sign above its score says that the sound may differ, till the faults are gone. It takes no room of the score, and is not on paper.
        A click on it goes to the fault."""
        self.type("X:1\nK:C\nC -D")
        self.notes((2, 0, 1, "note"), (2, 3, 1, "note"))
        self.wait(lambda: self.run_script(DOUBT) == "This tune has faults. The score may differ from what you hear.")
        with self.media(media="print"):
            self.assertIsNone(self.run_script(DOUBT))
        self.assertEqual(self.run_script("return document.getElementById('score').innerText.includes('faults')"), False)
        self.driver.find_element("id", "doubt").click()
        self.assertEqual(self.run_script(GONE), [len("X:1\nK:C\nC "), True, "This tune has faults. The score may differ from what you hear."])
        self.type("\ue010")
        self.type("\ue003\ue003")
        self.notes((2, 0, 1, "note"))
        self.wait(lambda: self.run_script(DOUBT) is None)

    def test_light_dark_and_paper(self) -> None:
        """The score has the colour of the text; on paper it is black on white, and alone."""
        self.type(TUNE)
        self.wait(lambda: len(self.run_script(NOTES)) == 5)
        for scheme in ("light", "dark"):
            with self.media(features=[{"name": "prefers-color-scheme", "value": scheme}]):
                darkest, most, lightest = self.pixels()
                self.assertLess(darkest, 300)
                self.assertGreater(lightest, 450)
                self.assertEqual(most, lightest if scheme == "light" else darkest)
            with self.media(media="print", features=[{"name": "prefers-color-scheme", "value": scheme}]):
                self.assertEqual(self.pixels(), [0, 765, 765])
                self.assertEqual(self.run_script(SEEN_ON_PAPER), ["svg"])

    def test_printing(self) -> None:
        """A key prints the tune page by page, and nothing else; afterwards the page is as before."""
        self.edit(0, 1, "X:1", "T:Long", "K:C", *["CDEF GABc|" * 4] * 60)
        self.wait(lambda: len(self.run_script(NOTES)) == 60 * 32)
        self.run_script("window.print = () => { window.printed = true; }")
        self.press("p", test_page_in_browser.CONTROL)
        self.wait(lambda: self.run_script("return window.printed"))
        pages = self.run_script("return document.querySelectorAll('#paper svg').length")
        self.assertGreater(pages, 1)
        with self.media(media="print"):
            shown = self.run_script(SEEN_ON_PAPER)
        self.assertEqual(shown, pages * ["svg"])
        printed = base64.b64decode(self.driver.execute_cdp_cmd("Page.printToPDF", {})["data"])
        self.assertEqual(len(re.findall(rb"/Type\s*/Page\b", printed)), pages)
        self.wait(lambda: self.run_script("return !document.getElementById('paper')"))

    def pixels(self) -> Any:
        """How light the darkest, most, and the lightest pixels of the score are: 765 is white."""
        return self.driver.execute_async_script(PIXELS, self.driver.get_screenshot_as_base64())

    @contextmanager
    def media(self, **words: Any) -> Iterator[None]:
        """The browser shows pages as on another medium."""
        self.driver.execute_cdp_cmd("Emulation.setEmulatedMedia", words)
        yield
        self.driver.execute_cdp_cmd("Emulation.setEmulatedMedia", {"media": "", "features": []})

    def test_while_the_server_is_away(self) -> None:
        """Nothing is asked, the older score is pale, and the score is drawn once when the server is there again."""
        self.type("X:1\nK:C\nC")
        self.notes((2, 0, 1, "note"))
        self.kill()
        self.wait(lambda: "away" in self.text("status"))
        self.assertEqual(self.run_script(BUSY), ["false", 1])
        self.run_script(ASKED)
        self.type("D")
        self.wait(lambda: self.run_script(BUSY)[0] == "true")
        self.wait(lambda: self.run_script(BUSY)[1] < 0.5)
        self.assertEqual(self.run_script("return asked"), 0)
        self.start(str(self.path), port=str(self.port))
        self.settled("X:1\nK:C\nCD")
        self.notes((2, 0, 1, "note"), (2, 1, 1, "note"))
        self.assertEqual((self.run_script("return asked"), self.run_script(BUSY)), (1, ["false", 1]))


class OtherPrograms(Programs, test_page_in_browser.Browser):
    """An `abcm2ps` that is missing, or means harm."""

    is_slow = True  # waits till a drawing takes too long
    drawing = ""

    def test_none(self) -> None:
        """The page says what to install, once, and goes on without; when it is there the score appears."""
        self.type("X:1\nK:C\nC")
        self.wait(lambda: self.run_script(WHY) == "To see the score, install abcm2ps: sudo apt install abcm2ps")
        self.roll("1 voice")
        wide = "return document.getElementById('roll').clientWidth > document.getElementById('music').clientWidth - 9"
        self.wait(lambda: self.run_script(wide))
        self.draw_by("exec sleep 1000")
        self.type("D")
        self.wait(lambda: "took too long" in (self.run_script(WHY) or ""))

    def test_typing_goes_on(self) -> None:
        """An `abcm2ps` that hangs holds nothing up."""
        self.draw_by("exec sleep 1000")
        self.run_script(ASKED)
        self.type("X:1\nK:C\nC")
        self.wait(lambda: self.run_script("return asked") == 1)
        self.type("D")
        self.settled("X:1\nK:C\nCD")
        self.assertIsNone(self.run_script(WHY))
        self.wait(lambda: "took too long" in (self.run_script(WHY) or ""))

    def test_a_drawing_that_means_harm(self) -> None:
        place = '<abc type="N" row="4" col="0" x="1" y="2" width="3" height="4"/>'
        evil = "<script>window.evil = 1</script><image href='x' onerror='window.evil = 1'/><g onload='window.evil = 1' style='fill:red'><a href='javascript:evil=1'>x</a></g>"
        self.draw_by(f"exec cat <<'END'\n<svg width=\"9px\" height=\"9px\">{evil}{place}</svg>\nEND")
        self.type("X:1\nT:a\nK:C\nC")
        self.wait(lambda: len(self.run_script(NOTES)) == 1)
        self.assertEqual(self.run_script(STRANGE), [[], [], None])
