"""What the tests of the page without a server share: one browser, and what the page shows."""

from __future__ import annotations

import json
import tempfile
import unittest
from pathlib import Path
from typing import Any, Callable

import browser
import common
from browser_keys import CONTROL
from file_server import FileServer

AREA = "document.querySelector('textarea')"
BEGIN = """
window.refused = [];
addEventListener("securitypolicyviolation", ({ violatedDirective, blockedURI }) => refused.push(`${violatedDirective} ${blockedURI}`));
if (location.search === "?downloads") delete window.showOpenFilePicker;
if (location.search === "?unlocked") Object.defineProperty(navigator, "locks", { value: undefined });
if (location.search === "?unable") WebAssembly.validate = () => false;
"""  # what the policy of the page refused; a browser that picks no files, or has no locks or memories, if the address asks for one
KEPT = "indexeddb,local_storage,file_systems"  # what a browser keeps of a page, but for the page itself
TUNE = "X:1\nT:Scale\nM:2/4\nL:1/4\nQ:1/4=60\nK:C\nCD|EF|\nGA|Bc|\n"
KEEP = """
const [book, done] = arguments;
const keep = async () => {
  const { BookStore, newName } = await import("./static/book_store.js");
  const store = await BookStore.open(location.pathname), data = new TextEncoder().encode(book);
  await store.keep({ id: newName(), name: "", title: "", tunes: 0, unsaved: true }, { data, disk: null, handle: null });
};
keep().then(done, (error) => done(String(error)));
"""
OFFLINE = "This page opens without a network from now on."


def keep_book(driver: Any, book: str) -> None:
    """Lets the page keep a book, which its next visit opens."""
    wrong = driver.execute_async_script(KEEP, book)
    assert wrong is None, wrong


class StaticBrowser(common.Room):
    """Someone at the page, in a new tab of the one browser, which has the page but keeps no book."""

    driver: Any = None
    page: Path
    server: FileServer
    home = ""  # an empty tab

    @classmethod
    def begin(cls) -> None:
        """Starts the browser for all tests of a module, and visits the page once, so that later visits need no server."""
        if browser.lacking():
            raise unittest.SkipTest(browser.lacking())
        try:
            cls.driver = browser.started()
        except browser.NotStarted as error:
            raise unittest.SkipTest(f"Chromium did not start: {error}") from error
        unittest.addModuleCleanup(cls.driver.quit)
        kept = tempfile.TemporaryDirectory()
        unittest.addModuleCleanup(kept.cleanup)
        cls.page = Path(kept.name) / "page"
        common.make_page(cls.page, common.module)
        cls.server = FileServer(cls.page)
        unittest.addModuleCleanup(cls.server.stop)
        cls.home = cls.driver.current_window_handle
        cls.driver.get(cls.server.origin)
        browser.wait(lambda: cls.driver.execute_script("return document.getElementById('status').textContent") == OFFLINE)
        cls.driver.get("about:blank")

    def setUp(self) -> None:
        super().setUp()
        self.origin = self.server.origin
        self.downloads = self.folder / "downloads"
        self.downloads.mkdir()
        self.driver.execute_cdp_cmd("Browser.setDownloadBehavior", {"behavior": "allow", "downloadPath": str(self.downloads)})
        self.driver.execute_cdp_cmd("Storage.clearDataForOrigin", {"origin": self.origin, "storageTypes": KEPT})
        self.driver.get_log("browser")
        self.addCleanup(self.close_tabs)
        self.open_tab()
        self.ready()
        self.first = self.driver.current_window_handle

    def close_tabs(self) -> None:
        """Closes all tabs but the empty one. One that is closing may still write what it keeps."""
        others = [handle for handle in self.driver.window_handles if handle != self.home]
        self.driver.switch_to.window(self.home)
        for handle in others:
            self.driver.execute_cdp_cmd("Target.closeTarget", {"targetId": handle})
        browser.wait(lambda: self.driver.window_handles == [self.home])

    def tearDown(self) -> None:
        """Nothing went wrong in the page, and its policy refused nothing."""
        self.assertEqual(self.run_script("return [window.wrong ?? [], window.refused ?? []]"), [[], []])
        logged = [entry["message"] for entry in self.driver.get_log("browser") if entry["source"] != "network"]
        self.assertEqual(logged, [])

    def serve(self, folder: Path) -> FileServer:
        """Serves another page, which the browser does not have yet."""
        server = FileServer(folder)
        self.addCleanup(server.stop)
        self.origin = server.origin
        return server

    def load(self, more: str = "") -> None:
        """Opens the page anew."""
        self.driver.get("about:blank")
        self.driver.get(f"{self.origin}/{more}")
        self.ready()

    def reload(self) -> None:
        self.driver.refresh()
        self.ready()

    def ready(self) -> None:
        """Waits till the page has a book."""
        self.wait(lambda: self.driver.title.endswith(" – abc2midi_live") and not self.run_script(f"return {AREA}.readOnly"))

    def open_tab(self, more: str = "") -> None:
        """Opens the page in another tab, and goes there."""
        self.driver.switch_to.new_window("tab")
        self.driver.execute_cdp_cmd("Page.addScriptToEvaluateOnNewDocument", {"source": browser.OWN + BEGIN})
        self.driver.get(f"{self.origin}/{more}")

    def turn_to(self, handle: str) -> None:
        self.driver.switch_to.window(handle)
        self.driver.execute_cdp_cmd("Page.bringToFront", {})

    def wait(self, comes: Callable[[], Any]) -> Any:
        """Waits till something comes about, and gives it; else tells what the page shows."""
        try:
            return browser.wait(comes)
        except AssertionError as error:
            shown = self.run_script("return document.body.innerText.toWellFormed()")
            raise AssertionError(f"{error}; the page shows {shown[:500]!r}") from error

    def run_script(self, script: str, *words: Any) -> Any:
        return self.driver.execute_script(script, *words)

    def value_of(self, script: str, *words: Any) -> Any:
        """What the body of an asynchronous function returns in the page. Its parameters are `words`."""
        call = f"const done = arguments[arguments.length - 1]; (async (...words) => {{ {script} }})(...arguments)"
        found = self.driver.execute_async_script(f"{call}.then((value) => done([value]), (error) => done(String(error)));", *words)
        self.assertIsInstance(found, list, found)
        return found[0]

    def text(self, identifier: str) -> str:
        return str(self.run_script("return document.getElementById(arguments[0]).textContent", identifier))

    def says(self, identifier: str, words: str) -> None:
        """Waits till an element has this text."""
        self.wait(lambda: self.text(identifier) == words)

    def is_seen(self, identifier: str) -> bool:
        return bool(self.run_script("return document.getElementById(arguments[0]).checkVisibility()", identifier))

    def click(self, identifier: str) -> None:
        self.run_script("document.getElementById(arguments[0]).click()", identifier)

    def focus(self, identifier: str) -> None:
        self.run_script("document.getElementById(arguments[0]).focus()", identifier)

    def type(self, words: str, *held: str) -> None:
        """Types into the text."""
        self.run_script(f"{AREA}.focus()")
        browser.type_keys(self.driver, words, *held)

    def press(self, words: str, *held: str) -> None:
        """Presses keys, wherever the focus is."""
        browser.type_keys(self.driver, words, *held)

    def paste(self, words: str) -> None:
        """Puts words into the text at the caret, in one step."""
        self.run_script(f"{AREA}.focus(); document.execCommand('insertText', false, arguments[0]);", words)

    def caret(self, line: int, column: int) -> None:
        """Puts the caret at a place, counted from 0."""
        script = f"const at = {AREA}.value.split('\\n').slice(0, arguments[0]).join('\\n').length + (arguments[0] ? 1 : 0) + arguments[1];"
        self.run_script(f"{script} {AREA}.focus(); {AREA}.setSelectionRange(at, at);", line, column)

    def shown(self) -> str:
        return str(self.run_script(f"return {AREA}.value"))

    def shows(self, text: str) -> None:
        """Waits till the page shows this text."""
        self.wait(lambda: self.shown() == text)

    def write(self, text: str = TUNE) -> None:
        """Puts a text into an empty book, and waits till the browser keeps it."""
        self.paste(text)
        self.shows(text)
        self.kept()

    def kept(self) -> None:
        """Waits till the browser keeps the text that is shown."""
        self.wait(lambda: self.shown() in self.kept_texts())

    def kept_texts(self) -> list[str]:
        """The texts of all books that the browser keeps, in the order of the alphabet."""
        script = """
        const { BookStore } = await import("./static/book_store.js");
        const store = await BookStore.open(location.pathname), books = [];
        for (const { id } of await store.books()) books.push(new TextDecoder().decode((await store.book(id)).data));
        store.database.close();
        return books;
        """
        return sorted(self.value_of(script))

    def titles(self) -> list[str]:
        """The rows of the list of the tunes."""
        return list(self.run_script("return [...document.querySelectorAll('[role=option]')].map((row) => row.textContent)"))

    def lists(self, *titles: str) -> None:
        """Waits till the list has just these tunes, each with its number before its title."""
        self.wait(lambda: self.titles() == list(titles))

    def hear(self, seconds: float, *keys: int) -> None:
        """Moves the clock of the sound on, and waits till just these notes are scheduled so far."""
        self.run_script("clock = arguments[0]", seconds)
        self.wait(lambda: [key for _, key in self.run_script("return played")] == list(keys))

    def search(self, words: str) -> None:
        """Looks for an expression with these letters."""
        self.press("f", CONTROL)
        self.run_script("for (const choice of ['regular', 'match-case']) if (!document.getElementById(choice).checked) document.getElementById(choice).click();")
        self.focus("find-words")
        self.press("a", CONTROL)
        self.press(words)

    def is_unsaved(self) -> bool:
        return not self.run_script("return document.getElementById('unsaved').hidden")

    def is_saved(self) -> bool:
        return not self.is_unsaved()

    def answer(self, name: str) -> None:
        """Answers a question, when it is there."""
        script = "const button = [...document.querySelectorAll('#notice:not([hidden]) button:enabled')].find((one) => one.textContent === arguments[0]);"
        self.wait(lambda: self.run_script(f"{script} button?.click(); return Boolean(button);", name))

    def save_by_key(self) -> None:
        self.press("s", CONTROL)

    def downloaded(self, name: str) -> bytes:
        """The bytes of a file that was downloaded."""
        path = self.downloads / name
        self.wait(path.exists)
        return path.read_bytes()

    def send(self, name: str, data: bytes) -> None:
        """Picks a file in the dialog."""
        path = self.folder / name
        path.write_bytes(data)
        self.click("open")
        self.driver.find_element("id", "upload").send_keys(str(path))

    def upload(self, name: str, data: bytes) -> None:
        """Opens a file by the dialog."""
        self.send(name, data)
        self.says("name", name)
        self.ready()

    def sentence(self, name: str) -> str:
        """What is wrong and what to do instead, of a fault."""
        rows = json.loads((common.TOP / "python/abc2midi_live_clients/common/faults.json").read_text("utf-8"))
        return next(f"{row['wrong']} {row['instead']}".replace("`", "") for row in rows if row["name"] == name)
