"""Tries the page without a server in Chromium: each thing that its user does, and what it leaves."""

from __future__ import annotations

import random
import shutil
import subprocess
import tempfile
from pathlib import Path

import common
from browser_keys import BACKSPACE, CONTROL, ENTER, ESCAPE, SHIFT
from static_browser import OFFLINE, TUNE, StaticBrowser

PICK = """
const folder = await navigator.storage.getDirectory(), [name, text] = words;
const handle = await folder.getFileHandle(name, { create: true });
if (text !== null) {
  const stream = await handle.createWritable();
  await stream.write(text);
  await stream.close();
}
window.showOpenFilePicker = async () => [handle];
window.showSaveFilePicker = async ({ suggestedName }) => { window.suggested = suggestedName; return handle; };
"""  # a file of the browser's own file system, and dialogs that pick it: those of the system take no script
CANCEL = "window.showSaveFilePicker = async () => { throw new DOMException('cancelled', 'AbortError'); }"
CONTENT = "return (await (await (await navigator.storage.getDirectory()).getFileHandle(words[0])).getFile()).text();"
ELSEWHERE = "return document.getElementById('books').open && document.getElementById('elsewhere').textContent"
BOOKS = "return [...document.querySelectorAll('#kept-books .book b')].map((row) => row.textContent)"
FORGET = "document.querySelector('#kept-books button:not(.book)').click()"
FORGETS = "const { textContent, ariaLabel } = document.querySelector('#kept-books button:not(.book)'); return [textContent, ariaLabel]"
STRING = """
await new Promise((done) => setTimeout(done)); // the policy counts for what no tool of the browser runs
try { return new Function("return 1")(); } catch (error) { return error.name; }
"""
INLINE = "const script = document.createElement('script'); script.textContent = 'window.inline = 1'; document.body.append(script);"
LACKING = {
    "findLast of lists": "delete Array.prototype.findLast",
    "the selector :has": "CSS.supports = (words) => !words.includes(':has')",
    "ARIA properties": "delete Element.prototype.ariaSelected",
}  # as older browsers are
NO_STORE = "Object.defineProperty(globalThis, 'indexedDB', { value: { open() { throw new Error('none'); } } })"
SLOW_STORE = "Object.defineProperty(globalThis, 'indexedDB', { value: { open: () => ({}) } })"  # it does not answer
ASKED_TO_KEEP = """
window.asked = [];
const { transaction } = IDBDatabase.prototype;
IDBDatabase.prototype.transaction = function (names, mode, options) {
  if (mode === "readwrite") asked.push(`${mode} ${options?.durability}`);
  return transaction.call(this, names, mode, options);
};
if (globalThis.StorageManager) StorageManager.prototype.persist = async () => asked.push("persist"); // an empty tab has none
"""
DEAD_STORE = """
IDBDatabase.prototype.transaction = () => { throw new DOMException("the store is damaged", "UnknownError"); };
"""  # it opens, and fails then
ASKS_TO_STAY = """
window.asksToStay = true;
const event = new Event("beforeunload", { cancelable: true });
dispatchEvent(event);
window.asksToStay = false;
return event.defaultPrevented;
"""
NO_CLIPBOARD = "navigator.clipboard.writeText = async () => { throw new DOMException('refused', 'NotAllowedError'); }; document.activeElement.blur();"
SELECTED = "const { id, value, selectionStart, selectionEnd } = document.activeElement; return [id, value?.slice(selectionStart, selectionEnd)]"
ROOM_BESIDE_THE_ROLL = "return document.querySelector('.views').clientWidth - document.querySelector('.stage').offsetWidth"
MENDS = "return [...document.querySelectorAll('#told .mend')].map((button) => button.textContent)"
MODULE_SIZE = "return (await (await fetch('abc2midi-live/abc2midi_live.wasm')).arrayBuffer()).byteLength;"
SECTION = b"\x00\x05\x04note"  # of a module, without an effect


def setUpModule() -> None:
    StaticBrowser.begin()


def program_file(text: str, number: int) -> bytes:
    """The MIDI file of a number, as the program prints it."""
    lines = text.splitlines()
    stream = "".join([f"insert 1 {len(lines)}\n", *(f"{line}\n" for line in lines), f"hex {number}\n"])
    with tempfile.TemporaryDirectory() as folder:
        ran = subprocess.run([str(common.program), "--dir", folder], input=stream.encode(), stdout=subprocess.PIPE, check=True)
    return bytes.fromhex(ran.stdout.decode().splitlines()[-1])


def noise(count: int) -> str:
    """Notes that do not compress."""
    chance = random.Random(1)
    return "".join(chance.choice("ABCDEFGabcdefg,'234^_=z") + ("\n" if n % 60 == 59 else "") for n in range(count))


class Writing(StaticBrowser):
    """Writing and hearing, and what the browser keeps."""

    def test_music_without_a_number_is_offered_one(self) -> None:
        """At its first music, beside the only hint of this page, which goes when the tune begins, and comes back with the text."""
        self.paste("Hello\n\nT:Air\nL:1/4\nK:G\nGABc|\n")
        self.wait(lambda: self.run_script(MENDS) == ["Write X:1"])
        self.assertEqual((self.text("hinted"), self.text("count")), ("1 hint", "No faults"))
        self.run_script("document.querySelector('#told .mend').click()")
        self.shows("Hello\n\nX:1\nT:Air\nL:1/4\nK:G\nGABc|\n")
        self.lists("1Air")
        self.wait(lambda: not self.is_seen("hinted") and self.run_script(MENDS) == [])
        self.type("z", CONTROL)
        self.wait(lambda: self.run_script(MENDS) == ["Write X:1"])
        self.kept()
        self.reload()
        self.wait(lambda: self.text("hinted") == "1 hint")

    def test_write_see_faults_and_find(self) -> None:
        """An empty book offers a tune. One place says that there is no score, and the roll has the room of one."""
        self.assertTrue(self.is_seen("starter"))
        self.assertEqual(self.run_script(ROOM_BESIDE_THE_ROLL), 0)
        self.run_script("document.querySelector('#starter button').click()")
        self.lists("1My first tune")
        self.type("a", CONTROL)
        self.type(TUNE)
        self.lists("1Scale")
        self.assertEqual(self.text("count"), "No faults")
        self.type("C -\n")
        self.paste("\nX:2\nT:Second\nK:C\nC\n")
        self.lists("1Scale", "2Second")
        self.wait(lambda: "2.mid" in self.text("status"))  # with the edit before it or alone
        self.caret(8, 0)
        self.wait(lambda: self.text("told").startswith(f"Line 9- {self.sentence('LooseTie')}"))
        self.wait(lambda: self.run_script("return [...document.querySelectorAll('mark')].map((mark) => mark.fault)") == [[8, 2, 3, "LooseTie"]])
        self.wait(lambda: "No score here" in self.text("score"))
        self.assertEqual(self.run_script("return document.body.innerText").count("runs in no browser"), 1)
        self.assertFalse(self.is_seen("print"))
        self.assertEqual(self.run_script(ROOM_BESIDE_THE_ROLL), 0)
        self.press("h", CONTROL)
        self.press("CD")
        self.says("found", "1 of 1")
        self.focus("replace-words")
        self.press("dc" + ENTER)
        self.wait(lambda: self.shown().startswith(TUNE.replace("CD", "dc")))
        self.search("[A-G]\\|$")
        self.says("found", "1 of 1")

    def test_hear_under_the_policy(self) -> None:
        """The policy refuses code in strings and in the page. What the page itself does is not refused, as each test looks."""
        self.write()
        self.wait(lambda: "4 bars" in self.run_script("return document.getElementById('roll').getAttribute('aria-label')"))
        self.caret(7, 0)
        self.press(" ", CONTROL, SHIFT)
        self.hear(0, 67)
        self.hear(1, 67, 69)
        self.assertEqual(self.value_of(STRING), "EvalError")
        self.run_script(INLINE)
        self.wait(lambda: len(self.run_script("return refused")) == 2)
        self.assertIsNone(self.run_script("return window.inline ?? null"))
        self.run_script("refused.length = 0")
        self.driver.get_log("browser")

    def test_the_midi_file_is_that_of_the_program(self) -> None:
        """It follows an edit, and the tune at the caret."""
        if not common.program:
            self.skipTest("no program was named")
        first = TUNE + "\nX:7\nT:Été\nM:6/8\nQ:3/8=100\nV:1\nV:2\nK:Em\nV:1\n(3GAB !f!e2 [EG]\nV:2\n%%MIDI program 41\nE,3 z3|\n"
        self.write(first)
        self.caret(12, 0)
        self.assertEqual(self.midi_file("7 Été.mid"), program_file(first, 7))
        self.caret(8, 0)
        self.assertEqual(self.midi_file("1 Scale.mid"), program_file(first, 1))
        address = self.run_script("return document.getElementById('midi').href")
        self.paste("c4|\n")
        self.wait(lambda: self.run_script("return document.getElementById('midi').href") not in ("", address))
        self.assertEqual(self.midi_file("1 Scale.mid"), program_file(first.replace("Bc|\n", "Bc|\nc4|\n"), 1))

    def midi_file(self, name: str) -> bytes:
        """The file of the button, when it has this name. One that was downloaded before is gone then."""
        self.wait(lambda: self.run_script("return document.getElementById('midi').download") == name)
        (self.downloads / name).unlink(missing_ok=True)
        self.click("midi")
        return self.downloaded(name)

    def test_text_and_undo_outlive_a_reload(self) -> None:
        """When the page is opened again, it has the book that was changed last."""
        self.write()
        self.type("e2|")
        self.shows(TUNE + "e2|")
        self.kept()
        self.reload()
        self.shows(TUNE + "e2|")
        self.lists("1Scale")
        self.type("z", CONTROL)
        self.wait(lambda: "e2" not in self.shown())
        self.type("y", CONTROL)
        self.shows(TUNE + "e2|")
        self.kept()
        self.driver.get("about:blank")
        self.open_tab()
        self.ready()
        self.shows(TUNE + "e2|")

    def test_without_a_network_and_with_a_newer_page(self) -> None:
        """Without its server the page opens, compiles, keeps, finds and has examples. The files of two pages are never mixed."""
        site = self.folder / "site"
        shutil.copytree(self.page, site)
        server = self.serve(site)
        self.load()
        self.says("status", OFFLINE)
        self.write()
        server.stop()
        self.reload()
        self.shows(TUNE)
        self.caret(8, 0)
        self.paste("C -")
        self.says("count", "1 fault")
        self.search("T:S")
        self.says("found", "1 of 1")
        self.kept()
        self.load("index.html?x=1")
        self.shows(TUNE + "C -")
        self.click("open")
        self.run_script("document.querySelector('.example').click()")
        self.says("name", "four_tunes.abc")
        self.wait(lambda: len(self.titles()) == 4)
        module = Path(str(common.module)).read_bytes()
        (self.folder / "newer.wasm").write_bytes(module + SECTION)
        common.make_page(site, str(self.folder / "newer.wasm"))
        server.start()
        self.value_of("await (await navigator.serviceWorker.ready).update();")
        self.wait(lambda: "There is a newer version" in self.text("notice"))
        self.assertEqual(self.value_of(MODULE_SIZE), len(module))
        self.run_script("window.isOld = true")
        first = self.driver.current_window_handle
        self.open_tab()
        self.wait(lambda: self.run_script(ELSEWHERE))
        self.click("new-book")
        self.wait(lambda: not self.run_script(ELSEWHERE))
        self.ready()
        self.type("X:8\n")
        self.shows("X:8\n")
        self.run_script("window.isOld = true")
        other = self.driver.current_window_handle
        self.turn_to(first)
        self.answer("Load it")
        for tab in (other, first):  # all tabs are of the newer page then, and have their texts
            self.turn_to(tab)
            self.wait(lambda: self.run_script("return !window.isOld"))
            self.ready()
            if tab == other:
                self.shows("X:8\n")
        self.assertEqual(self.value_of(MODULE_SIZE), len(module) + len(SECTION))
        self.wait(lambda: len(self.titles()) == 4)

    def test_a_long_book_is_not_called_a_page_that_does_not_come(self) -> None:
        """The scripts of the page are there, so nobody is asked to load it again."""
        self.driver.execute_cdp_cmd("Page.addScriptToEvaluateOnNewDocument", {"source": SLOW_STORE})
        self.driver.get("about:blank")
        self.driver.get(f"{self.origin}/")
        self.wait(lambda: self.text("loading") == "The book is being opened. A long one takes some seconds.")
        self.assertTrue(self.run_script("return !document.getElementById('loading').hidden"))

    def test_the_caret_outlives_a_reload(self) -> None:
        """In a long book too."""
        self.paste("".join(f"% {number}\n" for number in range(1000)))
        self.wait(lambda: self.kept_texts() and self.kept_texts()[0].endswith("% 999\n"))
        self.press("\ue010", CONTROL)
        self.press("\ue013")
        self.says("place", "Line 1000, column 1")
        self.press("\ue014\ue014")
        self.says("place", "Line 1000, column 3")
        self.reload()
        self.says("place", "Line 1000, column 3")
        self.type("new ")
        self.wait(lambda: self.kept_texts()[0].endswith("% 998\n% new 999\n"))

    def test_what_is_typed_is_on_the_disk(self) -> None:
        """The browser is asked to keep it through a loss of power, and not to drop it when it lacks room."""
        self.driver.execute_cdp_cmd("Page.addScriptToEvaluateOnNewDocument", {"source": ASKED_TO_KEEP})
        self.load()
        self.assertEqual(self.run_script("return asked"), [])
        self.write()
        self.assertEqual(sorted(set(self.run_script("return asked"))), ["persist", "readwrite strict"])

    def test_a_browser_without_the_web_assembly_of_the_module(self) -> None:
        """It gets one sentence, which Escape does not close."""
        self.driver.get(f"{self.origin}/?unable")
        self.wait(lambda: self.text("unable-words").startswith("This browser cannot run the page: it lacks the WebAssembly of today. Use "))
        self.press(ESCAPE)
        self.wait(lambda: self.run_script("return document.getElementById('unable').open"))
        for feature in LACKING:
            with self.subTest(feature):
                script = self.driver.execute_cdp_cmd("Page.addScriptToEvaluateOnNewDocument", {"source": LACKING[feature]})
                self.driver.get("about:blank")
                self.driver.get(f"{self.origin}/")
                self.wait(lambda: self.text("unable-words").startswith(f"This browser cannot run the page: it lacks {feature}. Use "))
                self.driver.execute_cdp_cmd("Page.removeScriptToEvaluateOnNewDocument", script)


class Files(StaticBrowser):
    """Opening and saving, by picked files and by upload and download."""

    def test_upload_and_download(self) -> None:
        """Lines that nobody edits keep their bytes. Another name is one of a download."""
        self.load("?downloads")
        self.assertEqual(self.text("save"), "Download")
        book = b"\xef\xbb\xbfX:1\r\nT:Caf\xe9\r\nK:C\r\nC\tD|\r\n"
        self.upload("old.abc", book)
        self.lists("1Caf\u00e9")
        self.assertTrue(self.is_saved())
        self.caret(3, 0)
        self.type("E")
        self.wait(self.is_unsaved)
        self.save_by_key()
        self.assertEqual(self.downloaded("old.abc"), book.replace(b"C\tD", b"EC\tD"))
        self.wait(self.is_saved)
        self.press("s", CONTROL, SHIFT)
        self.wait(lambda: self.run_script("return document.getElementById('copy').open"))
        self.assertEqual(self.text("copy-words"), "Downloads the text.")
        self.assertFalse(self.is_seen("copy-save"))
        self.press("other" + ENTER)
        self.assertEqual(self.downloaded("other.abc"), book.replace(b"C\tD", b"EC\tD"))

    def test_a_browser_that_keeps_nothing(self) -> None:
        """A file that is opened keeps its bytes there too, and is saved. The text that it replaces can be taken back."""
        self.driver.execute_cdp_cmd("Page.addScriptToEvaluateOnNewDocument", {"source": NO_STORE})
        self.load("?downloads")
        self.type("X:9\n")
        book = b"X:1\r\nT:Caf\xe9\r\nK:C\r\nC|\r\n"
        self.send("old.abc", book)
        self.answer("Drop the text")
        self.says("name", "old.abc")
        self.lists("1Caf\u00e9")
        self.wait(self.is_saved)
        self.save_by_key()
        self.assertEqual(self.downloaded("old.abc"), book)
        self.caret(3, 0)
        self.press("z", CONTROL)
        self.shows("X:9\n")

    def test_text_that_is_nowhere_else_is_not_dropped_without_a_question(self) -> None:
        """The warning stays till it is answered. A new book, another file, another address and a closed tab ask first."""
        self.driver.execute_cdp_cmd("Page.addScriptToEvaluateOnNewDocument", {"source": NO_STORE})
        self.load("?downloads")
        self.assertFalse(self.run_script(ASKS_TO_STAY))
        self.type("X:9\nK:C\nC")
        self.wait(lambda: "This browser keeps nothing for this page: save before you close it." in self.text("notice"))
        self.wait(self.is_unsaved)
        self.assertTrue(self.run_script(ASKS_TO_STAY))
        self.answer("Decide later")
        for leaves in ("document.getElementById('new-book').click()", "document.querySelector('.example').click()", "location.hash = '#abc=WDo5Cks6Qwo'"):
            self.run_script(leaves)
            self.wait(lambda: "The text is in no file" in self.text("notice"))
            self.assertEqual(self.shown(), "X:9\nK:C\nC")
            self.answer("Cancel")
        self.click("new-book")
        self.answer("Download")
        self.assertEqual(self.downloaded("book.abc"), b"X:9\nK:C\nC")
        self.wait(self.is_saved)
        self.assertFalse(self.run_script(ASKS_TO_STAY))
        self.click("new-book")
        self.shows("")

    def test_a_store_that_opens_and_fails(self) -> None:
        """The page has a book there too, and warns. If the store fails later, the warning says why."""
        self.write()
        self.run_script(DEAD_STORE)
        self.type("C")
        self.wait(lambda: "This browser does not keep the text (the store is damaged): save it." in self.text("notice"))
        self.assertTrue(self.run_script(ASKS_TO_STAY))
        self.click("new-book")
        self.wait(lambda: "The text is in no file" in self.text("notice"))
        self.driver.execute_cdp_cmd("Page.addScriptToEvaluateOnNewDocument", {"source": DEAD_STORE})
        self.load()
        self.wait(lambda: "This browser keeps nothing for this page: save before you close it." in self.text("notice"))
        self.click("open")
        self.wait(lambda: self.run_script("return document.getElementById('books').open"))
        self.run_script("document.querySelector('.example').click()")
        self.wait(lambda: len(self.titles()) == 4)

    def test_a_picked_file(self) -> None:
        """A save writes it, after a reload too. What another program wrote is taken if nothing is unsaved; else the page asks, and
        writes nothing before the answer."""
        self.write()
        self.run_script(CANCEL)
        self.save_by_key()
        self.says("status", "Not saved: no file was picked.")
        self.assertTrue(self.is_unsaved())
        self.value_of(PICK, "mine.abc", None)
        self.save_by_key()
        self.wait(lambda: self.text("name") == "mine.abc" and self.is_saved())
        self.assertEqual((self.value_of(CONTENT, "mine.abc"), self.run_script("return suggested")), (TUNE, "book.abc"))
        self.reload()
        self.wait(lambda: self.text("name") == "mine.abc" and self.is_saved())
        self.caret(8, 0)
        self.type("c4|\n")
        self.wait(self.is_unsaved)
        self.save_by_key()
        self.says("status", "Saved mine.abc.")
        self.assertEqual(self.value_of(CONTENT, "mine.abc"), TUNE + "c4|\n")
        self.value_of(PICK, "mine.abc", "X:5\nK:C\nC\n")
        self.run_script("dispatchEvent(new Event('focus'))")
        self.shows("X:5\nK:C\nC\n")
        self.type("D")
        self.wait(self.is_unsaved)
        self.value_of(PICK, "mine.abc", "X:6\nK:C\nC\n")
        self.save_by_key()
        self.wait(lambda: "Another program changed mine.abc" in self.text("notice"))
        self.assertEqual(self.value_of(CONTENT, "mine.abc"), "X:6\nK:C\nC\n")
        mine = self.shown()
        self.answer("Save this text over it")
        self.wait(self.is_saved)  # while the browser replaces a file, a reader may find none
        self.assertEqual(self.value_of(CONTENT, "mine.abc"), mine)

    def test_open_a_picked_file_and_save_it_under_another_name(self) -> None:
        self.value_of(PICK, "first.abc", TUNE)
        self.click("open")
        self.click("open-file")
        self.says("name", "first.abc")
        self.shows(TUNE)
        self.value_of(PICK, "second.abc", None)
        self.press("s", CONTROL, SHIFT)
        self.says("name", "second.abc")
        self.assertEqual((self.value_of(CONTENT, "second.abc"), self.run_script("return suggested")), (TUNE, "first.abc"))

    def test_downloads_where_files_are_picked(self) -> None:
        """A button offers them: the text, the sound and the MIDI files. Where a file cannot be picked, 'Save as' does."""
        self.write()
        self.wait(lambda: "4 bars" in self.run_script("return document.getElementById('roll').getAttribute('aria-label')"))
        self.click("download")
        self.assertEqual(self.text("copy-words"), "Downloads the text.")
        self.assertEqual([self.is_seen(name) for name in ("copy-save", "copy-download", "tune-sound")], [False, True, True])
        self.click("copy-download")
        self.assertEqual(self.downloaded("book.abc"), TUNE.encode())
        self.assertTrue(self.is_unsaved())
        self.click("download")
        self.click("tune-sound")
        self.assertEqual(self.downloaded("1 Scale.wav")[:4], b"RIFF")
        self.load("?downloads")
        self.assertFalse(self.is_seen("download"))

    def test_a_new_book_leaves_the_old_one_in_the_list(self) -> None:
        """A book that is in no file is forgotten at the second click. Whoever hears the page hears why, too."""
        self.write()
        self.click("open")
        self.wait(lambda: self.run_script("return document.getElementById('books').open"))
        self.assertEqual(self.run_script(BOOKS), [])
        self.click("new-book")
        self.shows("")
        self.ready()
        self.write("X:2\nT:Other\n")
        self.press("o", CONTROL)
        self.wait(lambda: self.run_script(BOOKS) == ["Scale"])
        self.run_script("document.querySelector('#kept-books .book').click()")
        self.shows(TUNE)
        self.ready()
        self.press("o", CONTROL)
        self.wait(lambda: self.run_script(BOOKS) == ["Other"])
        self.assertEqual(self.run_script(FORGETS), ["Forget", "Forget Other"])
        self.run_script(FORGET)
        self.assertEqual(self.run_script(BOOKS), ["Other"])
        self.assertEqual(self.run_script(FORGETS), ["It is in no file: forget", "It is in no file: forget Other"])
        self.run_script(FORGET)
        self.wait(lambda: self.run_script(BOOKS) == [])
        self.assertEqual(self.kept_texts(), [TUNE])


class Sharing(StaticBrowser):
    """A tune in a link."""

    def test_a_link_opens_the_tune_elsewhere(self) -> None:
        """The tune comes with the file header. The books of the browser that opens it stay, also if the link was cut."""
        book = "%%MIDI program 5\nM:2/4\n\n" + TUNE + "\nX:2\nT:F\u00fcr Elise \U0001d11e\nK:Am\ne^d|\n"
        self.write(book)
        self.caret(13, 0)
        self.click("share")
        link = self.wait(lambda: self.run_script("return document.getElementById('share-link').value"))
        self.assertIn("tune 2, F\u00fcr Elise", self.text("share-words"))
        self.assertIn(f"in {len(link)} characters", self.text("share-words"))
        self.run_script(NO_CLIPBOARD)
        self.click("share-copy")
        self.says("share-done", "The browser does not let this page copy. The link is selected: copy it yourself.")
        self.wait(lambda: self.run_script(SELECTED) == ["share-link", link])
        self.click("share-close")
        self.open_tab(link.removeprefix(f"{self.origin}/"))
        self.shows("%%MIDI program 5\nM:2/4\n\nX:2\nT:F\u00fcr Elise \U0001d11e\nK:Am\ne^d|\n")
        self.lists("2F\u00fcr Elise \U0001d11e")
        self.assertTrue(self.is_saved())
        self.assertEqual(self.kept_texts(), [book])
        self.type("c4|\n")
        self.kept()
        changed = self.shown()
        self.assertEqual((self.kept_texts(), self.run_script("return location.hash")), (sorted([book, changed]), ""))
        self.reload()
        self.shows(changed)
        self.run_script("location.hash = '#abc=WDo5Cks6Qwo'")
        self.shows("X:9\nK:C\n")
        self.load("#abc-z=q8g")
        self.wait(lambda: "The tune in this link cannot be read: it is not whole." in self.text("notice"))
        self.shows(changed)
        self.answer("Close")
        self.assertEqual(self.kept_texts(), sorted([book, changed]))

    def test_a_tune_that_is_too_long(self) -> None:
        self.paste("X:1\nT:Long\nK:C\n" + noise(20_000))
        self.lists("1Long")
        self.click("share")
        self.wait(lambda: "The most is 8,000: send the file instead." in self.text("share-words"))
        self.assertFalse(self.is_seen("share-link"))


class TwoTabs(StaticBrowser):
    """One book in two tabs: one tab has it, and nothing is lost."""

    def is_elsewhere(self) -> None:
        """Waits till the tab says that another one has the book."""
        self.wait(lambda: self.run_script(ELSEWHERE) == "Scale is open in another tab of this browser.")

    def test_one_tab_at_a_time_has_a_book(self) -> None:
        """The second tab can have it, and the first one have it back, also if the second one does not answer. On a slow machine the
        first one may not answer in time either, so its text is kept before."""
        self.write()
        self.open_tab()
        self.is_elsewhere()
        second = self.driver.current_window_handle
        self.turn_to(self.first)
        self.type("c4|")
        self.shows(TUNE + "c4|")
        self.kept()
        self.turn_to(second)
        self.click("move-here")
        self.shows(TUNE + "c4|")
        self.ready()
        self.caret(8, 3)
        self.type("d4|")
        self.shows(TUNE + "c4|d4|")
        self.kept()
        self.turn_to(self.first)
        self.is_elsewhere()
        self.press(ESCAPE)
        self.is_elsewhere()
        self.run_script("BroadcastChannel.prototype.postMessage = () => {}")
        self.click("move-here")
        self.shows(TUNE + "c4|d4|")
        self.turn_to(second)
        self.is_elsewhere()
        self.click("new-book")
        self.wait(lambda: not self.run_script(ELSEWHERE))
        self.ready()
        self.write("X:2\nT:Other\n")
        self.assertEqual(self.kept_texts(), [TUNE + "c4|d4|", "X:2\nT:Other\n"])

    def test_a_text_that_another_tab_changed_is_not_overwritten(self) -> None:
        """Without locks, as in a page that did not come by https, the store itself refuses. The late text is a book of its own then."""
        self.load("?unlocked")
        self.write()
        self.open_tab()
        self.ready()
        self.shows(TUNE)
        self.caret(8, 0)
        self.type(4 * BACKSPACE)
        self.shows(TUNE[:-4])
        self.kept()
        self.turn_to(self.first)
        self.caret(8, 0)
        self.type("c4|")
        self.is_elsewhere()
        self.wait(lambda: self.kept_texts() == sorted([TUNE[:-4], TUNE + "c4|"]))
