"""Scores as a PDF: what is in it, what its programs may do, and what someone at the page stores."""

import argparse
import base64
import os
import shutil
import subprocess
import time
import unittest
from pathlib import Path
from contextlib import ExitStack
from typing import Any, Optional
from unittest import mock

import page_in_node
import test_page_in_browser
import test_score
import test_page_score
import trial
from abc2midi_live_clients.common.json_object import Json
from abc2midi_live_clients.page.score import limits, pdf as score_pdf
from abc2midi_live_clients.page.score.pdf import INSTALL_GHOSTSCRIPT, PdfMaker
from abc2midi_live_clients.page.score.scorer import INSTALL
from abc2midi_live_clients.page.server import Server
from abc2midi_live_clients.page.shared_book import SharedBook
from test_page_copies_in_browser import DOWNLOADS

LACKS = "abcm2ps or Ghostscript is not installed"
HAS_PROGRAMS = shutil.which("abcm2ps") and shutil.which("gs")
KESH = ["X:1", "T:The Kesh", "K:G", "GAGA|"]
ZIZKA = ["X:2", "T:Žižka", "K:C", "C4|"]
NO_KEY = ["X:3", "T:None", "C4|"]


def words_of(pdf: bytes) -> str:
    """The words of a PDF."""
    return subprocess.run(["gs", "-q", "-dBATCH", "-dNOPAUSE", "-sDEVICE=txtwrite", "-sOutputFile=-", "-"], input=pdf, capture_output=True, check=True).stdout.decode()


def pages_of(pdf: bytes) -> int:
    """How many pages a PDF has."""
    return pdf.replace(b"/Type/Pages", b"").count(b"/Type/Page")


def made(*tunes: list[str], header: Optional[list[str]] = None) -> Json:
    """What is answered for some tunes."""
    return PdfMaker().answer({"header": header or [], "tunes": list(tunes)})


@unittest.skipUnless(HAS_PROGRAMS, LACKS)
class Made(trial.Folder):
    """PDFs of real programs."""

    def test_several_tunes(self) -> None:
        """Each is there with its title, but for one that has no key."""
        answer = made(KESH, NO_KEY, ZIZKA, header=["C:Trad"])
        self.assertEqual((answer["left"], answer["note"]), ([1], ""))
        pdf = base64.b64decode(answer["pdf"])
        self.assertEqual((pdf[:4], pages_of(pdf)), (b"%PDF", 1))
        words = words_of(pdf)
        self.assertLess(words.index("The Kesh"), words.index("Ži"))
        self.assertNotIn("None", words)

    def test_pages(self) -> None:
        """A book has several."""
        self.assertGreater(pages_of(base64.b64decode(made(*[[*KESH, *["GABc dedB|" * 4] * 8]] * 6)["pdf"])), 1)

    def test_no_key(self) -> None:
        self.assertIn("needs a K: line", made(NO_KEY)["why"])

    def test_one_at_a_time(self) -> None:
        maker = PdfMaker()
        with maker.turn:
            self.assertIn("Another PDF", maker.answer({"header": [], "tunes": [KESH]})["why"])
        self.assertIn("pdf", maker.answer({"header": [], "tunes": [KESH]}))

    def test_nothing_is_run_of_a_tune(self) -> None:
        """No file is read, and no PostScript is run."""
        (self.folder / "secret").write_text("SECRET")
        evil = ["X:1", "T:x) show (SECRET", f"%%EPS {self.folder}/secret", "%%beginps", "(SECRET) show", "%%endps", f"%%abc-include {self.folder}/secret"]
        words = words_of(base64.b64decode(made([*evil, "K:C", "C4|"])["pdf"]))
        self.assertEqual((words.count("SECRET"), "x) show (SECRET" in words), (1, True))


class SharedBookStub(SharedBook):
    """A book without a name and without a session, which needs no library."""

    def __init__(self) -> None:
        self.path, self.run = None, "0"


class Walls(test_score.Harm):
    """What a program that is called `gs` can do."""

    def setUp(self) -> None:
        super().setUp()
        self.bin_program("abcm2ps", "echo %%Page:")

    def bin_program(self, name: str, script: str) -> None:
        """Makes a script the program of a name that is found."""
        path = self.bin / name
        path.write_text(f"#!/bin/sh\n{script}\n")
        path.chmod(0o755)

    def outcome(self, script: str, **more: Any) -> Json:
        """What becomes of a script instead of Ghostscript; afterwards no file is left."""
        self.bin_program("gs", script)
        with ExitStack() as changed:
            for attribute, value in more.items():
                changed.enter_context(mock.patch.object(score_pdf, attribute, value))
            answer = score_pdf.answer(str(self.bin / "abcm2ps"), str(self.bin / "gs"), score_pdf.Question([], [KESH]))
        self.assertEqual(os.listdir(self.files), [])
        return answer

    def printed(self, script: str) -> str:
        """What a script prints, which runs in the walls."""
        return base64.b64decode(self.outcome(f"echo %PDF; {script}")["pdf"]).decode()

    def test_its_own_folder(self) -> None:
        """It writes there, and its files have a limit."""
        self.assertEqual(self.printed("echo one > ./file; read -r line < ./file; echo $line; ulimit -f; ulimit -t; ulimit -v"), "%PDF\none\n131072\n60\n524288\n")

    @unittest.skipIf(not limits.landlock_version(), "Linux has no Landlock")
    def test_other_folders(self) -> None:
        """It neither reads nor writes there."""
        secret = self.folder / "secret"
        secret.write_text("SECRET")
        self.assertEqual(self.printed(f"read -r line < {secret}; echo $line; echo evil > {secret}; echo evil > {self.folder}/evil"), "%PDF\n\n")
        self.assertEqual((secret.read_text(), sorted(os.listdir(self.folder))), ("SECRET", ["files", "secret"]))

    def test_the_one_that_draws_writes_nothing(self) -> None:
        self.bin_program("abcm2ps", "echo evil > ./file; read -r line < ./file; echo %%Page: $line")
        self.assertEqual(self.printed("read -r line; echo $line"), "%PDF\n%%Page:\n")

    def test_its_ends(self) -> None:
        self.assertIn("Ghostscript took too long", self.outcome("while :; do :; done", SECONDS=2)["why"])
        self.assertIn("too large", self.outcome("while :; do echo xxxxxxxxxxxxxxxxxxxxxxxxxxx; done", MOST_BYTES=100_000)["why"])
        self.assertIn("Ghostscript failed on these tunes", self.outcome("kill -SEGV $$")["why"])
        self.assertEqual(self.outcome("exit 1")["why"], "These tunes have no notes to draw.")

    def test_the_end_while_a_pdf_is_made(self) -> None:
        """The server closes, and no process is left."""
        self.bin_program("abcm2ps", "while :; do :; done")
        self.bin_program("gs", "exit 1")
        with Server(0, SharedBookStub(), argparse.Namespace(open=False, plain_sounds=True)) as server:
            self.when_running("/bin/sh", server.server_close)
            self.assertIn("failed", server.pdfs.answer({"header": [], "tunes": [KESH]})["why"])
        until = time.monotonic() + trial.SECONDS
        while self.running():
            self.assertLess(time.monotonic(), until)
            time.sleep(0.01)

    def test_none(self) -> None:
        """The sentence names what to install."""
        with mock.patch.dict(os.environ, {"PATH": str(self.bin)}):
            self.assertEqual(PdfMaker().needs(), {"why": INSTALL_GHOSTSCRIPT})
            self.assertEqual(made(KESH), {"why": INSTALL_GHOSTSCRIPT, "missing": True})
            (self.bin / "gs").touch(0o755)
            self.assertEqual(PdfMaker().needs(), {"why": ""})
            (self.bin / "gs").unlink()
            (self.bin / "abcm2ps").unlink()
            self.assertEqual(PdfMaker().needs(), {"why": INSTALL})
            self.assertEqual(made(KESH), {"why": INSTALL, "missing": True})


class Scripts(page_in_node.PageScripts):
    def test_scripts(self) -> None:
        self.assert_ok("score/page_score_pdf.mjs", 2)


class Requests(test_page_score.Programs):
    """What the server answers."""

    drawing = ""

    def test_who_may_ask(self) -> None:
        """Those with the token alone."""
        question = {"header": [], "tunes": [KESH]}
        self.assertEqual(self.request("", question, path="/x/pdf")[0], 403)
        self.assertEqual(self.request("pdf", question, {"Origin": "http://example.org"})[0], 403)
        self.assertEqual(self.ask("pdf", question), {"why": INSTALL, "missing": True})

    def test_questions_that_are_none(self) -> None:
        for asked in ({}, {"tunes": []}, {"tunes": [KESH]}, {"header": [], "tunes": [[1]]}, {"header": [], "tunes": "X:1"}, {"header": [], "tunes": [KESH] * 10_001}):
            self.assertEqual(self.ask("pdf", asked)["status"], 400, asked)


class Stored(test_page_in_browser.Browser):
    """Someone who stores a PDF."""

    opening = b"X:7\nT:The Kesh\nL:1/4\nK:C\nCE|z2|\n\nX:8\nT:No key\nC\n\nX:9\nT:Last kesh\nK:D\nDE|\n"

    def press_in_dialog(self, identifier: str) -> Any:
        """The name and the bytes of the file that a button of the dialog stores."""
        self.run_script(DOWNLOADS)
        self.run_script("document.getElementById('save-as').click()")
        self.wait(lambda: self.run_script("return !document.getElementById(arguments[0]).disabled", identifier))
        self.driver.find_element("id", identifier).click()
        found = self.wait(lambda: self.run_script("return downloads"))[0]
        return found[0], bytes(found[1])

    @unittest.skipUnless(HAS_PROGRAMS, LACKS)
    def test_a_tune(self) -> None:
        self.wait(lambda: self.text("tune") == "7 The Kesh")
        name, pdf = self.press_in_dialog("tune-pdf")
        self.assertEqual((name, pages_of(pdf), self.text("status")), ("7 The Kesh.pdf", 1, "Stored 7 The Kesh.pdf."))
        self.assertIn("The Kesh", words_of(pdf))
        self.assertNotIn("Last", words_of(pdf))

    @unittest.skipUnless(HAS_PROGRAMS, LACKS)
    def test_the_book(self) -> None:
        """A tune that cannot be drawn is named."""
        name, pdf = self.press_in_dialog("list-pdf")
        self.assertEqual((name, self.text("status")), ("book.pdf", "Stored book.pdf. Not in it: 8 (no K: line, or too long)."))
        self.assertIn("Last kesh", words_of(pdf))

    @unittest.skipUnless(HAS_PROGRAMS, LACKS)
    def test_the_tunes_of_the_filter(self) -> None:
        self.driver.find_element("id", "filter").send_keys("kesh")
        self.assertEqual(self.press_in_dialog("list-pdf")[0], "book 2 tunes.pdf")
        self.assertEqual(self.run_script("return document.getElementById('of-the-list').textContent"), "2 filtered tunes:")


@unittest.skipUnless(shutil.which("abcm2ps"), "abcm2ps is not installed")
class Printed(test_page_score.Programs, test_page_in_browser.Browser):
    """Someone without Ghostscript."""

    opening = Stored.opening
    drawing = f"exec {shutil.which('abcm2ps')} \"$@\""

    def test_the_browser_prints(self) -> None:
        """All tunes that can be drawn, and the page says what to install."""
        self.run_script("window.print = () => { window.printed = document.querySelectorAll('#paper svg').length; }")
        self.run_script("document.getElementById('save-as').click()")
        self.driver.find_element("id", "list-pdf").click()
        self.assertEqual(self.wait(lambda: self.run_script("return window.printed")), 2)
        self.assertEqual(self.text("status"), INSTALL_GHOSTSCRIPT)
