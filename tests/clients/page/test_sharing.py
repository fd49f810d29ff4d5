"""The address to which links to tunes lead, and QR codes: what is kept, what is answered, and what someone at the page sees."""

import os
import stat
import unittest
from importlib.util import find_spec
from unittest import mock

import served_page
import trial
from abc2midi_live_clients.page import sharing
from abc2midi_live_clients.page.refused import Refused
from abc2midi_live_clients.page.sharing import INSTALL, TOO_LONG, code_of, keep_address, kept_address

ADDRESS = "https://example.org/tunes/"
HAS_CODES = find_spec("segno") is not None


class Addresses(trial.Folder):
    """One for all books of a user."""

    def setUp(self) -> None:
        super().setUp()
        state = mock.patch.dict(os.environ, {"XDG_STATE_HOME": str(self.folder / "state")})
        state.start()
        self.addCleanup(state.stop)
        self.file = self.folder / "state/abc2midi_live/share_address"

    def test_it_is_kept(self) -> None:
        self.assertEqual(kept_address(), {"address": ""})
        for address in (ADDRESS, "http://192.168.0.2:8000/a?b=c", ""):
            self.assertEqual((keep_address({"address": address}), kept_address()), ({"address": address}, {"address": address}))
        self.assertEqual(os.listdir(self.file.parent), ["share_address"])
        self.assertEqual(stat.S_IMODE(self.file.parent.stat().st_mode) & 0o077, 0)

    def test_what_is_no_address(self) -> None:
        """It is refused, and the one before stays."""
        keep_address({"address": ADDRESS})
        for wrong in ("example.org", "javascript:alert(1)", "https://", "https://a b/", "https://a/#x", f"https://{'a' * 501}", "https://a\n", "ftp://a/", 1, None):
            with self.assertRaises(Refused, msg=wrong) as refused:
                keep_address({"address": wrong})
            self.assertEqual(refused.exception.status, 400)
        self.assertEqual(kept_address(), {"address": ADDRESS})

    def test_a_file_that_is_damaged(self) -> None:
        keep_address({"address": ADDRESS})
        for content in (b"javascript:x", b"\xff", b""):
            self.file.write_bytes(content)
            self.assertEqual(kept_address(), {"address": ""})

    def test_a_disk_that_takes_nothing(self) -> None:
        """The window goes on with the address."""
        (self.folder / "state").write_text("a file")
        self.assertEqual((keep_address({"address": ADDRESS}), kept_address()), ({"address": ADDRESS}, {"address": ""}))


class Codes(unittest.TestCase):
    """QR codes of links."""

    def test_none(self) -> None:
        """The sentence names what to install."""
        with mock.patch.object(sharing, "find_spec", return_value=None):
            self.assertEqual(code_of({"text": ADDRESS}), {"why": INSTALL})
        for wrong in ({}, {"text": ""}, {"text": 1}):
            self.assertRaises(Refused, code_of, wrong)

    @unittest.skipUnless(HAS_CODES, "segno is not installed")
    def test_a_code(self) -> None:
        """It is a square with the three marks of a QR code, and another one for another text."""
        rows = code_of({"text": ADDRESS})["rows"]
        self.assertEqual(({len(row) for row in rows}, len(rows) % 4), ({len(rows)}, 1))
        self.assertTrue(set("".join(rows)) == {"0", "1"})
        for row, column in ((0, 0), (0, len(rows) - 7), (len(rows) - 7, 0)):
            self.assertEqual([rows[row + n][column : column + 7] for n in range(4)], ["1111111", "1000001", "1011101", "1011101"])
        self.assertNotEqual(code_of({"text": ADDRESS + "x"})["rows"], rows)

    @unittest.skipUnless(HAS_CODES, "segno is not installed")
    def test_a_long_link(self) -> None:
        link = ADDRESS + "x" * (1273 - len(ADDRESS))
        self.assertEqual((len(code_of({"text": link})["rows"]), code_of({"text": link + "x"})), (117, {"why": TOO_LONG}))


class Requests(served_page.Page):
    """What the server answers."""

    def test_who_may_ask(self) -> None:
        """Those with the token alone."""
        for name, asked in (("share", None), ("share", {"address": ADDRESS}), ("code", {"text": ADDRESS})):
            self.assertEqual(self.request("", asked, path=f"/x/{name}")[0], 403)
        self.assertEqual(self.ask("share"), {"address": ""})
        self.assertEqual(self.ask("share", {"address": ADDRESS}), {"address": ADDRESS})
        self.assertEqual(self.ask("share"), {"address": ADDRESS})
        self.assertEqual(self.ask("share", {"address": "x"})["status"], 400)
        answer = self.ask("code", {"text": ADDRESS})  # the server may have another Python
        self.assertTrue("rows" in answer or answer == {"why": INSTALL}, answer)
