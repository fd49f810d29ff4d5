"""What the package knows of the C library, compared with its header."""

import re
import unittest
from ctypes import c_char_p, c_size_t, c_uint8, c_uint32, c_uint64, c_void_p
from unittest import mock

import setting
from abc2midi_live import EntryKind, LibraryMissing, TokenKind, bindings
from abc2midi_live.records import entry_of

HEADER = setting.TOP / "c/abc2midi_live.h"
TYPES = {
    "abc_live_session *": bindings.SESSION,
    "abc_live_work *": bindings.WORK,
    "abc_live_fault *": bindings.FAULT,
    "abc_live_token *": bindings.TOKEN,
    "abc_live_entry *": bindings.ENTRY,
    "const uint8_t *": c_char_p,
    "uint8_t *": c_char_p,
    "uint32_t *": bindings.NUMBER,
    "size_t *": bindings.COUNT,
    "abc_live_code": c_uint32,
    "uint32_t": c_uint32,
    "size_t": c_size_t,
}
FIELDS = {"void *": c_void_p, "uint8_t ": c_uint8, "uint32_t ": c_uint32, "uint64_t ": c_uint64}


class Entries(unittest.TestCase):
    def test_ties_of_silent_and_other_tones(self) -> None:
        """A silent tone has no key and no velocity, and all else that other tones have."""
        kind = EntryKind.NOTE
        for key, velocity, sound in ((bindings.NO_KEY, 0, (None, None)), (60, 80, (60, 80))):
            for ties, flags in ((0, (False, False)), (1, (True, False)), (2, (False, True)), (3, (True, True))):
                found = entry_of((480, 960, 3, 2, 4, kind.value, key, velocity, ties))
                self.assertEqual(tuple(found), (480, 960, kind, *sound, *flags, 3, 2, 4))


class Versions(unittest.TestCase):
    def test_a_library_of_another_major_version(self) -> None:
        with mock.patch("ctypes.CDLL") as library:
            for number, is_taken in (1_000_000, True), (1_999_999, True), (2_000_000, False), (999_999, False):
                library.return_value.abc_live_version.return_value = number
                if is_taken:
                    self.assertIs(bindings.load(str(number)), library.return_value)
                else:
                    with self.assertRaisesRegex(LibraryMissing, f"the major version {number // 1_000_000}, not 1"):
                        bindings.load(str(number))


@unittest.skipUnless(HEADER.is_file(), "the C library is not in this checkout")
class Header(unittest.TestCase):
    def setUp(self) -> None:
        self.header = re.sub(r"/\*.*?\*/", "", HEADER.read_text("utf-8"), flags=re.S)

    def test_calls(self) -> None:
        calls = {}
        for name, words in re.findall(r"^(?:abc_live_code|uint32_t) abc_live_(\w+)\(([^)]*)\);", self.header, re.M):
            types = [re.sub(r"\w+$", "", " ".join(word.split())).strip() for word in words.split(",") if word != "void"]
            calls[name] = [TYPES[word] for word in types]
        self.assertEqual({name: calls.get(name) for name in bindings.CALLS}, bindings.CALLS)

    def test_only_what_is_called_is_bound(self) -> None:
        sources = (setting.TOP / "python/abc2midi_live").glob("*.py")
        called = {name for source in sources for name in re.findall(r"\.abc_live_(\w+)", source.read_text("utf-8"))}
        self.assertEqual(called, set(bindings.CALLS))

    def test_codes(self) -> None:
        numbers = {name: int(number) for name, number in re.findall(r"ABC_LIVE_(\w+) = (\d+)", self.header)}
        for word, kinds in ("TOKEN_", TokenKind), ("ENTRY_", EntryKind):
            found = {name[len(word) :]: numbers.pop(name) for name in [*numbers] if name.startswith(word)}
            self.assertEqual(found, {kind.name: kind.value for kind in kinds if kind.value})
        self.assertEqual([numbers.pop(name) for name in ("JOINED", "TIED")], [bindings.JOINED, bindings.TIED])
        self.assertEqual(numbers, {name: getattr(bindings, name) for name in numbers})
        self.assertEqual(sorted(numbers.values()), list(range(9)))
        self.assertIn(f"#define ABC_LIVE_NO_KEY {bindings.NO_KEY}\n", self.header)

    def test_types(self) -> None:
        kinds = {"session": bindings.CSession, "work": bindings.CWork, "fault": bindings.CFault, "token": bindings.CToken}
        kinds["entry"] = bindings.CEntry
        for name, kind in kinds.items():
            found = re.search(rf"typedef struct abc_live_{name} \{{(.*?)\}} abc_live_{name};", self.header, re.S)
            assert found
            fields = [(field, FIELDS[word]) for word, field in re.findall(r"(\w+ \*?)(\w+);", found[1])]
            self.assertEqual(fields, kind._fields_)

    def test_version(self) -> None:
        found = re.search(r"#define ABC_LIVE_VERSION_NUMBER (\d+)", self.header)
        assert found
        self.assertEqual(int(found[1]) // 1_000_000, bindings.MAJOR)
