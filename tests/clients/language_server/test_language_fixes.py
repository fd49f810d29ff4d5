"""Quick fixes: what the sentences of faults and hints name."""

import trial
from abc2midi_live_clients.common.faults import sentences
from abc2midi_live_clients.common.json_object import Json
from abc2midi_live_clients.hints import NAMES
from abc2midi_live_clients.language_server.code_actions import FIXES
from language_editor import URI, Editor, edited, span

# The name of a fault or a hint, a text with it, the text after its fix, and whether the fix is preferred.
MENDED = [
    ("Unclosed", 'X:1\nK:C\n"Em DEFD|\n', 'X:1\nK:C\n"Em" DEFD|\n', True),
    ("SameNumber", "X:1\nK:C\nC\n\nX: 1 % x\nK:C\nC\n", "X:1\nK:C\nC\n\nX: 2 % x\nK:C\nC\n", True),
    ("BadReference", "X:0 % x\nK:C\nC\n", "X:1 % x\nK:C\nC\n", True),
    ("BadByte", "X:1\nK:C\n+trill+C\n", "X:1\nK:C\n!trill!C\n", True),
    ("BadByte", "X:1\nK:C\nC5}D\n", "X:1\nK:C\nC5D\n", False),
    ("LostSharp", "X:1\nK:C\nF#2 #G|\nA#|\n", "X:1\nK:C\n^F2 ^G|\n^A|\n", True),
    ("LooseTie", "X:1\nK:C\nC2 -|C\n", "X:1\nK:C\nC2-|C\n", True),
    ("MissingKey", "X:1\nT:a\n% b\nCDE\n", "X:1\nT:a\n% b\nK:C\nCDE\n", True),
    ("BadMeter", "X:1\nM:4 / 4 % x\nK:C\nC\n", "X:1\nM:4/4 % x\nK:C\nC\n", True),
    ("BadTempo", "X:1\nQ:Lively\nK:C\nC\n", 'X:1\nQ:"Lively"\nK:C\nC\n', True),
    ("BadPart", "X:1\nK:C\nP:a\nC\n", "X:1\nK:C\nP:A\nC\n", True),
    ("BadProgram", "X:1\n%%MIDI program 128\nK:C\nC\n", "X:1\n%%MIDI program 127\nK:C\nC\n", True),
    ("LostProgram", "X:1\n%%MIDI program 1 41\nK:C\nC\n", "X:1\n%%MIDI program 41\nK:C\nC\n", True),
    ("LostFlat", 'X:1\nM:2/4\nL:1/4\nK:C\nBb D|[Bb]2|\n"Bb"EbC|Bbag|=Bb|ab\n', 'X:1\nM:2/4\nL:1/4\nK:C\n_B D|[Bb]2|\n"Bb"_EC|_Bag|=Bb|ab\n', False),
    ("GermanNote", 'X:1\nK:C\nH2 h/|\n"H"GHc|\n', 'X:1\nK:C\nB2 b/|\n"H"GBc|\n', False),
    ("Markup", 'X:1\nK:C\n<pre>\nA<b>c|"<br>"C<br>|&nbsp;\n</pre>\n', 'X:1\nK:C\n%\nA<b>c|"<br>"C|\n%\n', True),
    ("BadByte", 'X:1\nK:C\n\u201cBb\u201dB,2|"a \u201cb\u201d"c\u2019\n', 'X:1\nK:C\n"Bb"B,2|"a \u201cb\u201d"c\'\n', True),
    ("BadByte", "X:1\nK:C\nC\xa0D\u2003E|\n", "X:1\nK:C\nC D E|\n", True),
    ("Unclosed", 'X:1\nK:C\n"Em\u201dDEF \u201cG\u201d G\n', 'X:1\nK:C\n"Em"DEF "G" G\n', True),
    ("NoTune", "Hello\n\nT:a\nK:C\nCDE|\n", "Hello\n\nX:1\nT:a\nK:C\nCDE|\n", False),
    ("BagpipeKey", "X:1\nK: HP\nC\n", "X:1\nK: D\nC\n", True),
    ("FreeMusic", "X:1\nK:C\nCDE|\n\nFGA|CDE|\n", "X:1\nK:C\nCDE|\n%\nFGA|CDE|\n", True),
    ("FreeMusic", "T:a\nK:C\nCDE|FGA|\n\nX:4\nK:C\nC\n", "X:5\nT:a\nK:C\nCDE|FGA|\n\nX:4\nK:C\nC\n", True),
    ("TextBlock", "X:1\nK:C\nC|\n%%begintext\nabc d\nef\n%%endtext\nC|\n", "X:1\nK:C\nC|\n%%begintext\n%abc d\n%ef\n%%endtext\nC|\n", True),
    ("OpenRepeat", "X:1\nK:C\n|:CDE|FGA|]\n", "X:1\nK:C\n|:CDE|FGA:|\n", False),
    ("OpenRepeat", "X:1\nK:C\n|:CDE|FGA\n", "X:1\nK:C\n|:CDE|FGA:|\n", False),
    ("EmptyChord", "X:1\nK:C\n[]2C\n", "X:1\nK:C\nz2C\n", False),
    ("LoneReturns", "X:1\nK:C\nC|\rD|\n", "X:1\nK:C\nC|\nD|\n", True),
    ("NoTune", "K:C\nCDE|\n", "X:1\nK:C\nCDE|\n", False),
    ("BadOrder", "X:1\nP:(a,b0 % x\nK:C\nP:A\nC|\nP:B\nD|\n", "X:1\nP:(AB) % x\nK:C\nP:A\nC|\nP:B\nD|\n", False),
    ("UnknownPart", "X:1\nP:A(BC3)2(C)4 % x\nK:C\nP:A\nC|\nP:B\nD|\n", "X:1\nP:A(B)2 % x\nK:C\nP:A\nC|\nP:B\nD|\n", False),
    ("BadVoice", "X:1\nK:C\nV:1 octave=low transpose=-2\nC|\n", "X:1\nK:C\nV:1 octave=0 transpose=-2\nC|\n", False),
    ("BadVoice", "X:1\nK:C\nV:1\nC|[V: ]D|\n", "X:1\nK:C\nV:1\nC|[V:2]D|\n", False),
    ("TempoRange", 'X:1\nQ:"Slow" 1/4=1 % x\nK:C\nC|\n', 'X:1\nQ:"Slow" 1/4=120 % x\nK:C\nC|\n', False),
    ("TempoRange", "X:1\nK:C\nC|[Q:1/4=1]D|\n", "X:1\nK:C\nC|[Q:1/4=120]D|\n", False),
    ("BadLength", "X:1\nK:C\nC D0 E|\n", "X:1\nK:C\nC D E|\n", False),
    ("BadLength", "X:1\nK:C\n[C0E]2 [CE]0|\n", "X:1\nK:C\n[CE]2 [CE]0|\n", False),
    ("BadLength", "X:1\nK:C\n[CE]0|\n", "X:1\nK:C\n[CE]|\n", False),
    ("BadTuplet", "X:1\nK:C\n(0CDE F|\n", "X:1\nK:C\n(3CDE F|\n", False),
    ("NestedTuplet", "X:1\nK:C\n(3CD(3EFG|\n", "X:1\nK:C\n(3::2CD(3EFG|\n", False),
    ("NestedTuplet", "X:1\nK:C\n(5:4:5CDE(3EFG|\n", "X:1\nK:C\n(5:4:3CDE(3EFG|\n", False),
    ("BadBroken", "X:1\nK:C\nA2>|B|\n", "X:1\nK:C\nA3|B/2|\n", False),
    ("BadBroken", "X:1\nK:C\nA/<<|[CE]//|\n", "X:1\nK:C\nA/8|[CE]7/16|\n", False),
    ("BadBroken", "X:1\nK:C\nA///>|B3/4|\n", "X:1\nK:C\nA3/16|B3/8|\n", False),
    ("BigChord", "X:1\nK:C\n[C,D,E,F,G,A,B,CDEFGABcde-f]2|\n", "X:1\nK:C\n[C,D,E,F,G,A,B,CDEFGABcd]2|\n", False),
    ("BadEnding", "X:1\nK:C\nC|3-1,0,5 D:|\n", "X:1\nK:C\nC|1-3,5 D:|\n", False),
    ("BadEnding", "X:1\nK:C\nC [2,33 D:|\n", "X:1\nK:C\nC [2 D:|\n", False),
    ("FreeBarRest", "X:1\nK:C\nZ2|C\n", "X:1\nK:C\nz16|C\n", False),
    ("KeyRange", "X:1\nK:C\n^C''''''2 C|\n", "X:1\nK:C\n^C''''2 C|\n", False),
    ("KeyRange", "X:1\nK:C\nc,,,,,,,,\n", "X:1\nK:C\nc,,,,,\n", False),
    ("ShortTuplet", "X:1\nK:C\n(3C|DEF|\n", "X:1\nK:C\n(3Czz|DEF|\n", False),
    ("ShortTuplet", "X:1\nK:C\n(5:4:2C\n", "X:1\nK:C\n(5:4:2Cz\n", False),
    ("TieToOtherKey", "X:1\nK:C\nC2-z2|\n", "X:1\nK:C\nC2z2|\n", True),
    ("TieToOtherKey", "X:1\nK:C\nC2-|D2|\n", "X:1\nK:C\n(C2|D2)|\n", False),
    ("MusicBeforeVoice", "X:1\nK:C\nC|\nV:1\nC|\n", "X:1\nK:C\nV:1\nC|\nV:1\nC|\n", False),
    ("MusicBeforeVoice", "X:1\nK:C\n %\n C|[V:a]C|\n", "X:1\nK:C\n %\n [V:a]C|[V:a]C|\n", False),
]
# Faults and hints whose sentences name no remedy that is one change of the text.
WITHOUT = {"TooManyVoices", "UnevenVoices", "TuneTooLong", "BadLine", "TooLarge"}
WITHOUT |= {"NotUtf8", "NotPlayed", "Overlay", "MidiLine", "LostEnding", "PartInRepeat", "VoiceLengths", "BarLength", "SurplusSyllables", "ManyTunes"}


class Fixes(Editor):
    def actions(self, kinds: list[str]) -> list[Json]:
        """The actions of some kinds in the whole book."""
        context: Json = {"diagnostics": [], "only": kinds}
        found: list[Json] = self.of_book("codeAction", range=span(0, 0, 99, 0), context=context)
        return found

    def test_each(self) -> None:
        """The fix of each fault or hint makes the text that its sentence asks for, of the version that the editor has."""
        for name, before, after, is_preferred in MENDED:
            self.open(before, version=3)
            found = [each for each in self.actions(["quickfix"]) if name in [cause["code"] for cause in each["diagnostics"]]]
            self.assertTrue(found, (name, before))
            (change,) = found[0]["edit"]["documentChanges"]
            self.assertEqual(edited_lines(before, change["edits"]), after, name)
            self.assertEqual((found[0]["isPreferred"], change["textDocument"]), (is_preferred, {"uri": URI, "version": 3}), name)
            mended = [cause["code"] for cause in found[0]["diagnostics"]].count(name)
            left = [[each["code"] for each in self.open(text)].count(name) for text in (before, after)]
            self.assertEqual(left[1], max(0, left[0] - mended), (name, after))  # faults of a line are one diagnostic

    def test_each_has_one(self) -> None:
        """Each fault and each hint has a fix, but for those whose sentences name no single change."""
        self.assertEqual(set(FIXES) | WITHOUT, set(sentences()) | set(NAMES))
        self.assertFalse(set(FIXES) & WITHOUT)
        self.assertLessEqual(set(FIXES), {name for name, *_ in MENDED} | {"BadKey", "BadUnit"})

    def test_all_at_once(self) -> None:
        """All preferred fixes are one edit. Two tunes get two numbers."""
        before = 'X:1\nK:C\n"Em F|}\nF#|\nX:1\nK:C\nC -\n\nX:1\nC\n'
        self.open(before)
        (action,) = self.actions(["source.fixAll"])
        (change,) = action["edit"]["documentChanges"]
        after = 'X:1\nK:C\n"Em" F|}\n^F|\nX:2\nK:C\nC-\n\nX:3\nK:C\nC\n'
        self.assertEqual(edited(before, change["edits"]), after)
        self.assertEqual([each["kind"] for each in self.actions(["source"])], ["source.fixAll"])
        self.assertNotIn("source.fixAll", [each.get("kind") for each in self.actions([""])])
        self.open("X:1\nK:C\nC\n")
        self.assertEqual(self.actions(["source.fixAll"]), [])

    def test_ends_of_lines(self) -> None:
        """A line that is put in ends like the others."""
        self.open("X:1\r\nT:a\r\nC\r\n")
        (found,) = [each for each in self.actions(["quickfix"]) if each["diagnostics"][0]["code"] == "MissingKey"]
        self.assertEqual(found["edit"]["documentChanges"][0]["edits"], [{"range": span(2, 0, 2, 0), "newText": "K:C\r\n"}])
        self.open("X:1\nT:a")
        (found,) = [each for each in self.actions(["quickfix"]) if each["diagnostics"][0]["code"] == "MissingKey"]
        self.assertEqual(found["edit"]["documentChanges"][0]["edits"], [{"range": span(1, 3, 1, 3), "newText": "\nK:C"}])

    def test_an_editor_without_versions(self) -> None:
        self.abilities = {}
        self.setUp()
        self.open('X:1\nK:C\n"Em D\n')
        (found,) = self.actions(["quickfix"])
        self.assertEqual(found["edit"], {"changes": {URI: [{"range": span(2, 3, 2, 3), "newText": '"'}]}})


class Links(Editor):
    def test_pages(self) -> None:
        """A diagnostic has a link to the page about it."""
        found = self.open("X:1\nK:C\n|:C}|\n")
        pages = {each["code"]: each["codeDescription"]["href"] for each in found}
        docs = trial.clients.parent / "share/doc/abc2midi_live/docs"
        self.assertEqual(pages, {name: (docs / page).as_uri() for name, page in (("BadByte", "faults.md"), ("OpenRepeat", "hints.md"))})
        self.abilities = {}
        self.setUp()
        self.assertFalse(any("codeDescription" in each for each in self.open("X:1\nK:C\n|:C}|\n")))


def edited_lines(text: str, edits: list[Json]) -> str:
    """A text after edits. For an editor a carriage return ends a line, too."""
    return edited(text, edits) if "\r" not in text else edited(text.replace("\r", "\n"), [each for each in edits if each["newText"] != "\n"])
