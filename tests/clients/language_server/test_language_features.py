"""What the language server knows of tunes, notes, voices, parts and bars."""

import trial  # noqa: F401
from language_editor import URI, Editor, span
from abc2midi_live_clients.common.json_object import Json

VOICES = "X:1\nT:Two\nP:AB\nV:hi clef=treble\nV:lo clef=bass\nM:4/4\nK:C\nP:A\nV:hi\nC8|\nV:lo\nC,8|\nP:B\n[V:hi]D8|[V:lo]D,8|\n"
SECTIONS = "X:1\nM:4/4\nL:1/4\nK:C\n|:CDEF:|\nGABc|cBAG||\n\nX:2\nK:C\nC\n\n% a\n% b\n"


class Hover(Editor):
    def text(self, line: int, character: int) -> str:
        """The first paragraph at a place."""
        return str(self.at("hover", line, character)["contents"]["value"]).split("\n\n")[0]

    def test_a_note(self) -> None:
        """Middle C is C4 and key 60; a quarter note is 1/4."""
        self.open("X:1\nL:1/8\nK:G\nC2 f _B/ z4 [c'^G,]|!ff!=F\n")
        self.assertEqual(self.text(3, 0), "**C4**, MIDI key 60, velocity 80, length 1/4")
        self.assertEqual(self.text(3, 1), "**C4**, MIDI key 60, velocity 80, length 1/4")
        self.assertEqual(self.text(3, 3), "**F♯5**, MIDI key 78, velocity 80, length 1/8")
        self.assertEqual(self.text(3, 5), "**B♭4**, MIDI key 70, velocity 80, length 1/16")
        self.assertEqual(self.text(3, 9), "**rest**, length 1/2")
        self.assertEqual(self.text(3, 13), "**C6**, MIDI key 84, velocity 80, length 1/8")
        self.assertEqual(self.text(3, 16), "**G♯3**, MIDI key 56, velocity 80, length 1/8")
        self.assertEqual(self.text(3, 25), "**F4**, MIDI key 65, velocity 120, length 1/8")

    def test_the_range_and_the_form(self) -> None:
        self.open("X:1\nT:a*b\nK:C\nC3 D\n")
        found = self.at("hover", 3, 1)
        self.assertEqual((found["range"], found["contents"]["kind"]), (span(3, 0, 3, 2), "markdown"))
        self.assertIn("1 a\\*b, 0:01", found["contents"]["value"])
        self.assertNotIn("range", self.at("hover", 3, 2))

    def test_an_editor_without_markdown(self) -> None:
        self.abilities = {}
        self.setUp()
        self.open("X:1\nT:a*b\nK:C\nC3 D\n")
        contents = self.at("hover", 3, 1)["contents"]
        self.assertEqual(contents, {"kind": "plaintext", "value": "C4, MIDI key 60, velocity 80, length 3/8\n\n1 a*b, 0:01"})

    def test_a_shifted_note(self) -> None:
        """A note that a voice moves by a fifth has another letter: it is G4."""
        self.open("X:1\nV:1 transpose=7\nK:C\nV:1\nC\n")
        self.assertEqual(self.text(4, 0), "**G4**, MIDI key 67, velocity 80, length 1/8")


def tree(symbols: list[Json]) -> list[object]:
    """The names of symbols, with those inside them."""
    return [(each["name"], tree(each["children"])) if each["children"] else each["name"] for each in symbols]


class Outline(Editor):
    def test_voices_and_parts(self) -> None:
        self.open(VOICES)
        found = self.of_book("documentSymbol")
        self.assertEqual(tree(found), [("1 Two", [("part A", ["voice hi", "voice lo"]), ("part B", ["voice hi", "voice lo"])])])
        part = found[0]["children"][0]
        self.assertEqual((part["range"], part["selectionRange"]), (span(7, 0, 11, 4), span(7, 0, 7, 3)))
        self.assertEqual(part["children"][0]["range"], span(8, 0, 9, 3))

    def test_sections(self) -> None:
        self.open(SECTIONS)
        found = self.of_book("documentSymbol")
        self.assertEqual(tree(found), [("1", ["section 1", "section 2"]), "2"])
        self.assertEqual([each["range"] for each in found[0]["children"]], [span(4, 0, 4, 8), span(5, 0, 5, 11)])
        for bar in ("|]", "||", "[|", ":|"):
            self.open(f"X:1\nK:C\nC|D{bar}\nE|\n")
            found = self.of_book("documentSymbol")[0]["children"]
            self.assertEqual([each["range"] for each in found], [span(2, 0, 2, 5), span(3, 0, 3, 1)], bar)

    def test_folding(self) -> None:
        self.open(SECTIONS)
        found = [(each["startLine"], each["endLine"], each["kind"]) for each in self.of_book("foldingRange")]
        self.assertEqual(found, [(0, 5, "region"), (7, 9, "region"), (11, 12, "comment")])
        self.open(VOICES)
        found = [(each["startLine"], each["endLine"], each["kind"]) for each in self.of_book("foldingRange")]
        self.assertEqual(found, [(0, 13, "region"), (7, 11, "region"), (8, 9, "region"), (10, 11, "region"), (12, 13, "region")])

    def test_the_workspace(self) -> None:
        self.open("X:1\nT:Kesh\nK:C\n\nX:2\nT:Blarney\nK:C\n")
        self.open("X:7\nT:The Keshmere\nK:C\n", "file:///other.abc")
        found = self.ask("workspace/symbol", {"query": "KESH"})
        self.assertEqual([(each["name"], each["containerName"]) for each in found], [("1 Kesh", "book.abc"), ("7 The Keshmere", "other.abc")])
        self.assertEqual(found[1]["location"], {"uri": "file:///other.abc", "range": span(0, 0, 2, 3)})


class Names(Editor):
    def places(self, found: list[Json]) -> list[tuple[int, int]]:
        """The places where ranges begin."""
        return [(each["range"]["start"]["line"], each["range"]["start"]["character"]) for each in found]

    def test_a_voice(self) -> None:
        self.open(VOICES)
        all_places = [(4, 2), (10, 2), (13, 12)]
        self.assertEqual(self.at("definition", 13, 13), {"uri": URI, "range": span(4, 2, 4, 4)})
        self.assertEqual(self.places(self.at("references", 4, 2, context={"includeDeclaration": True})), all_places)
        self.assertEqual(self.places(self.at("references", 4, 4, context={"includeDeclaration": False})), all_places[1:])
        found = self.at("documentHighlight", 10, 3)
        self.assertEqual((self.places(found), [each["kind"] for each in found]), (all_places, [3, 2, 2]))
        self.assertIsNone(self.at("definition", 9, 0))
        self.assertEqual(self.at("references", 9, 0, context={}), [])

    def test_a_part(self) -> None:
        """It is defined where it begins, and the order in the header names it."""
        self.open(VOICES)
        self.assertEqual(self.at("definition", 2, 3), {"uri": URI, "range": span(12, 2, 12, 3)})
        self.assertEqual(self.places(self.at("documentHighlight", 12, 2)), [(2, 3), (12, 2)])

    def test_a_rename(self) -> None:
        self.open(VOICES, version=7)
        self.assertEqual(self.at("prepareRename", 13, 12), {"range": span(13, 12, 13, 14), "placeholder": "lo"})
        (change,) = self.at("rename", 13, 12, newName="bass")["documentChanges"]
        self.assertEqual(change["textDocument"], {"uri": URI, "version": 7})
        self.assertEqual([(each["range"]["start"]["line"], each["newText"]) for each in change["edits"]], [(4, "bass"), (10, "bass"), (13, "bass")])
        for name in "hi", "", "a b", "a]", "a%":
            self.assertEqual(self.at("rename", 13, 12, newName=name), -32602, name)
        for letter in "A", "AB", "b", "", 7:
            self.assertEqual(self.at("rename", 2, 3, newName=letter), -32602, letter)
        self.assertEqual(self.at("rename", 9, 0, newName="x"), -32803)

    def test_a_rename_of_a_voice_that_a_score_names(self) -> None:
        """In each of the lines that place voices on staves, and nowhere else in them."""
        self.open("X:1\n%%score [(1 Top)|{1 *Top2}] % Top\nI:staves (Top 1)\n%%staves[Top|1]\n%%scoreTop\n%%scale Top\nK:C\nV:Top\nC\nV:1\nC\n% Top\n")
        named = [(1, 12), (2, 10), (3, 9), (7, 2)]
        for line, character in named:
            (change,) = self.at("rename", line, character, newName="S")["documentChanges"]
            self.assertEqual([(*at["range"]["start"].values(), at["range"]["end"]["character"]) for at in change["edits"]], [(*at, at[1] + 3) for at in named])
            self.assertEqual(self.at("definition", line, character)["range"], span(7, 2, 7, 5))
        for name in "S)", "[S", "S|", "*", "{":
            self.assertEqual(self.at("rename", 7, 2, newName=name), -32602, name)
        self.assertEqual(self.at("rename", 1, 22, newName="S")["documentChanges"][0]["edits"][0]["range"], span(1, 21, 1, 25))
        self.assertEqual(self.at("rename", 5, 9, newName="S"), -32803)
        self.open("X:1\nK:C\nV:1\nC\n")
        self.assertEqual(len(self.at("rename", 2, 2, newName="(S)")["documentChanges"][0]["edits"]), 1)

    def test_a_rename_leaves_the_header_of_the_file(self) -> None:
        """It is of all tunes, and a rename of one."""
        self.open("%%score (Top 1)\n\nX:1\nK:C\nV:Top\nC\n\nX:2\n%%score Top\nK:C\nV:Top\nC\n")
        self.assertEqual(self.places(self.at("rename", 4, 2, newName="S")["documentChanges"][0]["edits"]), [(4, 2)])
        self.assertEqual(self.places(self.at("rename", 10, 2, newName="S")["documentChanges"][0]["edits"]), [(8, 8), (10, 2)])
        self.assertIsNone(self.at("prepareRename", 0, 9))

    def test_other_tunes(self) -> None:
        """A voice of another tune is another voice."""
        self.open("X:1\nK:C\nV:1\nC\n\nX:2\nK:C\nV:1\nC\n")
        self.assertEqual(self.places(self.at("references", 2, 2, context={})), [(2, 2)])


class Bars(Editor):
    def labels(self, text: str) -> list[tuple[int, int, str]]:
        """The line, the character and the number of each bar that is numbered."""
        self.open(text)
        found = self.of_book("inlayHint", range=span(0, 0, 99, 0))
        return [(each["position"]["line"], each["position"]["character"], each["label"]) for each in found]

    def test_lines(self) -> None:
        """The first bar of a line has its number, also after a repeat."""
        text = "X:1\nM:4/4\nL:1/4\nK:C\n|:CDEF|GABc:|\n\"C\"cBAG|FEDC|\nCDEF|]\n"
        self.assertEqual(self.labels(text), [(4, 2, "1"), (5, 3, "3"), (6, 0, "5")])

    def test_a_pickup(self) -> None:
        """A first bar that is shorter than the second has no number."""
        self.assertEqual(self.labels("X:1\nM:4/4\nL:1/4\nK:C\nC|\nCDEF|\nGABc|\n"), [(5, 0, "1"), (6, 0, "2")])

    def test_voices(self) -> None:
        """Each voice counts its own bars. A line that begins inside a bar has the number of that bar."""
        text = "X:1\nM:4/4\nL:1/4\nK:C\nV:1\nCDEF|GA\nBc|\nV:2\nz4|z2\nC2|\n"
        self.assertEqual(self.labels(text), [(5, 0, "1"), (6, 0, "2"), (8, 0, "1"), (9, 0, "2")])

    def test_a_range(self) -> None:
        self.open("X:1\nL:1/4\nK:C\nC4|\nD4|\nE4|\n")
        found = self.of_book("inlayHint", range=span(4, 0, 4, 1))
        self.assertEqual([(each["position"]["line"], each["label"]) for each in found], [(4, "2")])


class Lenses(Editor):
    def test_play_and_stop(self) -> None:
        """Those of tunes with a file: the second tune of a number has none."""
        self.open("X:1\nK:C\nC\n\nX:1\nK:C\nC\n\nX:2\nK:C\nC\n")
        found = [(each["range"], each["command"]["title"], each["command"]["command"]) for each in self.of_book("codeLens")]
        play, stop = ("Play", "abc2midi_live.play"), ("Stop", "abc2midi_live.stop")
        wanted = [(span(line, 0, line, 3), *each) for line in (0, 8) for each in (play, stop)]
        self.assertEqual(found, wanted)
        self.assertEqual(self.capabilities["executeCommandProvider"]["commands"][:2], [play[1], stop[1]])
        self.assertIsNone(self.ask("workspace/executeCommand", {"command": stop[1]}))
        (arguments,) = [each["command"]["arguments"] for each in self.of_book("codeLens")[:1]]
        self.assertTrue(self.ask("workspace/executeCommand", {"command": play[1], "arguments": arguments}).endswith("/1.mid"))


class LateHints(Editor):
    """In a long book the faults and the hints on the first tunes are sent at once. Those on the others follow if no message comes."""

    tunes = [f"X:{number}\nK:C\n|:C|\n" for number in range(1, 251)]

    def places(self, published: Json) -> list[int]:
        """The lines of the hints that are published."""
        return [each["range"]["start"]["line"] for each in published["diagnostics"]]

    def test_a_long_book(self) -> None:
        found = self.open("".join(self.tunes))
        self.assertEqual([each["range"]["start"]["line"] for each in found], [3 * n + 2 for n in range(100)])
        self.assertFalse(self.server.workspace.has_all_hints())
        self.server.workspace.look_on()
        self.assertEqual(len(self.sent), 2)
        self.server.workspace.look_on()
        self.assertTrue(self.server.workspace.has_all_hints())
        self.assertEqual(self.places(self.sent[-1]["params"]), [3 * n + 2 for n in range(200)])

    def test_a_change_between(self) -> None:
        """The tune that is changed is looked at first."""
        self.open("".join(self.tunes))
        change = {"range": span(740, 0, 740, 4), "text": "|:D|E:|[1F|"}
        self.notify("textDocument/didChange", {"textDocument": {"uri": URI, "version": 2}, "contentChanges": [change]})
        self.assertTrue(self.server.workspace.has_all_hints(), "the present text was not asked about")
        self.server.publish_what_is_due()
        self.assertEqual(self.places(self.sent[-1]["params"]), [3 * n + 2 for n in range(199)])
        while not self.server.workspace.has_all_hints():
            self.server.workspace.look_on()
        self.assertEqual(self.places(self.sent[-1]["params"]), [3 * n + 2 for n in range(49, 250) if n != 246])
