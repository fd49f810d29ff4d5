"""What `abcm2ps` may read of a tune, what the page may show of its drawing, and the limits in which it runs."""

import errno
import json
import os
import random
import shutil
import signal
import socket
import subprocess
import sys
import tempfile
import threading
import time
import unittest
from collections.abc import Callable, Iterator, Sequence
from contextlib import suppress
from pathlib import Path
from typing import Any, Optional
from unittest import mock

import page_in_node
import trial
from abc2midi_live_clients.page.score import limits as score_limits, readable_lines, score, scorer as scorer_module, svg_markup, walled_program
from abc2midi_live_clients.page.score.score import Answer, NoScore, Question
from abc2midi_live_clients.page.refused import Refused
from abc2midi_live_clients.page.score.scorer import INSTALL, MOST_KEPT, Scorer, found_program, question_of
from abc2midi_live_clients.page.score.svg_markup import NoDrawing, images_of

DRAWS = shutil.which("abcm2ps") or ""
NAMES = ["abc-include", "EPS", "postscript", "ps", "format", "font", "titlefont", "musicfont", "deco", "glyph", "header", "select", "user", "pdfmark"]
BLOCKS = ["ps", "svg", "text", "ml"]
SVG = '<svg xmlns="http://www.w3.org/2000/svg" xmlns:xlink="http://www.w3.org/1999/xlink" width="90px" height="40.5px">{}</svg>'
TAGS = {"svg", "g", "defs", "path", "ellipse", "circle", "line", "rect", "text", "tspan", "use", "place"}


def forms(name: str) -> list[Any]:
    """Lines that name a directive, in all ways in which a program may take one for it."""
    names = {name, name.upper(), name.lower(), name.capitalize(), name.swapcase()}
    starts = ["%%", "%% ", "%%\t", " %%", "\t%%", "\ufeff%%", "%%%", "I:", "I: ", "I:\t", " I:", "i:", "\ufeffI:", "I :"]
    return [f"{start}{one} /etc/passwd" for one in sorted(names) for start in starts]


def hostile_lines() -> list[Any]:
    """Lines that are to be no line of any tune that is drawn."""
    blocks = [f"{start}{word}{block}" for block in BLOCKS for start in ("%%", "%% ", "I:") for word in ("begin", "end", "BEGIN", "Begin")]
    return [line for name in NAMES for line in forms(name)] + blocks


def readable(*lines: str) -> list[Any]:
    """The lines that `abcm2ps` reads of these lines of a tune."""
    return [line.readable for line in readable_lines.tune_lines(list(lines))]


def nodes(tree: list[Any]) -> Iterator[list[Any]]:
    """All nodes of a tree."""
    yield tree
    for child in tree[2:]:
        if isinstance(child, list):
            yield from nodes(child)


def words(images: list[Any]) -> str:
    """All text of images."""
    return " ".join(child for image in images for node in nodes(image) for child in node[2:] if isinstance(child, str))


def places(images: list[Any]) -> list[Any]:
    """The lines and columns of notes, in order."""
    found = [node[1] for image in images for node in nodes(image) if node[0] == "place"]
    return sorted((place["row"], place["column"], place["kind"]) for place in found)


def drawn(*tune: str, header: Sequence[str] = (), width: Optional[int] = 600) -> list[Any]:
    """The images of a tune."""
    return score.score_of(program_found(), Question(tuple(header), tuple(tune), width)).images


def program_found() -> str:
    """The program that draws."""
    found = found_program()
    assert found
    return found


def end_sleep(seconds: str) -> None:
    """Ends a process that sleeps for just this time."""
    for entry in Path("/proc").glob("[0-9]*"):
        with suppress(OSError):
            if (entry / "cmdline").read_bytes() == f"sleep\0{seconds}\0".encode():
                os.kill(int(entry.name), signal.SIGKILL)


def process_of(scorer: Scorer) -> "subprocess.Popen[bytes]":
    """The process that draws."""
    assert scorer.process
    return scorer.process.process


class Readable(unittest.TestCase):
    """No line is read that can name a file or run PostScript."""

    def test_hostile_lines(self) -> None:
        for line in hostile_lines():
            kept = readable("X:1", "T:a", line, "K:C", line, "C")
            self.assertEqual(len(kept), 6, line)
            for one in (kept[2], kept[4]):
                self.assertNotRegex(one, r"^\s*(%.|I)", line)
            self.assertNotIn("%%", "".join(readable_lines.header_lines([line])), line)
            self.assertFalse([one for one in readable_lines.header_lines([line]) if "passwd" in one], line)

    def test_hostile_blocks(self) -> None:
        """The lines between begin and end are no longer PostScript, but music, or gone."""
        block = ["%%beginps", "/secret (x) def", "%%endps", "I:beginsvg", "<script>", "I:endsvg"]
        self.assertEqual(readable("X:1", *block, "K:C")[1::2][:3], ["%", "%", "<script>"])
        self.assertEqual(readable_lines.header_lines(block), [])

    def test_lines_in_lines(self) -> None:
        """What ends a line for some programs does not end one here."""
        for end in "\r\v\f\0\x1c\x85\u2028\u2029":
            for line in (f"C{end}%%EPS x", f"T:a{end}%%EPS x", f"w:a{end}I:EPS x"):
                (kept,) = readable(line)
                self.assertEqual(kept, line.replace(end, " "), repr(end))

    def test_inline_fields(self) -> None:
        """They are remarks of the same length."""
        for field in ("[I:EPS x]", "[ I:EPS x]", "[I :EPS x]", "[\tI\t:EPS x]", "[i:EPS x]", "[I:EPS x", "[r:x]", "[X:5]", "[U:T=!trill!]", "[T:é]"):
            (kept,) = readable(f"CD{field}EF")
            self.assertEqual(len(kept.encode()), len(f"CD{field}EF".encode()), field)
            self.assertRegex(kept, r"^CD\[\s*r\s*: *(\]EF)?$")
        self.assertEqual(readable('"[I:EPS x]"C[M:3/4][I:EPS]'), ['"[r:     ]"C[M:3/4][r:   ]'])

    def test_continued_lines(self) -> None:
        kept = readable("I:abc-include", "+: /etc/passwd", "%%EPS \\", "x.eps", "T:a", "+: b", "%%EPS", "+: x", "K:C", '+: clef="x y"')
        self.assertEqual(kept, ["%", "%", "%", "x.eps", "T:a", "+: b", "%", "%", "K:C", "%"])

    def test_escapes(self) -> None:
        """They would end a line, or a text in PostScript."""
        self.assertEqual(readable("T:a\\012x\\u000ay\\u2028z\\u0041"), ["T:a x y zA"])
        self.assertEqual(readable("T:\\'e\\\"o\\ss\\cc\\\\) foo (\\n"), ["T:éößç ) foo ( n"])
        self.assertEqual(readable("T:$1a$0 $9"), ["T:a $9"])
        self.assertEqual(readable('"\\012x"C\\'), ['" x   "C\\'])
        self.assertEqual(readable("C\\D \\ % \\x", "CD \\ % more"), ["C D \\", "CD \\"])

    def test_names_of_clefs(self) -> None:
        """A name in quotes would be run."""
        evil = 'clef="0 0 foo"'
        for line, wanted in ((f"K:C {evil} treble", "K:C                treble"), (f"V:1 {evil}nm=a", "V:1               nm=a"), (f"C[K:D {evil}]", "C[K:D               ]")):
            self.assertEqual(readable(line), [wanted])
        for word in ('"0 0 foo"', "clef=foo", 'clef=" foo', 'map="x"', "clef=treble|foo", 'name="a', 'stem=up"x"', "cl\\ef=x"):
            self.assertEqual(readable(f"V:1 {word}")[0].strip(), "V:1" if "cl\\" not in word else "V:1 cl", word)
        good = 'V:1 clef=treble-8 name="Violin I" snm=Vl. octave=-1 stem=up stafflines=5 up'
        self.assertEqual(readable(good), [good])

    def test_other_values(self) -> None:
        for line in ("M:) foo (", "L:x", "U:T=foo", 'U:T="x"', "Q:(", "m:~g=x", "d:x", "r:x", "F:/etc/passwd", "I:x", "Z:x"):
            self.assertEqual(readable(line), ["%"], line)
        for line in ("M:C|", "M:(2+3)/8", "L:1/8", "P:(A.B)2", "U:T=!trill!", 'Q:"Allegro" 1/4=120', "%%score (1 2) {3 | 4}", "%%staves [1 2]"):
            self.assertEqual(readable(line), [line])

    def test_numbers(self) -> None:
        """Any line that begins a tune does so for `abcm2ps`, too."""
        self.assertEqual(readable("X:12345678901 words", "X:"), ["X:1", "X:1"])

    def test_music_stays(self) -> None:
        for line in ('|:"Am"~G3 GAB|A3-[Ace]d|{g}e\'dd !trill!gdd|(3abc z/ Z2 x y &\\', "C:|D", "e::f", '"^é𝄞"C "_x"D', "+trill+C", "[1 C :|[2 D |]"):
            self.assertEqual(readable(line), [line])

    def test_bytes_that_are_no_text(self) -> None:
        """They are letters of Latin-1, if it has letters for them; other halves of pairs are none."""
        odd = b"T:Fr\xe8re \xc3\xa9 \xfc".decode("utf-8", "surrogateescape")
        self.assertEqual(readable(odd, "T:\udc85\ud83d\udcff"), ["T:Frère é ü", "T:??ÿ"])
        self.assertEqual(readable_lines.header_lines([odd.replace("T:", "C:")]), ["C:Frère é ü"])

    def test_a_header(self) -> None:
        lines = ["%abc-2.1", " % words", "M:6/8", "T:none", "%%score 1", "K:G", "I:EPS x", "C D E", "X:1"]
        self.assertEqual(readable_lines.header_lines(lines), ["M:6/8", "%%score 1"])
        self.assertEqual(readable_lines.header_lines(["%%EPS x", "M:6/8"]), ["M:6/8"])
        self.assertEqual(readable_lines.header_lines(["% words", "My tunes", "M:6/8"]), [])
        self.assertEqual(readable_lines.header_lines([]), [])

    def test_columns(self) -> None:
        """A text that is replaced in a line of music has as many bytes as before."""
        chance = random.Random(trial.seed)
        bits = ["\\", "012", "\\u266f", "\\'e", "\\ss", '"', "[", "]", "K:", "V:1", "I:", "x", "é", "𝄞", "\ud800", " ", "%", "$1", "clef=", "\\042", "&"]
        for _ in range(2000):
            line = "C" + "".join(chance.choice(bits) for _ in range(chance.randrange(12)))
            (kept,) = readable_lines.tune_lines([line])
            if not kept.readable.endswith("\\"):
                self.assertEqual(len(kept.readable.encode()), len(kept.text.encode()), line)
            self.assertNotIn("\\", kept.readable[:-1])


class Markup(unittest.TestCase):
    """What is shown of a drawing."""

    def shown(self, inside: str) -> list[Any]:
        (image,) = images_of(SVG.format(inside).encode())
        self.assertEqual((image[0], image[1]["width"]), ("svg", "90"))
        return image[2:]

    def test_heights(self) -> None:
        """An image ends a little below its last note or text, whatever the scale there is; it is no higher than its page."""
        note = '<abc type="N" row="3" col="0" x="1" y="20" width="3" height="10"/>'
        svg = SVG.replace("40.5px", "400px")
        unseen = '<defs><text y="300">x</text></defs><path d="m0 300"/>'
        for inside, height in (
            (note, "54.00"), (f'<g transform="scale(0.500)">{note}</g>', "39.00"), (f'<g transform="scale(2)">{note}<g transform="scale(1.500)"><text y="40"/></g></g>', "144.00"),
            ('<text y="390"/>', "400.00"), ("", "24.00"), (unseen, "24.00"),
        ):  # fmt: skip
            (image,) = images_of(svg.format(inside).encode())
            self.assertEqual(image[1], {"width": "90", "height": height, "viewBox": f"0 0 90 {height}"}, inside)

    def test_a_drawing(self) -> None:
        inside = (
            '<style type="text/css">.fill {fill: url(x)}</style><title>x</title><!-- <text>x</text> -->'
            '<g stroke-width="0.70" style="font:italic bold 14.00px Times"><text x="1.5" y="-2" text-anchor="end">A &lt;b&gt; &amp; C</text></g>'
            '<defs><path id="hd" class="fill" d="m-5 .5\n\tc1.2 3 4 5 6 7"/></defs><use x="3" y="4" xlink:href="#hd"/>'
            '<rect x="1" y="2" width="3" height="4" fill="white"/><text>2<abc type="N" row="3" col="0" x="1" y="2" width="3" height="4"/></text>'
        )
        self.assertEqual(
            self.shown(inside),
            [
                ["g", {"stroke-width": "0.70", "font-size": "14.00", "font-family": "Times", "font-style": "italic", "font-weight": "bold"},
                 ["text", {"x": "1.5", "y": "-2", "text-anchor": "end"}, "A <b> & C"]],
                ["defs", {}, ["path", {"d": "m-5 .5  c1.2 3 4 5 6 7", "class": "score-fill", "id": "score-hd"}]],
                ["use", {"x": "3", "y": "4", "href": "#score-hd"}],
                ["rect", {"x": "1", "y": "2", "width": "3", "height": "4", "class": "score-paper"}],
                ["text", {}, "2"],
                ["place", {"kind": "note", "row": 3, "col": 0, "x": "-4.00", "y": "2", "width": "14.00", "height": "4", "heads": [4.0]}],
            ],
        )  # fmt: skip

    def test_a_height_below_0(self) -> None:
        """It reaches upwards, since an element of a browser has none."""
        (place,) = self.shown('<abc type="N" row="3" col="0" x="1" y="140" width="3" height="-125"/>')
        self.assertEqual((place[1]["y"], place[1]["height"]), ("15.00", "125.00"))

    def test_the_heads_of_notes(self) -> None:
        """The breadth is that of the heads, which are drawn before a note's place, and not that of the words below it. The heights of heads go
        from the lowest one on."""
        place = '<abc type="{}" row="3" col="0" x="1" y="2" width="99" height="4"/>'
        heads = '<defs><g id="hd"/><g id="ghd"/><g id="r4"/></defs><use x="{}" y="{}" xlink:href="#{}"/>'
        chord = heads.format(20, 84, "hd") + heads.format(28.5, 87, "hd") + heads.format(10, 99, "r4") + place.format("N")
        found = [node[1] for node in self.shown(chord + heads.format(60, 60, "r4") + place.format("R")) if node[0] == "place"]
        self.assertEqual([(one["x"], one["width"], one.get("heads")) for one in found], [("13.00", "22.50", [87, 84]), ("1", "99", None)])

    def test_unknown_elements(self) -> None:
        """They are left out with all that is in them."""
        for tag in ("script", "foreignObject", "a", "image", "animate", "set", "style", "iframe", "svg", "SCRIPT", "x:script", "handler", "feImage"):
            self.assertEqual(self.shown(f'<{tag} xmlns:x="y" href="x"><text>evil</text><g><path d="m0 0"/></g></{tag}>'), [], tag)
        self.assertEqual(self.shown("<text>a<g>b</g><script>c</script>d</text>evil"), [["text", {}, "a", "d"]])

    def test_unknown_attributes(self) -> None:
        """They are left out, and known ones of another form too."""
        for attribute in (
            'onload="alert(1)"', 'onclick="x"', 'href="#hd"', 'xlink:href="http://x/"', 'xlink:href="javascript:x"', 'xlink:href="#other"', 'style="fill:url(http://x/)"',
            'style="font:1px x;background:url(x)"', 'style="font:1px url(x)"', 'fill="url(#x)"', 'filter="url(x)"', 'class="lit"', 'class="fill x"', 'id="a b"', 'id="\'"',
            'x="1e9"', 'x="calc(1px)"', 'x="NaN"', 'y="12345678"', 'transform="scale(url(x))"', 'transform="x"', 'd="url(x)"', 'mask="x"', 'tabindex="1"', 'xml:base="x"',
        ):  # fmt: skip
            for node in self.shown(f"<g {attribute}/><path {attribute}/><text {attribute}/><use {attribute}/>"):
                self.assertEqual(node[1], {}, attribute)

    def test_references(self) -> None:
        """They lead to what is defined before them: a chain of them cannot turn back or multiply for ever."""
        kinds = self.shown('<defs><g id="a"><use xlink:href="#a"/><use xlink:href="#b"/></g><g id="b"><use xlink:href="#a"/></g></defs>')[0]
        self.assertEqual([len(node) for node in kinds[2:]], [2, 3])
        self.assertEqual(len(self.shown('<g id="a"/><g><use xlink:href="#a"/><use xlink:href="#a"/></g>')), 2)
        doubled = "".join(f'<g id="n{n + 1}"><use xlink:href="#n{n}"/><use xlink:href="#n{n}"/></g>' for n in range(40))
        with self.assertRaises(NoDrawing):
            self.shown(f'<defs><g id="n0"/>{doubled}</defs><use xlink:href="#n40"/>')

    def test_no_plain_svg(self) -> None:
        bomb = '<!DOCTYPE svg [<!ENTITY a "aa"><!ENTITY b "&a;&a;">]>'
        for data in (
            bomb + SVG.format("<text>&b;</text>"), '<!DOCTYPE svg SYSTEM "file:///etc/passwd">' + SVG.format(""), '<?xml-stylesheet href="x"?>' + SVG.format(""),
            SVG.format("<g>"), SVG.format("</g>"), "<svg>", "<svg/>", '<svg width="100%" height="1px"/>', SVG.format("<text></svg>"), SVG.format('<g a="1" a="2"/>'),
            SVG.format("<g>" * 40 + "</g>" * 40), SVG.format("<g/>" * (svg_markup.MOST_ELEMENTS + 1)), "</images><images>",
        ):  # fmt: skip
            with self.assertRaises(NoDrawing, msg=data[:80]):
                images_of(data.encode())

    def test_texts_that_are_no_xml(self) -> None:
        """A name that is no entity, a control, and bytes that are no text are shown as text."""
        self.assertEqual(self.shown("<text>&foo; &#9; &amp;\x01\x7f\x85</text>"), [["text", {}, "&foo; \t &   "]])
        (image,) = images_of(SVG.format("<text>@</text>").encode().replace(b"@", b"\xff\xc3"))
        self.assertEqual(image[2], ["text", {}, "\ufffd\ufffd"])
        self.assertEqual(images_of(b""), [])


@unittest.skipIf(not DRAWS, "abcm2ps is not installed")
class Drawn(trial.Folder):
    """Tunes that `abcm2ps` draws, on a slow machine too."""

    def setUp(self) -> None:
        super().setUp()
        patience = mock.patch.object(score, "SECONDS", trial.SECONDS)
        patience.start()
        self.addCleanup(patience.stop)

    def test_places(self) -> None:
        """Each note is found where it is in the text, and nowhere else."""
        parts = ['|:"é𝄞"', "*C", " ", "*D2", '"\\u266f\\303\\251"', "*[Ac]", "{", "+g", "}", "*^f", " ", "-z", " (3", "*a", "*b", "*c'", ' !trill!"^[I:EPS x]"', "*_B,", "[I:x]", "*E", "|\\"]
        line, wanted = "", []
        for part in parts:
            if part[0] in "*+-":
                wanted.append((5, len(line.encode("utf-16-le")) // 2, {"*": "note", "+": "grace", "-": "rest"}[part[0]]))
            line += part.lstrip("*+-")
        second = "\tG A % C"
        wanted += [(6, 1, "note"), (6, 3, "note"), (8, 0, "note"), (8, 6, "rest")]
        tune = ["X:1", "T:a", "%%score 1 2", "M:none", "K:C", line, second, "V:2", "A,B, z|]"]
        wanted.insert(-1, (8, 2, "note"))
        wanted[-1] = (8, 5, "rest")
        self.assertEqual(places(drawn(*tune, header=["%%flatbeams 1", "not a line of a header", "L:1/8"])), sorted(wanted))

    def test_a_transposition(self) -> None:
        """Names of chords move with the notes, which keep their places in the text. Other numbers are refused."""
        tune = ("X:1", "L:1/4", "K:C", '"Am"CDEF|')
        for semitones, name in ((2, "Bm"), (-2, "Gm"), (9, "F\u266fm"), (0, "Am")):
            images = score.score_of(program_found(), Question((), tune, 600, semitones)).images
            self.assertEqual(places(images), [(3, column, "note") for column in (4, 5, 6, 7)])
            self.assertIn(name, words(images).replace("#", "\u266f"))
        self.assertEqual(question_of({"header": [], "tune": ["X:1"], "width": 9, "transpose": -9}).transpose, -9)
        for wrong in (37, -37, True, "2", 1.5):
            with self.assertRaises(Refused):
                question_of({"header": [], "tune": [], "width": 9, "transpose": wrong})

    def test_tags_in_texts(self) -> None:
        """They are texts: in a title, in lyrics, in an annotation, in the name of a voice."""
        evil = '<script>alert(1)</script>--><text x="1" y="1">evil</text><!-- &lt;i&gt; & &foo;'
        name = evil.replace('"', "'")
        images = drawn("X:1", f"T:{evil}", f"C:{evil}", f'V:1 name="{name}"', f'Q:"{name}"', "K:C", f'"^{name}"CDE|', f"w:{evil.replace(' ', '~')}", f"W:{evil}")
        self.assertLessEqual({node[0] for image in images for node in nodes(image)}, TAGS)
        self.assertEqual(words(images).count("<script>alert(1)</script>--><text x="), 6)
        self.assertNotIn("evil", [child for image in images for node in nodes(image) for child in node[2:]])

    def test_no_file_is_read(self) -> None:
        """Not by any way to name one; one of them is read without the care that is taken."""
        secret = self.folder / "secret.abc"
        secret.write_text("%%text SECRET\n")
        unguarded = subprocess.run([DRAWS, "-q", "-g", "-O-", "-"], input=f"X:1\nK:C\n%%abc-include {secret}\nC\n".encode(), capture_output=True)
        self.assertIn(b"SECRET", unguarded.stdout)
        for name in ("abc-include", "ABC-INCLUDE", "EPS", "format"):
            for form in ("%%{} {}", "%% {} {}", "I:{} {}", "[I:{} {}]", "C[I:{} {}]D", "%%begintext\n%%{} {}\n%%endtext", "I:{}\n+: {}", "C\r%%{} {}\rD"):
                lines = form.format(name, secret).split("\n")
                self.assertNotIn("SECRET", json.dumps(drawn("X:1", *lines, "K:C", *lines, "CDE", *lines, header=lines)), lines)

    def test_no_postscript_runs(self) -> None:
        """What runs is seen by an error of `abcm2ps`; without care it is seen."""
        self.assertIn("zzz", errors_of("X:1\nT:a\\012zzz\nK:C\nC\n"))
        self.assertIn("zzz", errors_of('X:1\nK:C clef="0 0 zzz"\nC\n'))
        self.assertIn("zzz", errors_of("X:1\nK:C\n%%postscript zzz\nC\n"))
        for line in ("T:a\\012zzz", "T:a\\u000azzz", 'K:C clef="0 0 zzz"', 'C[K:C clef="0 0 zzz"]D', "%%postscript zzz", "%%ps zzz", "I:postscript zzz", "[I:postscript zzz]",
                     "%%beginps\nzzz\n%%endps", "I:beginps\nzzz\nI:endps", '"^a\\012zzz"C', "w:a\\012zzz", "T:a\\) zzz (", "M:) zzz (", '"^a\\\n012zzz"C', 'C[K:D clef=\\\n"0 0 zzz"]D', "T:a\\\n012zzz", "T:\\u005c012zzz"):  # fmt: skip
            tune = ["X:1", *line.split("\n"), "K:C", *line.split("\n"), "CDE"]
            text = "\n".join([*readable_lines.header_lines(tune[1:]), *readable(*tune), ""])
            self.assertNotRegex(errors_of(text), "svg|PostScript|Symbol", line)

    def test_random_tunes(self) -> None:
        """Nothing runs, and no line is added, whatever is in a tune."""
        chance = random.Random(trial.seed)
        bits = ["\\", "012", "\\u000a", "\\'e", '"', "(", ")", "[", "]", "{", "}", "%", "$1", "<", "&", "!", "+", "zzz", 'clef="zzz"', 'name="', "K:", "[V:1 ", "Q:", " ", "\r"]
        bits += ["C", "D2", "|", "/", "-->", "\ufeff", "\ud83d", "é", "map=", "stafflines=", "9", ":|", "z", "Z", "(3", "'", ",", "=", ";", "*", "@1,2", "I:", "[I:"]
        starts = ["T:", "C:", "K:", "V:", "M:", "L:", "Q:", "P:", "U:", "w:", "s:", "W:", "+:", "I:", "%%", "%", "", "[", '"', "%%score "]
        for _ in range(trial.changes):
            lines = [chance.choice(starts) + "".join(chance.choice(bits) for _ in range(chance.randrange(1, 12))) for _ in range(6)]
            text = "\n".join([*readable("X:1", *lines[:3], "K:C", "CDEF|", *lines[3:]), ""])
            self.assertEqual(text.count("\n"), 9)
            self.assertNotRegex(errors_of(text), "svg|PostScript|Symbol", repr(text))

    def test_no_notes(self) -> None:
        for tune in (["X:1", "T:a", "K:C"], ["X:1", "K:C", "%%MIDI program 1", "|"]):
            with self.assertRaisesRegex(NoScore, "no notes"):
                drawn(*tune)
        without_key: list[list[str]] = [["X:1", "CDE", "[K:C]"], ["X:1"], []]
        for tune in without_key:
            with self.assertRaisesRegex(NoScore, "no K: line"):
                drawn(*tune)

    def test_paper(self) -> None:
        """A tune that is longer than a page is drawn on several."""
        images = drawn("X:1", "T:Long", "K:C", *["CDEF GABc|" * 8] * 40, width=None)
        self.assertGreater(len(images), 1)
        for image in images:
            self.assertEqual(round(float(image[1]["width"])), 680)
            self.assertLess(float(image[1]["height"]), 927)
        self.assertEqual(len(places(images)), 40 * 64)

    def test_long_tunes(self) -> None:
        """A tune of thousands of notes is drawn whole."""
        self.assertEqual(len(places(drawn("X:1", "T:Long", "K:C", *["CDEF GABc|" * 4] * 150))), 150 * 32)

    def test_a_tune_of_extremes(self) -> None:
        """Texts that make drawings large or slow: what comes is a drawing within the limits, or a sentence."""
        tunes = [
            ["M:4/4", "K:C", f"|:{'C' * 50_000}:|"],
            ["K:C", "C999999999/999999999 D99999999999999999999"],
            ["K:C", "[" + "C" * 5000 + "]", "{" + "g" * 5000 + "}C", "(999999999:1:999999999CDE"],
            [f"%%score {' '.join(map(str, range(900)))}", *(f"V:{n} clef=bass" for n in range(900)), "K:C", *(f"[V:{n}]C" for n in range(900))],
            ["%%staffwidth 1e9cm", "%%scale 1e-9", "%%pagewidth 9999999in", "I:scale 1e9", "K:C stafflines=99999999999 staffscale=99999", "C"],
            [f"T:{'a' * 90_000}", "K:C", "C"],
            [*["T:a"] * 1900, "K:C", "C"],
            ["K:C", f'"{"^;" * 20_000}"C', "w:" + "-" * 20_000],
            ["K:C", *["C&D&E&F|" * 400]],
            ["K:C", "Z999999999|", "x" * 3000, "y" * 3000, "(" * 5000 + "C" + ")" * 5000],
            ["M:" + "1+" * 9000 + "1/4", "K:C " + "^c " * 5000, "C" + "'" * 9000 + "," * 9000],
        ]
        for tune in tunes:
            since = time.monotonic()
            try:
                images = drawn("X:1", *tune)
                self.assertLessEqual({node[0] for image in images for node in nodes(image)}, TAGS)
                outcome = f"{len(json.dumps(images))} characters"
            except NoScore as why:
                outcome = str(why)
                self.assertRegex(outcome, "^(abcm2ps|This tune|The score) .*[.]$")
            self.assertLess(time.monotonic() - since, trial.SECONDS, (tune[-1][:40], outcome))


def errors_of(text: str) -> str:
    """What `abcm2ps` says of a text."""
    asked = subprocess.run([DRAWS, *score.OPTIONS, *score.TO_OUTPUT], input=text.encode(), capture_output=True, timeout=trial.SECONDS, env=score.ENVIRONMENT)
    return asked.stderr.decode("utf-8", "replace")


class Harm(trial.Folder):
    """Programs that are called `abcm2ps` and mean harm."""

    def setUp(self) -> None:
        super().setUp()
        self.bin = Path(tempfile.mkdtemp(prefix="abcm2ps-", dir="/tmp"))
        self.addCleanup(shutil.rmtree, self.bin)
        path = mock.patch.dict(os.environ, {"PATH": f"{self.bin}:{os.environ['PATH']}", "TMPDIR": str(self.files), "SECRET": "1"})
        path.start()
        self.addCleanup(path.stop)
        temporary = mock.patch.object(tempfile, "tempdir", str(self.files))
        temporary.start()
        self.addCleanup(temporary.stop)

    def program(self, script: str) -> None:
        """Makes a script the `abcm2ps` that is found."""
        path = self.bin / "abcm2ps"
        path.write_text(f"#!/bin/sh\n{script}\n")
        path.chmod(0o755)

    def why(self, seconds: Optional[float] = None) -> str:
        """Why there is no score; afterwards no process and no file is left."""
        with mock.patch.object(score, "SECONDS", seconds or trial.SECONDS), self.assertRaises(NoScore) as why:
            drawn("X:1", "K:C", "C")
        self.assertEqual(os.listdir(self.files), [])
        until = time.monotonic() + trial.SECONDS
        while self.running():  # one that is killed takes a moment to end
            self.assertLess(time.monotonic(), until)
        return str(why.exception)

    def running(self) -> list[bytes]:
        """The commands of the processes that have the name of this test's folder in them."""
        found = []
        for entry in Path("/proc").glob("[0-9]*"):
            with suppress(OSError):  # it has ended
                command = (entry / "cmdline").read_bytes()
                if os.fsencode(self.bin) in command and int(entry.name) != os.getpid():
                    found.append(command)
        return found

    def when_running(self, name: str, act: Callable[[], object]) -> None:
        """Acts as soon as a process of this test is one of a program, however long that takes."""

        def wait() -> None:
            while not any(command.startswith(name.encode() + b"\0") for command in self.running()):
                time.sleep(0.01)
            act()

        threading.Thread(target=wait, daemon=True).start()

    def draw(self, inside: str) -> None:
        """Makes a program that draws this."""
        self.program(f"exec cat <<'END' >&1\n{SVG.format(inside)}\nEND")

    def scorer(self) -> Scorer:
        """One that ends with the test."""
        scorer = Scorer()
        self.addCleanup(scorer.close)
        return scorer

    def ask(self, scorer: Scorer, width: int = 600) -> dict[str, Any]:
        """What is answered to a question for a tune."""
        found: dict[str, Any] = json.loads(scorer.answer({"header": [], "tune": ["X:1", "K:C", "C"], "width": width}))
        return found


ATTACKS = """
import ctypes, fcntl, os, resource, signal, socket
from xml.sax.saxutils import escape
port, victim, folder = %r

def send():
    with socket.socket(socket.AF_INET, socket.SOCK_DGRAM) as sender:
        sender.sendto(b"x", ("127.0.0.1", port))

def connect(family, address):
    with socket.socket(family) as caller:
        caller.connect(address)

def own_session():
    child = os.fork()
    if child == 0:
        os.setsid()
        os._exit(0)
    os.waitpid(child, 0)

def call(name, *words):
    libc = ctypes.CDLL(None, use_errno=True)
    if getattr(libc, name)(*words) < 0:
        raise OSError(ctypes.get_errno(), name)

def own_a_pipe():
    reading, writing = os.pipe()
    fcntl.fcntl(reading, fcntl.F_SETOWN, victim)
    fcntl.fcntl(reading, 10, signal.SIGUSR1)  # F_SETSIG

def write(path):
    with open(path, "w") as file:
        file.write("x")

KINDS = {
    "tcp": lambda: connect(socket.AF_INET, ("127.0.0.1", port)),
    "udp": send,
    "unix socket": lambda: connect(socket.AF_UNIX, folder + "/socket"),
    "pair of sockets": socket.socketpair,
    "fork": own_session,
    "spawn": lambda: os.posix_spawn("/bin/true", ["true"], {}),
    "group": lambda: os.setpgid(0, 0),
    "session": os.setsid,
    "signal": lambda: os.kill(victim, signal.SIGCONT),
    "signal to all": lambda: os.kill(-1, 0),
    "limits of another process": lambda: resource.prlimit(victim, resource.RLIMIT_NOFILE, (64, 64)),
    "priority of another process": lambda: os.setpriority(os.PRIO_PROCESS, victim, 19),
    "priority at the disk": lambda: call("syscall", {"x86_64": 251, "aarch64": 30}[os.uname().machine], 1, victim, 3 << 13),
    "policy of another process": lambda: os.sched_setparam(victim, os.sched_param(0)),
    "shared memory": lambda: call("shmget", 0, 4096, 0o1600),
    "signal by a pipe": own_a_pipe,
    "memory file": lambda: os.memfd_create("x"),
    "other memory": lambda: open("/proc/" + str(victim) + "/mem", "rb"),
    "environment": lambda: open("/proc/" + str(victim) + "/environ", "rb").read(),
    "mode": lambda: os.chmod(folder + "/secret", 0o666),
    "mode of an open file": lambda: os.fchmod(os.open(folder, os.O_RDONLY), 0o700),
    "owner": lambda: os.chown(folder + "/secret", os.getuid(), os.getgid()),
    "times": lambda: os.utime(folder + "/secret"),
    "attribute": lambda: os.setxattr(folder + "/secret", "user.x", b"x"),
    "link": lambda: os.link(folder + "/secret", folder + "/link"),
    "symbolic link": lambda: os.symlink("secret", folder + "/symbolic"),
    "rename": lambda: os.rename(folder + "/secret", folder + "/secret"),
    "folder": lambda: os.mkdir(folder + "/made folder"),
    "name space": lambda: call("unshare", 0x10000000),
    "read": lambda: open(folder + "/secret").read(),
    "list": lambda: os.listdir(folder),
    "make": lambda: write(folder + "/made"),
    "empty": lambda: os.truncate(folder + "/secret", 0),
    "remove": lambda: os.unlink(folder + "/secret"),
    "its own folder": lambda: write("made"),
}

def outcome(attack):
    try:
        attack()
    except (OSError, RuntimeError, ValueError) as error:
        return "refused"
    return "done"

found = "; ".join(name + " " + outcome(attack) for name, attack in KINDS.items())
"""
PYTHON = shutil.which("python3", path="/usr/bin:/bin") or ""  # Landlock lets no program of the user's own run


class Walls(Harm):
    """What code that runs as `abcm2ps` can reach."""

    def setUp(self) -> None:
        super().setUp()
        self.bin = self.folder / "bin"
        self.bin.mkdir()
        path = mock.patch.dict(os.environ, {"PATH": f"{self.bin}:{os.environ['PATH']}"})
        path.start()
        self.addCleanup(path.stop)
        victim = subprocess.Popen(["sleep", "1000"])
        self.addCleanup(victim.wait)
        self.addCleanup(victim.kill)
        self.mine = self.folder / "lib"  # beside `bin`, as `~/lib` is
        self.mine.mkdir()
        (self.mine / "secret").write_text("SECRET")
        listener, datagrams, local = socket.create_server(("127.0.0.1", 0)), socket.socket(socket.AF_INET, socket.SOCK_DGRAM), socket.socket(socket.AF_UNIX)
        for each in (listener, datagrams, local):
            self.addCleanup(each.close)
        port = listener.getsockname()[1]
        datagrams.bind(("127.0.0.1", port))
        self.datagrams = datagrams
        local.bind(str(self.mine / "socket"))
        local.listen()
        self.attacks = ATTACKS % ((port, victim.pid, str(self.mine)),)

    def outcomes(self, limits: str) -> dict[str, str]:
        """What becomes of each attack in a process that first calls these functions of `limits`."""
        script = f"import sys; sys.path.insert(0, {str(Path(score.LIMITS).parent)!r})\nimport limits as score_limits\n"
        script += self.attacks.replace("\nfound =", f"\n{limits}\nfound =") + "print(found)\n"
        asked = subprocess.run([sys.executable, "-I", "-S", "-B", "-c", script], cwd=self.folder, capture_output=True, text=True, timeout=trial.SECONDS)
        self.assertEqual(asked.stderr, "")
        return dict(found.rsplit(" ", 1) for found in asked.stdout.strip().split("; "))

    def refused(self, limits: str) -> set[str]:
        """The attacks that are refused then."""
        return {name for name, outcome in self.outcomes(limits).items() if outcome == "refused"}

    def test_all_attacks_are_possible_without_walls(self) -> None:
        """But for what no first process of a session can do, and what a system has not."""
        self.assertLessEqual(self.refused("import os; os.setsid()"), {"group", "session", "signal to all", "name space", "attribute", "other memory"})

    @unittest.skipIf(not PYTHON, "the system has no python3")
    @unittest.skipIf(not score_limits.landlock_version(), "Linux has no Landlock")
    def test_a_stand_in(self) -> None:
        """All is refused to a program that is started as `abcm2ps` is, also what is beside its own folder."""
        drawing = SVG.split("{}")[0] + '<abc type="N" row="3" col="0" x="1" y="2" width="3" height="4"/><text>'
        path = self.bin / "abcm2ps"
        path.write_text(f"#!{PYTHON} -IS\n{self.attacks}\nprint({drawing!r}, escape(found), '</text></svg>')\n")
        path.chmod(0o755)
        self.assertRegex(words(drawn("X:1", "K:C", "C")), r"^\s*(([a-z ]+) refused(; )?){35}\s*$")
        self.assertEqual(sorted(os.listdir(self.mine)), ["secret", "socket"])
        self.assertEqual((self.mine / "secret").read_text(), "SECRET")

    def test_the_filter_alone(self) -> None:
        """It needs no Landlock: nothing but reading is possible, and what reads other processes."""
        possible = {"read", "list", "other memory", "environment"}
        self.assertEqual({name for name, outcome in self.outcomes("assert score_limits.refuse_calls()").items() if outcome == "done"} - possible, set())

    def test_the_filter_of_a_program_that_writes(self) -> None:
        """It makes, empties and removes files if the other walls let it, and does no more."""
        possible = {"read", "list", "other memory", "environment", "make", "empty", "remove", "its own folder"}
        self.assertEqual({name for name, outcome in self.outcomes("assert score_limits.refuse_calls(True)").items() if outcome == "done"} - possible, set())

    @unittest.skipIf(not PYTHON, "the system has no python3")
    @unittest.skipIf(not walled_program.outer_program(), "bubblewrap is not installed, or there are no user namespaces")
    def test_bubblewrap_alone(self) -> None:
        """It shows no other file and no other process. In its network there is nobody: a datagram goes nowhere."""
        limits, program = self.bin / "limits.py", self.bin / "abcm2ps"
        limits.write_text("import os, sys\nprint(flush=True)\nos.execv(sys.argv[2], sys.argv[2:])\n")
        program.write_text(f"#!{PYTHON} -IS\n{self.attacks}\nprint(found)\n")
        program.chmod(0o755)
        found = walled_program.output_of([str(limits), score_limits.DRAWING, str(program)], b"", {}, trial.SECONDS, 1 << 20)
        outcomes = dict(one.rsplit(" ", 1) for one in found.data.decode().strip().split("; "))
        others = {"read", "list", "tcp", "unix socket", "signal", "limits of another process", "priority of another process", "policy of another process"}
        others |= {"signal by a pipe", "other memory", "environment", "priority at the disk", "its own folder"}
        changing = {"make", "empty", "remove", "mode", "owner", "times", "attribute", "link", "symbolic link", "rename", "folder"}
        self.assertEqual({name for name in others | changing if outcomes[name] == "done"}, set())
        self.datagrams.setblocking(False)
        with self.assertRaises(BlockingIOError):
            self.datagrams.recv(1)
        self.assertEqual((found.walls, (self.mine / "secret").read_text()), ({"bubblewrap"}, "SECRET"))

    def test_which_walls_there_are(self) -> None:
        """The page says so, and what to install."""
        self.draw('<abc type="N" row="3" col="0" x="1" y="2" width="3" height="4"/>')
        outer = ["bubblewrap"] if walled_program.outer_program() else []
        files = ["Landlock"] if score_limits.landlock_version() else []
        walls = score.score_of(program_found(), Question((), ("X:1", "K:C", "C"), 600)).walls
        self.assertEqual(walls, f"abcm2ps runs within limits of time and memory, and within: {', '.join([*outer, *files, 'a list of system calls'])}.")
        self.assertEqual(score.note_on(frozenset(["filter", "files"])), "")
        self.assertEqual(score.note_on(frozenset(["filter", "bubblewrap"])), "")
        for is_installed, note in ((True, score.NO_NAMESPACES), (False, score.NO_FOLDERS)):
            with mock.patch.object(score, "is_outer_installed", lambda is_there=is_installed: is_there):
                self.assertEqual(score.note_on(frozenset(["filter"])), note)

    @unittest.skipIf(score_limits.landlock_version() < 4, "Linux has no Landlock that refuses connections")
    def test_landlock_alone(self) -> None:
        """It needs no filter."""
        writing = {"read", "list", "make", "empty", "remove", "its own folder"}
        self.assertLessEqual(writing | {"tcp"}, self.refused("score_limits.end_with_parent(); score_limits.refuse_files('/bin/true')"))

    @unittest.skipIf(not PYTHON, "the system has no python3")
    def test_the_end_of_its_parent(self) -> None:
        """A program that waits for ever ends with the process that started it."""
        path = self.bin / "abcm2ps"
        path.write_text(f"#!{PYTHON} -IS\nimport time\ntime.sleep(1000)\n")
        path.chmod(0o755)
        scorer = self.scorer()
        self.when_running(PYTHON, lambda: process_of(scorer).kill())
        self.assertIn("ended", self.ask(scorer)["why"])
        until = time.monotonic() + trial.SECONDS
        while self.running():
            self.assertLess(time.monotonic(), until)
            time.sleep(0.01)


class Limits(Harm):
    """Its limits of time, memory and output, and what is answered."""

    def test_one_that_loops(self) -> None:
        self.program("while :; do :; done")
        self.assertIn("took too long", self.why(0.5))

    def test_one_that_waits_and_hears_no_signal(self) -> None:
        self.program("trap '' TERM INT HUP; exec sleep 1000")
        self.assertIn("took too long", self.why(0.5))

    def test_one_that_closes_its_output_and_waits(self) -> None:
        self.program("exec >&-; exec sleep 1000")
        self.assertIn("took too long", self.why(0.5))

    def test_one_in_the_present_folder(self) -> None:
        """It is not run, whatever the path says."""
        self.program("exit 1")
        here = os.getcwd()
        os.chdir(self.bin)
        self.addCleanup(os.chdir, here)
        for path in (".", "", f".:{self.files}", f"../{self.bin.name}"):
            with mock.patch.dict(os.environ, {"PATH": path}):
                self.assertIsNone(found_program(), path)
        self.assertEqual(found_program(), str(self.bin / "abcm2ps"))

    def test_one_that_writes_without_end(self) -> None:
        self.program("while :; do echo xxxxxxxxxxxxxxxxxxxxxxxxxxxxxxxxxxxxxxxxxxxxxxxxxxxxxxxxxxxxxxxx; done")
        with mock.patch.object(score, "MOST_BYTES", 100_000):
            self.assertIn("too large", self.why())

    def test_one_that_takes_memory(self) -> None:
        """It gets no more than a half of a gigabyte, and the sentence comes at once."""
        self.program("x=x; while :; do x=$x$x; done")
        self.assertRegex(self.why(), "can be shown|no notes|failed on this tune")

    def test_one_that_fails(self) -> None:
        self.program("kill -SEGV $$")
        self.assertIn("failed on this tune", self.why())
        self.program("exit 1")
        self.assertIn("no notes", self.why())
        self.program("echo no svg; echo '<svg'")
        self.assertIn("can be shown", self.why())

    def test_one_that_cannot_run(self) -> None:
        (self.bin / "abcm2ps").write_bytes(b"\0\0\0\0")
        (self.bin / "abcm2ps").chmod(0o755)
        self.assertRegex(self.why(), "no notes|can be shown|started|failed")

    def test_answers_that_are_final(self) -> None:
        """An answer is not if something else than the tune is its reason."""
        question = Question((), ("X:1", "K:C", "C"), 600)
        self.program("exit 1")
        self.assertTrue(score.answer(program_found(), question).is_final)
        with mock.patch.object(subprocess, "Popen", side_effect=OSError(errno.EAGAIN, "Try again")):
            answer = score.answer(program_found(), question)
        self.assertEqual(answer, (b'{"why": "abcm2ps cannot be run: Try again."}', False))

    def test_a_full_disk(self) -> None:
        """The sentence says so, and the process that draws goes on."""
        self.program("exit 1")
        question = Question((), ("X:1", "K:C", "C"), 600)
        with mock.patch.object(tempfile, "TemporaryFile", lambda: open("/dev/full", "w+b")):
            answer = score.answer(program_found(), question)
        self.assertEqual(answer, (b'{"why": "abcm2ps cannot be run: No space left on device."}', False))
        full = OSError(errno.ENOSPC, "No space left on device")
        scorer = self.scorer()
        with mock.patch.object(tempfile, "TemporaryDirectory", side_effect=full):
            why = self.ask(scorer)["why"]
        self.assertEqual(why, "The process that draws scores cannot be started: No space left on device.")
        self.assertIn("no notes", self.ask(scorer)["why"])

    def test_none(self) -> None:
        """The sentence comes until there is one."""
        scorer = self.scorer()
        with mock.patch.dict(os.environ, {"PATH": str(self.bin)}):
            self.assertEqual(self.ask(scorer), {"why": INSTALL, "missing": True})
            self.assertEqual(INSTALL, "To see the score, install abcm2ps: sudo apt install abcm2ps")
            self.program("exit 1")
            self.assertEqual(self.ask(scorer), {"why": "This tune has no notes to draw."})

    def test_answers_that_are_kept(self) -> None:
        """A tune that is asked for again is not drawn again, until others were asked for."""
        scorer = self.scorer()
        self.program("exit 1")
        self.assertIn("no notes", self.ask(scorer)["why"])
        self.draw('<abc type="N" row="3" col="0" x="1" y="2" width="3" height="4"/>')
        self.assertIn("no notes", self.ask(scorer)["why"])
        for width in range(MOST_KEPT):
            self.assertIn("images", self.ask(scorer, width))
        self.assertIn("images", self.ask(scorer))
        self.assertEqual(len(scorer.kept), MOST_KEPT)

    def test_the_answer_that_was_asked_for_last_stays(self) -> None:
        scorer = self.scorer()
        asked: list[Optional[int]] = []
        self.program("exit 1")

        def answer(_: str, question: Question) -> Answer:
            asked.append(question.width)
            return Answer(b"{}", True)

        with mock.patch.object(scorer, "ask_process", answer):
            for width in [*range(MOST_KEPT), 0, MOST_KEPT, 0, 1]:
                self.ask(scorer, width)
        self.assertEqual(asked, [*range(MOST_KEPT), MOST_KEPT, 1])

    def test_a_process_that_ends(self) -> None:
        """The next question starts another one, and the tune is tried again."""
        scorer = self.scorer()
        self.program("while :; do :; done")
        self.when_running("/bin/sh", lambda: process_of(scorer).kill())
        self.assertEqual(self.ask(scorer), {"why": "The process that draws scores ended on this tune."})
        self.program("exit 1")
        self.assertIn("no notes", self.ask(scorer)["why"])

    def test_a_process_that_takes_too_long(self) -> None:
        """Another one replaces it, whatever holds it up, and the tune is not tried again."""
        scorer = self.scorer()
        self.program("exec sleep 1000")
        with mock.patch.object(scorer_module, "SECONDS_OF_THE_PROCESS", 1):
            late = self.ask(scorer)
        self.assertEqual(late, {"why": "The process that draws scores took too long for this tune."})
        self.program("exit 1")
        self.assertEqual(self.ask(scorer), late)
        self.assertIn("no notes", self.ask(scorer, 601)["why"])

    def test_the_end_while_it_draws(self) -> None:
        """Nothing is left."""
        scorer = Scorer()
        self.program("while :; do :; done")
        self.when_running("/bin/sh", scorer.close)
        self.assertIn("ended", self.ask(scorer)["why"])
        self.assertEqual(os.listdir(self.files), [])
        self.assertEqual([process for process in [scorer.process] if process], [])

    def test_its_limits(self) -> None:
        """It is in a folder of its own, without the environment, and with the limits that are meant; it sees the tune alone."""
        place = '<abc type="N" row="3" col="0" x="1" y="2" width="3" height="4"/>'
        self.program(
            "printf '%s' '" + SVG.split("{}")[0] + place + "<text>'\n"
            'ulimit -v; ulimit -f; ulimit -c; ulimit -t; ulimit -n; pwd -P; echo "[$SECRET$HOME$USER$XDG_STATE_HOME]"\n'
            "echo '</text><text>'; while read -r line; do echo \"$line;\"; done; echo '</text></svg>'"
        )  # fmt: skip
        with mock.patch.dict(os.environ, {"HOME": "/x", "USER": "x"}):
            images = drawn("X:1", "%%EPS x", "K:C", "C", header=["M:3/4", "free text"])
        folder = f"{os.path.realpath(self.files)}/[a-z0-9_]*"
        self.assertRegex(words(images), rf"524288\s0\s0\s4\s64\s{folder}\s\[\]")
        self.assertIn("M:3/4;\n;\nX:1;\n%;\nK:C;\nC;\n", words(images).replace(" ", ""))
        self.assertEqual(os.listdir(self.files), [])

    def test_it_writes_no_file(self) -> None:
        """Not in its folder, and not elsewhere."""
        for where in (".", str(self.folder), str(self.bin), "/tmp"):
            self.program(f"echo evil >{where}/evil; echo evil >>{self.bin}/abcm2ps")
            self.why()
            self.assertFalse([path for path in (Path(where) / "evil", self.bin / "evil") if path.exists() and path.stat().st_size])
            self.assertNotIn("\nevil", (self.bin / "abcm2ps").read_text())

    def test_it_reads_no_file_of_the_user(self) -> None:
        """If Linux has Landlock."""
        secret = self.folder / "secret"
        secret.write_text("SECRET")
        place = '<abc type="N" row="2" col="0" x="1" y="2" width="3" height="4"/>'
        self.program(f"printf '%s' '{SVG.split('{}')[0]}{place}<text>'; read -r line <{secret}; echo \"$line</text></svg>\"")
        self.assertNotIn("SECRET", words(drawn("X:1", "K:C", "C")))

    def test_its_drawing_is_cleaned(self) -> None:
        place = '<abc type="N" row="3" col="0" x="1" y="2" width="3" height="4" onload="x"/>'
        self.draw(f'<script>alert(1)</script><g onload="alert(1)">{place}<text style="background:url(http://x)">a</text></g><foreignObject><b/></foreignObject>')
        (image,) = drawn("X:1", "K:C", "C")
        self.assertEqual(image[2:], [["g", {}, ["place", {"kind": "note", "x": "1", "y": "2", "width": "3", "height": "4", "row": 1, "column": 0}], ["text", {}, "a"]]])

    def test_tunes_that_are_too_long(self) -> None:
        self.program("exit 1")
        for tune in (["K:C"] * (score.MOST_LINES + 1), ["K:C", "C" * score.MOST_CHARACTERS]):
            with self.assertRaisesRegex(NoScore, "too long"):
                drawn(*tune)


class Unfiltered(Harm):
    """A system without libseccomp and bubblewrap."""

    def setUp(self) -> None:
        super().setUp()
        folder, limits = str(Path(score.LIMITS).parent), self.folder / "limits.py"
        limits.write_text(f"import sys; sys.path.insert(0, {folder!r})\nimport limits as score_limits\nscore_limits.LIBRARY = 'none'\nscore_limits.main()\n")
        without_filter = mock.patch.object(score, "LIMITS", str(limits))
        without_filter.start()
        self.addCleanup(without_filter.stop)
        without_bubblewrap = mock.patch.object(walled_program, "outer_program", str)
        without_bubblewrap.start()
        self.addCleanup(without_bubblewrap.stop)

    def test_a_note(self) -> None:
        """The score says so."""
        self.draw('<abc type="N" row="3" col="0" x="1" y="2" width="3" height="4"/>')
        question = Question((), ("X:1", "K:C", "C"), 600)
        self.assertEqual(json.loads(score.answer(program_found(), question).data)["note"], score.NO_FILTER)
        with mock.patch.object(score, "LIMITS", score_limits.__file__):
            self.assertEqual(json.loads(score.answer(program_found(), question).data)["note"], "")

    def test_one_that_leaves_others(self) -> None:
        """They are killed too, those that hear no signal as well."""
        self.program("(trap '' TERM HUP; while :; do sleep 1000; done) & (while :; do sleep 1000; done) & exit 0")
        self.assertIn("took too long", self.why(0.5))
        self.program("(trap '' TERM HUP; exec >&-; while :; do sleep 1000; done) & exit 0")
        self.assertIn("no notes", self.why())

    def test_one_whose_child_leaves_the_group(self) -> None:
        """It keeps the output open, and nobody waits for it longer."""
        seconds = f"1000.{os.getpid()}{random.randrange(10**9)}"
        self.addCleanup(end_sleep, seconds)
        self.program(f"setsid sleep {seconds} & exit 0")
        self.assertIn("took too long", self.why(0.5))


class Scripts(page_in_node.PageScripts):
    """What the page makes of a drawing, in node."""

    def test_scripts(self) -> None:
        self.assert_ok("score/page_score.mjs", 6)
