"""Texts that no file of the tests can hold: at the limits of lines, notes, fields and numbers. The files are worked by hand (SMF 1.0)."""

from __future__ import annotations

import subprocess

from built_program import HEAD, TOP, ProgramTest

NO_MUSIC = "4D546864000000060001000101E04D54726B0000001100FF510307A12000FF5902000000FF2F00"


def edit(*lines: str) -> str:
    """The command that makes an empty text of these lines."""
    return "".join(f"{line}\n" for line in (f"insert 1 {len(lines)}", *lines))


class Music(ProgramTest):
    def test_voices_with_long_names(self) -> None:
        """Two voices whose names are as long as a line allows differ in their last byte, and are two voices."""
        name = "0" * 65532
        stream = edit("X:1", "K:C", f"V:{name}a", "C", f"V:{name}b", "D") + f"insert 7 2\nV:{name}a\n-E\nhex 1\nfaults\n"
        file = "4D546864000000060001000301E04D54726B0000001200FF510307A12000FF590200008360FF2F00"
        file += "4D54726B0000001600903C508170803C4000904050817080404000FF2F00"
        file += "4D54726B0000000E00913E508170813E408170FF2F00"
        written = "ok written 1 removed"
        self.assert_answers(self.run_program(stream), written, written, file, "1:1 UnevenVoices", "8:1 LooseTie", "end")

    def test_a_chord_of_many_notes(self) -> None:
        """Of 65,000 notes in one chord sixteen sound, and the seventeenth is the fault."""
        ended = self.run_program(edit("X:1", "K:C", f"[{'C' * 65000}]") + "hex 1\nfaults\n")
        file = f"{HEAD}4D54726B00000085{'00903C50' * 16}8170803C40{'00803C40' * 15}00FF2F00"
        self.assert_answers(ended, "ok written 1 removed", file, "3:18 BigChord", "end")

    def test_a_bar_line_of_many_colons(self) -> None:
        """It closes a strain that is played once more than it has colons: 65,001 notes of 240 ticks each, and nine bytes a note."""
        ended = self.run_program(edit("X:1", "K:C", f"C{':' * 65000}|") + "hex 1\nfaults\n")
        file = "4D546864000000060001000201E04D54726B0000001400FF510307A12000FF5902000087B89470FF2F00"
        file += f"4D54726B0008ED35{'00903C508170803C40' * 65001}00FF2F00"
        self.assert_answers(ended, "ok written 1 removed", file, "end")

    def test_endings_in_which_nothing_is_played(self) -> None:
        """A strain of many endings and 65,001 passes."""
        ended = self.run_program(edit("X:1", "K:C", "[1" * 30000, f"|{':' * 65000}|") + "hex 1\nfaults\n")
        self.assert_answers(ended, "ok written 1 removed", NO_MUSIC, "end")

    def test_the_longest_fields(self) -> None:
        """They fill lines of 65,535 bytes: a title, which its event has whole, a note for readers, the text of a tempo, a voice's name."""
        title = "x" * 65533
        lines = ("X:1", f"T:{title}", f"N:{'n' * 65533}", f'Q:"{"q" * 65523}" 1/4=120', "K:C", f"V:{'v' * 65533}", "C|")
        ended = self.run_program(edit(*lines) + "titles\nhex 1\nfaults\n")
        file = f"4D546864000000060001000201E04D54726B0001001500FF0383FF7D{'78' * 65533}00FF510307A12000FF590200008170FF2F00"
        file += "4D54726B0000000D00903C508170803C4000FF2F00"
        self.assert_answers(ended, "ok written 1 removed", f"1 {title}", "end", file, "end")

    def test_a_line_of_faults(self) -> None:
        """Each byte of a line of 65,535 is one."""
        ended = self.run_program(edit("X:1", "K:C", "&" * 65535) + "faults\n")
        self.assert_answers(ended, "ok written 1 removed", *(f"3:{column} BadByte" for column in range(1, 65536)), "end")


class Texts(ProgramTest):
    def test_the_longest_tune(self) -> None:
        """A tune of 1,000,000 notes, the most that are played, has a file; with one note more it has none."""
        ended = self.run_program(edit("X:1", "K:C", *["C" * 100] * 10000) + "hex 1\ninsert 10003 1\nC\nhex 1\n")
        # The conductor: 120 beats a minute, no sharps, the end at tick 240,000,000. The voice: nine bytes a note.
        file = "4D546864000000060001000201E04D54726B0000001400FF510307A12000FF59020000F2B8B800FF2F00"
        file += f"4D54726B00895444{'00903C508170803C40' * 1_000_000}00FF2F00"
        self.assert_answers(ended, "ok written 1 removed", file, "ok written removed 1", "none")

    def test_the_largest(self) -> None:
        """In a text of one line an insertion of 1,048,576 lines makes it too large, and changes nothing. One of 1,048,575 does
        not, and then each further line is refused."""
        stream = "insert 1 1\nX:1\n" + "insert 1 1048576\n" + "\n" * 1048576 + "titles\nfaults\n"
        stream += "insert 1 1048575\n" + "\n" * 1048575 + "insert 1048577 1\n\ntitles\nfaults\nreplace 7 7 1\nx\n"
        wanted = ["ok written 1 removed", "error TooLarge", "1 ", "end", "1:1 MissingKey", "end"]
        wanted += ["ok written removed", "error TooLarge", "1 ", "end", "1048576:1 MissingKey", "end", "ok written removed"]
        self.assert_answers(self.run_program(stream), *wanted)

    def test_numbers_that_are_far_apart(self) -> None:
        """`build` looks at the numbers that have a file. Between these two lie 999,999,997 others: one by one they take minutes."""
        stream = edit("X:1", "K:C", "C", "X:999999999", "K:C", "C") + "build\n" * 20
        quick = ["timeout", "20", *self.words("--dir", self.folder)]
        ended = self.run_words(quick, input=stream.encode())
        written = ["ok written 1 999999999 removed", "written 1.mid", "written 999999999.mid"]
        self.assert_answers(ended, *written, *["end"] * 20)

    def test_a_long_session(self) -> None:
        """A session of two thousand edits has the files, titles and faults of a fresh run over its last text."""
        words = [TOP / "scripts/measure/long_session", *self.words("--reels", "40", "--edits", "2000")]
        ran = subprocess.run(words, capture_output=True, text=True)
        self.assertEqual(ran.returncode, 0, ran.stdout[-2000:] + ran.stderr)
