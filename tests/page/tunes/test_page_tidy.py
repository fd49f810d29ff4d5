"""What tidies a tune: in node, and by the files of texts that were tidied."""

import json
import random

import page_in_node
import test_page_transpose
import trial


class Scripts(page_in_node.PageScripts):
    def test_scripts(self) -> None:
        self.assert_ok("tunes/page_tidy.mjs", 6)


class Heard(test_page_transpose.PlayedTexts):
    """A text that was tidied has the same files, and is tidy."""

    def assert_same_files(self, texts: list[list[str]]) -> None:
        once = self.tidied(texts)
        for lines, found, again in zip(texts, once, self.tidied(once)):
            with self.subTest(lines=lines, found=found):
                before = {number: self.book.midi(number) for number in self.load(lines)}
                self.assertEqual({number: self.book.midi(number) for number in self.load(found)}, before)
                self.assertEqual(again, found)
        self.assertNotEqual(once, texts)

    def tidied(self, texts: list[list[str]]) -> list[list[str]]:
        """Texts that are tidied."""
        asked = []
        for lines in texts:
            self.load(lines)
            asked.append({"lines": lines, "rows": self.rows(lines)})
        return [json.loads(row) for row in self.node("tunes/page_tidy.mjs", json.dumps(asked), ["--tidy"])]

    def test_tricky_tunes(self) -> None:
        self.assert_same_files([text.split("\n") for text in test_page_transpose.TRICKY.values()])

    def test_examples(self) -> None:
        self.assert_same_files([(trial.TOP / "examples" / name).read_text("utf-8").split("\n") for name in ("four_tunes.abc", "sounds.abc")])

    def test_random_tunes(self) -> None:
        """Music without and with many lengths, bar lines and spaces."""
        chance = random.Random(trial.seed)
        pieces = ["A2/2", "A//", "A/2", "z4/2", "Z1", "[C2/2E]4/", "|", "|1", ":|2", "| 1", "||", "|:", "-", ">", " ", "  ", "\t", "(3", "[1", "2", "'", "% x", "[K:D]"]
        texts = [trial.random_tune(chance, 1) for _ in range(30)]
        for _ in range(60):
            body = ["".join(chance.choice(pieces) for _ in range(20)).strip() or "A" for _ in range(4)]
            texts.append(["X:1", "M:4/4", "K:C", *body])
        self.assert_same_files(texts)
