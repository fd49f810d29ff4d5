// Tries the filter of the tunes, and what the page says when there is nothing to show, without a browser. The folder of the
// page's scripts is the argument. Each test prints a line, `ok` or `FAILED`, with its name.

import { pathToFileURL } from "node:url";

import { run, same } from "../testing.mjs";

const from = (name) => import(pathToFileURL(`${process.argv[2]}/${name}.js`));
const { STARTER, whyBlank, whyNothing } = await from("tunes/empty_states");
const { Filter, folded } = await from("tunes/tune_filter");

const tests = {
  "the filter takes accents and capitals for nothing"() {
    const filter = new Filter(), rows = [[0, 1, "Ó Súilleabháin’s", true], [5, 12, "The Kesh", true], [9, 2, "Straße 12", true], [12, 31, "Bjørn", true]];
    const sifted = (...words) => Object.assign(filter, { words }).rows(rows).map((row) => row[1]);
    same([sifted("suil"), sifted("12"), sifted("kesh", "the"), sifted("strasse"), sifted("bjorn"), sifted("1", "o"), sifted()], [[1], [12, 2], [12], [2], [31], [1], [1, 12, 2, 31]]);
    same(folded("ÉÈÖ"), "eeo");
  },

  "why there is nothing to see"() {
    const why = (more) => whyNothing({ lines: ["X:1", "C"], rows: [[4, 7, "", true]], faults: [], row: null, notes: null, ...more });
    const tunes = [[4, 7, "", true], [9, 7, "", false], [20, 0, "", true], [30, 0, "", false]];
    same(why({ lines: ["", " "], rows: [] }), "The book is empty. A tune begins with a line X:1.");
    same(why({ rows: [] }), "This text has no tune. A tune begins with a line X: and its number, as X:1.");
    same(why(), "The caret is before the first tune, which begins at line 5.");
    same(why({ rows: tunes, row: tunes[1] }), "Number 7 is used at line 5; this tune has no file.");
    same(why({ rows: tunes, row: tunes[1], faults: [[9, 0, 2, "TuneTooLong"]] }), "This tune is too long; it has no file.");
    same(why({ rows: tunes, row: tunes[3] }), "This tune has no number, as the one at line 21; it has no file. Write one, as X:2.");
    same(why({ row: tunes[0], notes: 0 }), "Tune 7 has no notes yet.");
    same(why({ row: tunes[2], notes: 0, faults: [[20, 0, 2, "BadReference"]] }), "This tune has no notes yet, and its number cannot be read. Write it as X:1.");
    same([why({ row: tunes[0] }), why({ row: tunes[0], notes: 3 })], ["", ""]);
    same([STARTER[0], STARTER.at(-1), STARTER.filter((line) => line.startsWith("K:")).length], ["X:1", "", 1]);
  },

  "what an empty sheet says"() {
    same([whyBlank("reels.abc", null), whyBlank("reels.abc", "a digest"), whyBlank("", null)],
      ["There is no file reels.abc yet. The first save makes it.", "The book is empty.", "The book is empty."]);
  },
};

await run(tests);
process.exit(0);
