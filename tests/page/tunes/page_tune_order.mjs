// Tries how the tunes of a book are moved, sorted, numbered and deleted, and how another book comes to it, without a browser. The folder of
// the page's scripts is the argument. Each test prints a line, `ok` or `FAILED`, with its name.

import { pathToFileURL } from "node:url";

import { run, same } from "../testing.mjs";

const from = (name) => import(pathToFileURL(`${process.argv[2]}/${name}.js`));
const { deleted, moved, renumbered, sorted } = await from("tunes/tune_order");
const { linesOfFile, merged } = await from("tunes/merged_books");

const BOOK = ["%%MIDI program 1", "", "X:3", "T:The Banshee", "R:reel", "K:G", "G|", "", "", "X: 1 % one", "T:a Maid % old", "K:Em", "E|", "X:7", "K:none", "C|", ""];
const STARTS = [2, 9, 13];

/** Lines after edits at places of the present text. */
const after = (lines, ...edits) => edits.reduceRight((now, { start, taken, put }) => {
  same(now.slice(start, start + taken.length), taken);
  return [...now.slice(0, start), ...put, ...now.slice(start + taken.length)];
}, lines);

const [HEAD, FIRST, SECOND, THIRD] = [BOOK.slice(0, 2), BOOK.slice(2, 7), BOOK.slice(9, 13), BOOK.slice(13, 16)];

const tests = {
  "a tune is moved back and on, and a blank line parts it from the next one"() {
    const back = moved(BOOK, STARTS, 1, -1), on = moved(BOOK, STARTS, 1, 1);
    same([after(BOOK, back.edit), back.line], [[...HEAD, ...SECOND, "", "", ...FIRST, ...THIRD, ""], 2]);
    same([after(BOOK, on.edit), on.line], [[...HEAD, ...FIRST, "", "", ...THIRD, "", ...SECOND, ""], 13]);
    const bare = ["X:1", "C", "", "X:2", "D", "E"], last = moved(bare, [0, 3], 0, 1);
    same([after(bare, last.edit), last.line], [["X:2", "D", "E", "", "X:1", "C"], 4]);
  },

  "tunes are sorted by title without its article, by key and by rhythm; those without one come last"() {
    const book = ["X:1", "T:The Maid", "K:Em", "", "X:2", "T:banshee", "R:reel", "K:G", "", "X:3", "K:none", "", "X:4", "T:A Maid", "R:Jig", "K:D mix", "", "X:5", "T:Tune 10", "K:D", "", "X:6", "T:Tune 9", "R:jig", "K:F#m", ""];
    const starts = book.flatMap((line, n) => (line.startsWith("X:") ? [n] : []));
    const order = (by) => after(book, sorted(book, starts, by)).flatMap((line) => (line.startsWith("X:") ? [Number(line.slice(2))] : []));
    same([order("title"), order("key"), order("rhythm")], [[2, 1, 4, 6, 5, 3], [5, 4, 1, 6, 2, 3], [4, 6, 2, 1, 3, 5]]);
    same(sorted(BOOK, STARTS, "title"), null);
  },

  "tunes are numbered in their order, and each changes its line alone"() {
    const edits = renumbered(BOOK, STARTS);
    same(edits.map(({ start, put }) => [start, ...put]), [[2, "X:1"], [9, "X: 2 % one"], [13, "X:3"]]);
    same(renumbered(["X:1", "X:2% two"], [0, 1]), []);
  },

  "a tune is deleted with the blank lines after it; a text keeps a line"() {
    same(after(BOOK, deleted(BOOK, STARTS, 0)), [...HEAD, ...SECOND, ...THIRD, ""]);
    same(after(BOOK, deleted(BOOK, STARTS, 2)), [...HEAD, ...FIRST, "", "", ...SECOND]);
    same(after(["X:1", "C"], deleted(["X:1", "C"], [0], 0)), [""]);
  },

  "another book comes to the end, with free numbers and the fields of its header"() {
    const others = ["Tunes of mine", "M:3/4", "%%MIDI program 2", "", "X:3", "T:a", "K:C", "C", "", "words", "", "X:9 % nine", "K:D", "", "X:", "K:E"];
    const { edit, tunes, renumbered: count } = merged(BOOK, [3, 1, 7], others);
    same([tunes, count], [3, 2]);
    const put = ["X:10", "M:3/4", "%%MIDI program 2", "T:a", "K:C", "C", "", "words", "", "X:9 % nine", "M:3/4", "%%MIDI program 2", "K:D", "", "X:11", "M:3/4", "%%MIDI program 2", "K:E"];
    same(after(BOOK, edit), [...BOOK.slice(0, -1), "", ...put, ""]);
    same([merged(BOOK, [], ["T:no tune"]), merged(["X:1"], [999_999_999], ["X:x"])], [null, null]);
    same(merged([""], [], ["X:20", "X:20"]).edit.put, ["X:20", "X:21", ""]);
    same(after([""], merged([""], [], ["X:1", "C", ""]).edit), ["X:1", "C", ""]);
  },

  "a file is UTF-8 or Windows-1252, and its lines end in any way"() {
    same(linesOfFile(Uint8Array.of(0xef, 0xbb, 0xbf, 88, 13, 10, 0xc3, 0xa9, 10)), ["X", "\u00e9", ""]);
    same(linesOfFile(Uint8Array.of(0x93, 0xe9, 13, 10, 67)), ["\u201c\u00e9", "C"]);
  },
};

await run(tests);
process.exit(0);
