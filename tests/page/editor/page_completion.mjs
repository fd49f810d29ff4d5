// Tries completion, without a browser. The arguments are the folder of the page's scripts and the words. Each test prints a line, `ok` or
// `FAILED`, with its name. With a third argument it answers the questions of its input instead.

import { readFileSync } from "node:fs";
import { pathToFileURL } from "node:url";

import { run, same } from "../testing.mjs";

const [, , folder, file, answer] = process.argv;
const { completions, narrowed, situationOf } = await import(pathToFileURL(`${folder}/editor/completion.js`));
const { pairAt } = await import(pathToFileURL(`${folder}/editor/bracket_pairs.js`));
const WORDS = JSON.parse(readFileSync(file, "utf8"));

const where = (before, more = {}) => ({ before, isInHeader: false, number: null, voices: [], ...more });
const texts = (before, more) => completions(WORDS, where(before, more)).map(({ text }) => text);

if (answer) {
  const found = JSON.parse(readFileSync(0, "utf8")).map(([before, isInHeader, number, voices]) => completions(WORDS, { before, isInHeader, number, voices }).map(({ text, meaning, start }) => [text, meaning, start]));
  console.log(JSON.stringify(found));
  process.exit(0);
}

/** The pair at a column of a line, by tokens as [kind, from, to, depth]. */
const pairIn = (line, rows, column) => pairAt(line, rows.map(([kind, start, to, depth = 0]) => ({ kind, from: start, to, depth })), column);

const tests = {
  "the first letter of a line is that of a field, and notes are none"() {
    same(texts("K"), ["K:"]);
    same([texts("C"), texts("C", { isInHeader: true }), texts("AB"), texts("X", { isInHeader: true, number: 4 })], [[], ["C:"], [], ["X:4"]]);
  },

  "a field has values, in a line of music too"() {
    same(completions(WORDS, where("AB [K:")).slice(0, 2), [{ text: "C", meaning: "major, no sharps or flats", start: 6 }, { text: "Am", meaning: "minor, no sharps or flats", start: 6 }]);
    same([texts("M: 6").slice(0, 2), texts("[K:D]"), texts("V:", { voices: ["a", "b"] })], [["4/4", "3/4"], [], ["a", "b"]]);
  },

  "a mark begins after an even number of marks, in music alone"() {
    same([texts("AB !tr"), texts("!p! A !ff"), texts("!trill!"), texts("T:Hey!"), texts("!", { isInHeader: true })], [["!trill!"], ["!ff!", "!fff!"], [], [], []]);
  },

  "what is written already is not offered"() {
    const items = completions(WORDS, where("K:d"));
    same(narrowed(items, "K:d").map(({ text }) => text).slice(0, 3), ["Ddor", "Dm", "Dmix"]);
    same(narrowed(completions(WORDS, where("K:G")), "K:G").map(({ text }) => text).slice(0, 3), ["G", "Gmix", "Gdor"]);
    same([narrowed(completions(WORDS, where("M:12/8")), "M:12/8"), narrowed(completions(WORDS, where("K")), "K").length], [[], 1]);
  },

  "a place is in a header, in a body, or between tunes"() {
    const lines = ["X:3", "V:a b", "V:c", "K:C", "M", "", "X"], rows = [[0, 3, "", true]];
    const at = (line, column) => Object.values(situationOf(lines, rows, { line, column }));
    same([at(2, 1), at(4, 1), at(6, 1)], [["V", true, null, ["a"]], ["M", false, null, ["a", "c"]], ["X", true, 4, ["a", "c"]]]);
  },

  "brackets beside the caret, and their others"() {
    const tokens = [["Quoted", 0, 4], ["Chord", 4, 9], ["Note", 5, 6, 1], ["Grace", 10, 13], ["NoEffect", 15, 16], ["Note", 16, 17], ["NoEffect", 18, 19],
      ["Ending", 20, 22], ["Tuplet", 23, 25], ["Dynamic", 29, 32], ["InlineField", 33, 38], ["BadByte", 40, 41]];
    const pairs = (column) => pairIn('"Am"[CE]2 {g}A (AB) [1 (3abc !f! [K:D] c]', tokens, column);
    same([pairs(0), pairs(4), pairs(5), pairs(8)], [[0, 3], [4, 7], [4, 7], [4, 7]]);
    same([pairs(11), pairs(15), pairs(19), pairs(20), pairs(23)], [[10, 12], [15, 18], [15, 18], null, null]);
    same([pairs(29), pairs(33), pairs(38), pairs(41)], [[29, 31], [33, 37], [33, 37], null]);
    same([pairIn("[|: AB :|] % (x)", [["BarLine", 0, 3], ["BarLine", 7, 10], ["Comment", 11, 16]], 0), pairIn('"unclosed', [["Unclosed", 0, 1]], 0)], [null, null]);
    const slurs = [["NoEffect", 0, 1], ["Chord", 1, 5], ["NoEffect", 6, 7], ["NoEffect", 8, 9], ["NoEffect", 11, 12], ["NoEffect", 12, 13]];
    same([0, 6, 12, 13].map((column) => pairIn("([CE] (a) b))", slurs, column)), [[0, 11], [6, 8], [0, 11], null]);
  },
};

await run(tests);
process.exit(0);
