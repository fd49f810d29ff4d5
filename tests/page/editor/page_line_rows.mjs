// Tries how many rows wrapped lines have, without a browser. The folder of the page's scripts is the argument. Each test prints a line, `ok`
// or `FAILED`, with its name.

import { pathToFileURL } from "node:url";

import { run, same } from "../testing.mjs";

const { LineRows } = await import(pathToFileURL(`${process.argv[2]}/editor/line_rows.js`));

/** Rows of ten letters, of a browser that wraps after any; other letters than usual ones are two wide. */
function ofTen() {
  const measured = [], rows = new LineRows((lines) => {
    measured.push(...lines);
    return lines.map((line) => Math.ceil([...line].length / (/^[ -~]*$/.test(line) ? 10 : 5)));
  });
  rows.wrap(10);
  return { rows, measured };
}

/** The rows of a line in a browser that wraps after some signs, and in a word that is longer than a row after any letter. */
function rowsAfter(signs, line, width) {
  let rows = 0, at = 0;
  do {
    let end = Math.min(line.length, at + width);
    for (let n = end; end < line.length && n > at; n -= 1) {
      if (!signs.includes(line[n - 1])) continue;
      end = n;
      break;
    }
    at = end;
    rows += 1;
  } while (at < line.length);
  return rows;
}

const tests = {
  "a line that does not wrap is a row"() {
    const rows = new LineRows((those) => those.map(() => 9)), lines = ["x".repeat(100), "", "日本"];
    same([rows.before(lines, 2), rows.of(lines, 0), rows.lineOf(lines, 2), rows.lineOf(lines, 7), rows.sum(lines)], [2, 1, 2, 7, 3]);
  },

  "a word that is too long for a row is the browser's matter, as other letters are, and an empty line has a row"() {
    const { rows, measured } = ofTen(), lines = ["", "x".repeat(10), "x".repeat(11), "日".repeat(6), "\t", "é’"];
    same(lines.map((_, n) => rows.of(lines, n)), [1, 1, 2, 2, 1, 1]);
    same([0, 1, 2, 3, 4, 5, 6, 9].map((line) => rows.before(lines, line)), [0, 1, 2, 4, 6, 7, 8, 8]);
    same([0, 1, 2, 3, 4, 5, 6, 7, 8, 99].map((row) => rows.lineOf(lines, row)), [0, 1, 2, 2, 3, 3, 4, 5, 5, 5]);
    same(measured, ["x".repeat(11), "日".repeat(6), "\t"]);
  },

  "a line wraps after blanks, and the browser is asked only if it may do with fewer rows"() {
    const { rows, measured } = ofTen(), lines = ["aaaa bbbbbb cc", "aaaaaaa bbbbbb ccccccc", "aaaaaaaaa bbbbbbbbb", "aaaaaaa bbbb ccccccc", "a  b      c", "so-ft\u00ad"];
    same(lines.map((_, n) => rows.of(lines, n)), [2, 3, 2, 2, 2, 2]);
    same(measured, ["aaaaaaa bbbb ccccccc", "so-ft\u00ad"]);
  },

  "the rows are those of the browser, whatever signs it wraps after"() {
    let seed = 7;
    const chance = (most) => (seed = (seed * 48271) % 2147483647) % most;
    const lines = Array.from({ length: 2000 }, () => Array.from({ length: chance(60) }, () => "ab|-  "[chance(6)]).join(""));
    const long = Array.from({ length: 500 }, () => Array.from({ length: chance(9) }, () => "abcd|-e".repeat(3).slice(0, 1 + chance(14))).join(" "));
    for (const signs of [" ", " -", " -|"]) {
      const rows = new LineRows((those) => those.map((line) => rowsAfter(signs, line, 12)));
      rows.wrap(12);
      for (const those of [lines, long]) same(those.map((_, n) => rows.of(those, n)), those.map((line) => rowsAfter(signs, line, 12)));
    }
  },

  "after edits the rows are those of a text that is counted anew, and other lines are not counted again"() {
    let lines = ["aaaa ".repeat(5), "日", "b", "語".repeat(7), "c"], seed = 1;
    const { rows, measured } = ofTen(), chance = (most) => (seed = (seed * 48271) % 2147483647) % most;
    rows.before(lines, 1);
    for (let n = 0; n < 300; n += 1) {
      const start = chance(lines.length + 1), stop = start + chance(Math.min(3, lines.length - start + 1));
      lines = [...lines.slice(0, start), ...Array.from({ length: chance(3) }, () => "xxxx ".repeat(chance(9))), ...lines.slice(stop)];
      lines = lines.length ? lines : [""];
      const anew = ofTen().rows;
      same(lines.map((_, line) => rows.before(lines, line + 1)), lines.map((_, line) => anew.before(lines, line + 1)));
    }
    same(measured, ["日", "語".repeat(7)]);
  },

  "another width counts all again"() {
    const { rows } = ofTen(), lines = ["xxxx ".repeat(4), "y"];
    same([rows.of(lines, 0), rows.wrap(10), rows.wrap(5), rows.of(lines, 0), rows.wrap(0), rows.of(lines, 0)], [2, false, true, 4, true, 1]);
  },
};

await run(tests);
process.exit(0);
