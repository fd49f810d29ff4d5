// Tries where faults, hints and tunes are while lines move, and the questions about texts that differ, without a browser. The folder of the
// page's scripts is the argument. Each test prints a line, `ok` or `FAILED`, with its name.

import { pathToFileURL } from "node:url";

import { run, same } from "../testing.mjs";

const from = (name) => import(pathToFileURL(`${process.argv[2]}/${name}.js`));
const { Findings } = await from("link/findings");
const { changed, placeOf, without } = await from("link/finding_rows");
const { bothChanged, changedOnDisk, firstDifference, goneFromDisk, keptByBrowser } = await from("link/conflict_questions");
const { Text } = await from("text/text");
const PLACE = { start: { line: 0, column: 0 }, end: { line: 0, column: 0 }, direction: "forward" };

/** A text of these lines, which the server has. */
function opened(...lines) {
  const text = new Text();
  text.open(lines);
  return text;
}

const tests = {
  "a line that is typed in has its faults until the server has other ones, and one that is taken out has none"() {
    const faults = [[1, 0, 1, "BadByte"], [3, 0, 1, "Unclosed"]], text = opened("a", "b", "c", "d");
    const findings = new Findings(text, { sent: null }, { faults, hints: [], tunes: [] });
    const lines = () => {
      findings.renew();
      return findings.faults.map(([line]) => line);
    };
    text.edit(1, 2, ["b, and more"], PLACE, PLACE);
    same(lines(), [1, 3]);
    text.edit(1, 2, ["b", "and more"], PLACE, PLACE);
    same(lines(), [1, 4]);
    text.edit(1, 3, [], PLACE, PLACE);
    same(lines(), [2]);
  },

  "questions about texts name their situation, and what each answer does"() {
    const book = ["X:1", "K:C", "C"], mine = ["X:1", "K:C", "DEF", "G"];
    same([firstDifference(mine, book), firstDifference(["X:1", "K:C"], book), firstDifference(["", ...book], book)],
      ["from line 3 on, “DEF”", "from line 3 on", "from line 1 on"]);
    same(firstDifference(["x".repeat(50)], book), `from line 1 on, “${"x".repeat(40)}…”`);
    const doubts = [["10:42:07", mine], ["10:42:07", ["X:2"]], ["10:50:00", mine]].map(([when, text]) => bothChanged("reels.abc", when, text, book));
    const all = [...doubts, keptByBrowser("10:42:07", mine, book), changedOnDisk("reels.abc"), goneFromDisk("reels.abc")];
    same(new Set(all).size, all.length);
    same(doubts[0], "While the server was away reels.abc changed, and so did your text of 10:42:07: it differs from line 3 on, “DEF”. " +
      "The book is shown. Keeping your text replaces it, and Ctrl-Z takes that back. Taking the book drops your text.");
    same(all.map((words) => [/Sav|Keep|Tak/.test(words), /Ctrl-Z/.test(words)]), [...Array(5).fill([true, true]), [true, false]]);
  },

  "rows move with their lines"() {
    const rows = [[1, "a"], [3, "b"], [3, "c"], [8, "d"]];
    same([placeOf(rows, 3), placeOf(rows, 4), placeOf(rows, 9)], [1, 3, 4]);
    same(without(rows, 3, 4, 2), [[1, "a"], [10, "d"]]);
    same(changed(rows, { start: 3, stop: 4, lines: [] }, { at: 1, out: 0, put: [[2, "new"]] }), [[1, "a"], [2, "new"], [7, "d"]]);
  },
};

await run(tests);
process.exit(0);
