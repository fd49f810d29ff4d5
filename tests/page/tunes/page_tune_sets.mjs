// Tries the sets of a book without a browser. The argument is the folder of the page's scripts. Each test prints a line, `ok` or
// `FAILED`, with its name.

import { pathToFileURL } from "node:url";

import { run, same } from "../testing.mjs";

const { addedSet, lineOf, setsIn, timesOf } = await import(pathToFileURL(`${process.argv[2]}/tunes/tune_sets.js`));

/** The text of a book after a set was added. */
function added(book, first) {
  const lines = book.split("\n"), { start, taken, put } = addedSet(lines, first, '% Set "b": 1');
  lines.splice(start, taken.length, ...put);
  return lines.join("\n");
}

const tests = {
  "sets are comments before the first tune, with tunes and times"() {
    const lines = ["% a book", '% Set "Evening": 12 x3, 7 x 2 ,30', '%Set "":', "M:4/4", "", "X:1", '% Set "in a tune": 1'];
    same(setsIn(lines, 5), [
      { line: 1, name: "Evening", items: [{ number: 12, times: 3 }, { number: 7, times: 2 }, { number: 30, times: 1 }] },
      { line: 2, name: "", items: [] },
    ]);
    same(setsIn(['% Set "a": 1 x99, two, 3 x0, 4x, -5, 6'], 1)[0].items, [{ number: 1, times: 20 }, { number: 3, times: 1 }, { number: 6, times: 1 }]);
    same([setsIn(["% A Set of tunes", '%% Set "a": 1'], 2), setsIn([], 0)], [[], []]);
  },

  "a line of a set is read as it was written"() {
    const items = [{ number: 12, times: 3 }, { number: 7, times: 1 }];
    same(lineOf(' The "late" one ', items), "% Set \"The 'late' one\": 12 x3, 7");
    same(setsIn([lineOf("Evening", items)], 1), [{ line: 0, name: "Evening", items }]);
    const many = Array.from({ length: 51 }, (_, n) => ({ number: n + 1, times: 1 })), words = many.map(({ number }) => number);
    same([lineOf("a", many), setsIn([`% Set "a": ${words}`], 1)[0].items.length], [`% Set "a": ${words.slice(0, 50).join(", ")}`, 50]);
    same([timesOf(0), timesOf(NaN), timesOf(2.9), timesOf(21)], [1, 1, 2, 20]);
  },

  "a new set is below the last one, and never a part of a tune"() {
    same(added("X:1\nK:C\n", 0), '% Set "b": 1\n\nX:1\nK:C\n');
    same(added('% Set "a": 1\n\nX:1', 2), '% Set "a": 1\n% Set "b": 1\n\nX:1');
    same(added('M:4/4\n% Set "a": 1\nX:1', 2), 'M:4/4\n% Set "a": 1\n% Set "b": 1\n\nX:1');
    same(added("M:4/4\n\nX:1", 2), '% Set "b": 1\nM:4/4\n\nX:1');
  },
};

await run(tests);
process.exit(0);
