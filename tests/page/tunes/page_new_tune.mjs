// Tries a new tune in a book, without a browser. The folder of the page's scripts is the argument. Each test prints a line, `ok` or
// `FAILED`, with its name.

import { pathToFileURL } from "node:url";

import { sheetRoot } from "../stub_document.mjs";
import { run, same } from "../testing.mjs";

const from = (name) => import(pathToFileURL(`${process.argv[2]}/${name}.js`));
const { beginTune, newTune } = await from("tunes/new_tune");
const { freeNumber, nextNumber } = await from("tunes/tune_numbers");
const { Sheet } = await from("editor/text_sheet");
const { Text } = await from("text/text");

const TUNE = ["T:New tune", "M:4/4", "L:1/8", "K:C", ""];

/** The lines of a book with a new tune, and the line of the selected title. */
function begun(lines, ...numbers) {
  const { edit, title } = newTune(lines, numbers), { start, taken, put } = edit;
  const now = [...lines.slice(0, start), ...put, ...lines.slice(start + taken.length)];
  same(now[title.start.line].slice(title.start.column, title.end.column), "New tune");
  return now;
}

const tests = {
  "a number that is free"() {
    same([freeNumber([1, 2, 4], 1), freeNumber([], 0), nextNumber([7, 2]), nextNumber([])], [3, 1, 8, 1]);
    same([nextNumber([999_999_999]), newTune([""], [999_999_999])], [null, null]);
  },

  "it is at the end of the book, with a blank line before it"() {
    same(begun([""]), ["X:1", ...TUNE]);
    same(begun(["X:1", "K:C", "C|"], 1), ["X:1", "K:C", "C|", "", "X:2", ...TUNE]);
    same(begun(["X:1", "K:C", "C|", ""], 1), ["X:1", "K:C", "C|", "", "X:2", ...TUNE]);
    same(begun(["X:1", "K:C", "C|", "", " "], 1, 9), ["X:1", "K:C", "C|", "", "X:10", ...TUNE]);
  },

  "one step takes it back"() {
    const text = new Text(), sheet = new Sheet(text, sheetRoot());
    text.open(["X:3", "K:C", "C|", ""]);
    same(beginTune(sheet, [3]), true);
    same([text.lines.length, sheet.selection().start, sheet.area.value.split("\n").length], [10, { line: 5, column: 2 }, 10]);
    text.undo();
    same(text.lines, ["X:3", "K:C", "C|", ""]);
  },
};

await run(tests);
process.exit(0);
