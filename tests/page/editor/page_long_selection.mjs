// Tries selections of many lines, without a browser. The folder of the page's scripts is the argument. Each test prints a line, `ok`
// or `FAILED`, with its name.

import { pathToFileURL } from "node:url";

import { run, same } from "../testing.mjs";

const { isLong, overwriting, partIn, placeOfKey, replacementOf, selectedText } = await import(pathToFileURL(`${process.argv[2]}/editor/long_selection.js`));

const LINES = ["X:1", "T:Kesh", "K:G", "GABc", "dedB"];
const at = (line, column) => ({ line, column });
const selection = (start, end) => ({ start, end, direction: "forward" });
const MIDDLE = selection(at(1, 2), at(3, 1));

const tests = {
  "more than a thousand lines are a long selection"() {
    same([null, selection(at(5, 0), at(5, 9)), selection(at(5, 0), at(1005, 0)), selection(at(5, 0), at(1006, 0))].map(isLong), [false, false, false, true]);
  },

  "the part of a selection that is in some lines"() {
    same(partIn(MIDDLE, LINES, 0, 5), { start: at(1, 2), end: at(3, 1) });
    same(partIn(MIDDLE, LINES, 2, 3), { start: at(2, 0), end: at(2, 3) });
    same(partIn(MIDDLE, LINES, 0, 2), { start: at(1, 2), end: at(1, 6) });
    same(partIn(MIDDLE, LINES, 3, 5), { start: at(3, 0), end: at(3, 1) });
    same([partIn(MIDDLE, LINES, 0, 1), partIn(MIDDLE, LINES, 4, 5)], [null, null]);
  },

  "the text of a selection"() {
    same(selectedText(MIDDLE, LINES), "Kesh\nK:G\nG");
    same(selectedText(selection(at(0, 0), at(4, 4)), LINES), LINES.join("\n"));
    same(selectedText(selection(at(1, 2), at(1, 4)), LINES), "Ke");
  },

  "words replace a selection, and the caret is after them"() {
    const put = (words) => {
      const { edit, after } = overwriting(MIDDLE, LINES, words);
      same([edit.start, edit.taken, after.start], [1, ["T:Kesh", "K:G", "GABc"], after.end]);
      return [edit.put, after.start];
    };
    same(put(""), [["T:ABc"], at(1, 2)]);
    same(put("x"), [["T:xABc"], at(1, 3)]);
    same(put("x\r\ny\rz\n"), [["T:x", "y", "z", "ABc"], at(4, 0)]);
  },

  "what the browser would put instead of a selection"() {
    const of = (inputType, data = null, more = {}) => replacementOf({ inputType, data, dataTransfer: null, ...more });
    same([of("insertText", "x"), of("insertFromPaste", "a\nb"), of("insertLineBreak"), of("insertParagraph")], ["x", "a\nb", "\n", "\n"]);
    same([of("deleteContentBackward"), of("deleteByCut"), of("deleteWordForward")], ["", "", ""]);
    same(of("insertReplacementText", null, { dataTransfer: { getData: (type) => `${type}!` } }), "text/plain!");
    same([of("deleteByDrag"), of("insertFromDrop", "x"), of("historyUndo"), of("formatBold")], [null, null, null, null]);
  },

  "a key ends a selection at its begin or its end"() {
    const goes = (key, caret = at(3, 1)) => placeOfKey(key, MIDDLE, caret, LINES, false);
    same([goes("ArrowLeft"), goes("ArrowUp"), goes("ArrowRight"), goes("ArrowDown")], [at(1, 2), at(1, 2), at(3, 1), at(3, 1)]);
    same([goes("Home"), goes("End"), goes("x"), goes("Enter")], [at(3, 0), at(3, 4), null, null]);
  },

  "with Shift a key moves the caret by a letter or a line"() {
    const goes = (key, line, column) => placeOfKey(key, MIDDLE, at(line, column), LINES, true);
    same([goes("ArrowLeft", 3, 1), goes("ArrowLeft", 3, 0), goes("ArrowLeft", 0, 0)], [at(3, 0), at(2, 3), at(0, 0)]);
    same([goes("ArrowRight", 3, 1), goes("ArrowRight", 3, 4), goes("ArrowRight", 4, 4)], [at(3, 2), at(4, 0), at(4, 4)]);
    same([goes("ArrowUp", 3, 1), goes("ArrowUp", 0, 2), goes("ArrowDown", 3, 1), goes("ArrowDown", 4, 1)], [at(2, 1), at(0, 0), at(4, 1), at(4, 4)]);
    same([goes("Home", 3, 2), goes("End", 3, 2)], [at(3, 0), at(3, 4)]);
  },
};

await run(tests);
process.exit(0);
