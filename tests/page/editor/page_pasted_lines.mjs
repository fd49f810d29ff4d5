// Tries which remarks are shown first after a paste, without a browser. The folder of the page's scripts is the argument. Each test prints
// a line, `ok` or `FAILED`, with its name.

import { pathToFileURL } from "node:url";

import { run, same } from "../testing.mjs";

const { PastedLines } = await import(pathToFileURL(`${process.argv[2]}/editor/pasted_lines.js`));
const row = (line) => [line, 0, 1, "BadByte"];
const findings = { remarksIn: (first, last) => [3, 11, 12, 19].filter((line) => line >= first && line < last).map(row) };

/** The lines of the remarks after a paste and more edits, with the caret in a line of a tune with the remarks 3 and 11. */
function shown(line, ...edits) {
  const pasted = new PastedLines();
  for (const edit of edits) pasted.edited(...edit);
  return pasted.remarks(findings, { line, remarks: [row(3), row(11)] }).map(([at]) => at);
}

const PASTE = [10, 10, 8, "insertFromPaste"];

const tests = {
  "those of the pasted lines come first, and then those of the tune"() {
    same([shown(18, PASTE), shown(10, PASTE), shown(3), shown(3, [1, 2, 1, "insertText"])], [[11, 12, 3], [11, 12, 3], [3, 11], [3, 11]]);
    same(shown(12, [10, 11, 8, "insertFromDrop"]), [11, 12, 3]);
  },

  "until the caret leaves them, or an edit reaches over their end"() {
    same([shown(9, PASTE), shown(19, PASTE), shown(12, PASTE, [8, 12, 1, "insertText"])], [[3, 11], [3, 11], [3, 11]]);
    const pasted = new PastedLines();
    pasted.edited(...PASTE);
    pasted.remarks(findings, { line: 2, remarks: [] });
    same(pasted.remarks(findings, { line: 12, remarks: [row(3)] }).map(([at]) => at), [3]);
  },

  "they move with the text"() {
    same(shown(20, PASTE, [0, 0, 2, "insertText"]), [12, 19, 3, 11]);
    same(shown(19, PASTE, [12, 12, 1, "insertText"], [30, 31, 1, ""]), [11, 12, 3]);
    same(shown(12, [10, 10, 2, "insertFromPaste"], [12, 12, 1, "insertText"]), [11, 3]); // what is put in after them is none of them
  },
};

await run(tests);
process.exit(0);
