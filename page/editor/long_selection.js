// A selection of so many lines that the browser would lay them out for seconds. The text area has those alone that are seen, and the page
// copies and replaces the rest itself.

import { selectionAt } from "../text/selection.js";

/** @typedef {import("../text/selection.js").Place} Place
 * @typedef {import("../text/selection.js").Selection} Selection
 * @typedef {import("../text/line_edits.js").Replacement} Replacement */

const LONGEST = 1000; // lines that the area has for a selection

/** Whether the area does not have all lines of a selection.
 * @type {(selection: Selection | null) => boolean} */
export function isLong(selection) {
  return selection !== null && selection.end.line - selection.start.line > LONGEST;
}

/** The part of a selection in the lines first..last; null if none is there.
 * @type {(selection: Selection, lines: string[], first: number, last: number) => { start: Place, end: Place } | null} */
export function partIn({ start, end }, lines, first, last) {
  if (end.line < first || start.line >= last) return null;
  return {
    start: start.line < first ? { line: first, column: 0 } : start,
    end: end.line >= last ? { line: last - 1, column: lines[last - 1].length } : end,
  };
}

/** The text between two places.
 * @type {(selection: { start: Place, end: Place }, lines: string[]) => string} */
export function selectedText({ start, end }, lines) {
  if (start.line === end.line) return lines[start.line].slice(start.column, end.column);
  return [lines[start.line].slice(start.column), ...lines.slice(start.line + 1, end.line), lines[end.line].slice(0, end.column)].join("\n");
}

/** The edit by which words replace a selection, and the caret after them.
 * @type {(selection: { start: Place, end: Place }, lines: string[], words: string) => { edit: Replacement, after: Selection }} */
export function overwriting({ start, end }, lines, words) {
  const put = words.split(/\r\n?|\n/), last = put.length - 1;
  put[0] = lines[start.line].slice(0, start.column) + put[0];
  const after = selectionAt({ line: start.line + last, column: put[last].length });
  put[last] += lines[end.line].slice(end.column);
  return { edit: { start: start.line, taken: lines.slice(start.line, end.line + 1), put }, after };
}

/** What the browser would put instead of a selection; null if it replaces none.
 * @type {(event: InputEvent) => string | null} */
export function replacementOf({ inputType, data, dataTransfer }) {
  if (/Drag|Drop|^history|^format/.test(inputType)) return null;
  if (inputType.startsWith("delete")) return "";
  if (inputType === "insertLineBreak" || inputType === "insertParagraph") return "\n";
  return data ?? dataTransfer?.getData("text/plain") ?? "";
}

/** Where the caret goes by a key, from a selection that ends; with Shift from its place. Null if the key moves no caret.
 * @type {(key: string, selection: Selection, caret: Place, lines: string[], isExtended: boolean) => Place | null} */
export function placeOfKey(key, { start, end }, caret, lines, isExtended) {
  const isBack = key === "ArrowLeft" || key === "ArrowUp";
  if (!isBack && key !== "ArrowRight" && key !== "ArrowDown") return key === "Home" ? { ...caret, column: 0 } : key === "End" ? { ...caret, column: lines[caret.line].length } : null;
  if (!isExtended) return isBack ? start : end;
  const { line, column } = caret;
  if (key === "ArrowUp") return line ? { line: line - 1, column } : { line, column: 0 };
  if (key === "ArrowDown") return line + 1 < lines.length ? { line: line + 1, column } : { line, column: lines[line].length };
  if (isBack) return column ? { line, column: column - 1 } : line ? { line: line - 1, column: lines[line - 1].length } : caret;
  return column < lines[line].length ? { line, column: column + 1 } : line + 1 < lines.length ? { line: line + 1, column: 0 } : caret;
}
