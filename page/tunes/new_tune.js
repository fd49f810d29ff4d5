// A new tune at the end of the book, with the next free number.

import { nextNumber } from "./tune_numbers.js";

/** @typedef {import("../text/line_edits.js").Replacement} Replacement
 * @typedef {import("../text/selection.js").Selection} Selection */

const TITLE = "New tune";
const FIELDS = ["M:4/4", "L:1/8", "K:C", ""];

/** The edit that puts a new tune into a text, and its title as a selection; null if there is no number for it.
 * @type {(lines: string[], numbers: number[]) => { edit: Replacement, title: Selection } | null} */
export function newTune(lines, numbers) {
  const number = nextNumber(numbers);
  if (number === null) return null;
  const isOpen = lines[lines.length - 1].trim() !== "", start = isOpen ? lines.length : lines.length - 1;
  const isApart = start === 0 || (!isOpen && (lines[start - 1] ?? "").trim() === "");
  const put = [...(isApart ? [] : [""]), `X:${number}`, `T:${TITLE}`, ...FIELDS], line = start + (isApart ? 1 : 2);
  const title = { start: { line, column: 2 }, end: { line, column: 2 + TITLE.length }, direction: "forward" };
  return { edit: { start, taken: lines.slice(start), put }, title };
}

/** Puts a new tune into the text of a sheet, in a step that can be undone, with its title selected; whether there was a number for it.
 * @type {(sheet: import("../editor/text_sheet.js").Sheet, numbers: number[]) => boolean} */
export function beginTune(sheet, numbers) {
  const found = newTune(sheet.text.lines, numbers);
  if (!found) return false;
  sheet.text.change([found.edit], sheet.selection(), found.title);
  sheet.refresh(found.title);
  sheet.area.focus({ preventScroll: true });
  return true;
}
