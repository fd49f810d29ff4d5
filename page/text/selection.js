// Places and selections in a text, and where they are after lines became others.

import { commonEnds, difference } from "./line_edits.js";

/** @typedef {{ line: number, column: number }} Place counted from 0, the column in UTF-16 units
 * @typedef {{ start: Place, end: Place, direction: string }} Selection
 * @typedef {import("./line_edits.js").Replacement} Replacement */

/** The selection of nothing at a place.
 * @param {Place} place
 * @returns {Selection} */
export function selectionAt(place) {
  return { start: place, end: place, direction: "forward" };
}

/** A selection that stays with its text. What was put in at the caret is before the caret.
 * @param {Selection} selection
 * @param {Replacement} edit
 * @returns {Selection} */
export function movedSelection(selection, edit) {
  const start = movedPlace(selection.start, edit);
  const isCaret = selection.start.line === selection.end.line && selection.start.column === selection.end.column;
  return { ...selection, start, end: isCaret ? start : movedPlace(selection.end, edit, false) };
}

/** The caret after what replaces columns from..to of a line, as if it were typed there; null if the caret is not in them.
 * @type {(selection: Selection, edit: Replacement, columns: [from: number, to: number]) => Selection | null} */
export function selectionAfter({ start, end }, { start: line, taken, put }, [from, to]) {
  const isInside = [start, end].every((place) => place.line === line && place.column === start.column) && from <= start.column && start.column <= to;
  return isInside ? selectionAt({ line, column: to + put[0].length - taken[0].length }) : null;
}

/** A place that stays with its text; `isAfter` says whether what was put in at the place is before it.
 * @param {Place} place
 * @param {Replacement} edit
 * @returns {Place} */
export function movedPlace(place, edit, isAfter = true) {
  const { line, column } = place, least = difference(edit.taken, edit.put);
  if (!least || line < edit.start + least.start) return place;
  const start = edit.start + least.start, taken = edit.taken.slice(least.start, least.stop), { put } = least;
  if (line >= start + taken.length) return { line: line + put.length - taken.length, column };
  const old = taken.join("\n"), now = put.join("\n"), { front, back } = commonEnds(old, now);
  const offset = offsetIn(taken, line - start, column);
  if (offset >= old.length - back && (isAfter || offset > front)) return placeIn(start, now, offset + now.length - old.length);
  if (offset <= front) return placeIn(start, now, offset);
  const same = nearestOf(put, line - start, taken[line - start]);
  return same < 0 ? placeIn(start, now, Math.min(offset, now.length - back)) : { line: start + same, column };
}

/** The offset of a place in lines that are joined.
 * @param {string[]} lines
 * @param {number} at
 * @param {number} column */
function offsetIn(lines, at, column) {
  return lines.slice(0, at).reduce((sum, line) => sum + line.length + 1, Math.min(column, lines[at].length));
}

/** The place of an offset in a text whose first line has a number.
 * @param {number} start
 * @param {string} text
 * @param {number} offset
 * @returns {Place} */
function placeIn(start, text, offset) {
  const before = text.slice(0, offset).split("\n");
  return { line: start + before.length - 1, column: before[before.length - 1].length };
}

/** Which one of some lines has a text, the nearest to a place; -1 if none has.
 * @param {string[]} lines
 * @param {number} at
 * @param {string} text */
function nearestOf(lines, at, text) {
  return lines.reduce((best, line, n) => (line === text && (best < 0 || Math.abs(n - at) < Math.abs(best - at)) ? n : best), -1);
}
