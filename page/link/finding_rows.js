// Rows of what the server finds in the text: sorted lists of [line, ..] that move with their lines. The server has the same in
// finding_rows.py, which mirrors `without`, `difference` and `changed`: tests/clients/page/test_finding_rows.py compares the two.

import { countBefore } from "../base/binary_search.js";

/** A fault or a hint: its line, where it begins and ends there, its name, and the sentence of a hint.
 * @typedef {[line: number, start: number, end: number, name: string, hint?: string]} FaultRow */
/** A tune: its line, its number, its title, and whether it has the file of the number.
 * @typedef {[line: number, number: number, title: string, hasFile: boolean]} TuneRow */
/** Lines start..stop became others.
 * @typedef {{ start: number, stop: number, lines: string[] }} Edit */
/** Some rows at a place became others.
 * @template R
 * @typedef {{ at: number, out: number, put: R[] }} Difference */

/** The place in rows of the first that is at a line or after it.
 * @type {(rows: [line: number, ...more: any[]][], line: number) => number} */
export const placeOf = (rows, line) => countBefore(rows, ([at]) => at < line);

/** The rows of some lines.
 * @template {[line: number, ...more: any[]]} R
 * @param {R[]} rows
 * @param {number} first
 * @param {number} last */
export function rowsIn(rows, first, last) {
  return rows.slice(placeOf(rows, first), placeOf(rows, last));
}

/** Rows but for those of some lines; those after them are moved.
 * @template {[line: number, ...more: any[]]} R
 * @param {R[]} rows
 * @param {number} start
 * @param {number} stop
 * @param {number} more
 * @returns {R[]} */
export function without(rows, start, stop, more) {
  const from = placeOf(rows, start), to = placeOf(rows, stop);
  if (from === to && !more) return rows;
  const later = rows.slice(to);
  return rows.slice(0, from).concat(more ? later.map((row) => movedRow(row, more)) : later);
}

/** A row after its line moved. A copy of the row costs a quarter of a new list of its parts.
 * @template {[line: number, ...more: any[]]} R
 * @param {R} row
 * @param {number} more
 * @returns {R} */
function movedRow(row, more) {
  const now = row.slice();
  now[0] += more;
  return /** @type {R} */ (now);
}

/** How rows become others: at a place some of them go, and others come.
 * @template {unknown[]} R
 * @param {R[]} old
 * @param {R[]} now
 * @returns {Difference<R>} */
export function difference(old, now) {
  const least = Math.min(old.length, now.length);
  let front = 0, back = 0;
  while (front < least && isSame(old[front], now[front])) front += 1;
  while (back < least - front && isSame(old[old.length - 1 - back], now[now.length - 1 - back])) back += 1;
  return { at: front, out: old.length - front - back, put: now.slice(front, now.length - back) };
}

/** Whether two rows have the same parts.
 * @type {(row: unknown[], other: unknown[]) => boolean} */
function isSame(row, other) {
  return row === other || (row.length === other.length && row.every((part, n) => part === other[n]));
}

/** Rows after a change of the text: those of new lines are put in, at a place.
 * @template {[line: number, ...more: any[]]} R
 * @param {R[]} old
 * @param {Edit} edit
 * @param {Difference<R>} difference
 * @returns {R[]} */
export function changed(old, { start, stop, lines }, { at, out, put }) {
  const found = without(old, start, stop, lines.length - (stop - start));
  return !out && !put.length ? found : found.slice(0, at).concat(put, found.slice(at + out));
}
