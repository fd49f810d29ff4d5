// What is different between two texts, as rows to read: lines that go, lines that come, and a few equal ones around them.

import { hunksOf } from "../text/myers_diff.js";

/** @typedef {import("../text/myers_diff.js").Hunk} Hunk
 * A row: a line of both texts, of the old one alone, of the new one alone, or a number of equal lines that are not shown. `old` and
 * `now` are numbers of lines from 1, 0 if the line is not in that text.
 * @typedef {{ kind: "same" | "out" | "in" | "gap", old: number, now: number, words: string }} Row
 * `rows` of the difference, `out` and `put` how many lines go and come, `more` how many rows are left out at the end.
 * @typedef {{ rows: Row[], out: number, put: number, more: number }} Differences */

const AROUND = 2; // equal lines before and after a difference
const MOST = 2000; // rows

/** The rows of the differences between two lists of lines.
 * @type {(old: string[], now: string[]) => Differences} */
export function differencesOf(old, now) {
  const hunks = hunksOf(old, now);
  const rows = hunks.flatMap((hunk, n) => [...equalBefore(old, hunk, hunks[n - 1]), ...changed(old, now, hunk), ...equalAtEnd(old, hunk, hunks[n + 1], now)]);
  const out = hunks.reduce((sum, { start, stop }) => sum + stop - start, 0), put = hunks.reduce((sum, { from, to }) => sum + to - from, 0);
  return { rows: rows.slice(0, MOST), out, put, more: Math.max(0, rows.length - MOST) };
}

/** The lines that go and come at a place.
 * @type {(old: string[], now: string[], hunk: Hunk) => Row[]} */
function changed(old, now, { start, stop, from, to }) {
  return [
    ...old.slice(start, stop).map((words, n) => ({ kind: /** @type {const} */ ("out"), old: start + n + 1, now: 0, words })),
    ...now.slice(from, to).map((words, n) => ({ kind: /** @type {const} */ ("in"), old: 0, now: from + n + 1, words })),
  ];
}

/** The equal lines before a hunk, from the one before it on.
 * @type {(old: string[], hunk: Hunk, before: Hunk | undefined) => Row[]} */
function equalBefore(old, { start, from }, before) {
  const first = before?.stop ?? 0;
  return equal(old, first, start, from - start, before ? first + AROUND : first, start - AROUND);
}

/** The equal lines after the last hunk.
 * @type {(old: string[], hunk: Hunk, after: Hunk | undefined, now: string[]) => Row[]} */
function equalAtEnd(old, { stop }, after, now) {
  return after ? [] : equal(old, stop, old.length, now.length - old.length, stop + AROUND, old.length);
}

/** Equal lines of an old text, whose numbers in the new one are `more` higher. Those from `head` to `tail` are one row if they are several.
 * @type {(old: string[], first: number, stop: number, more: number, head: number, tail: number) => Row[]} */
function equal(old, first, stop, more, head, tail) {
  const lines = (/** @type {number} */ from, /** @type {number} */ to) =>
    old.slice(from, to).map((words, n) => ({ kind: /** @type {const} */ ("same"), old: from + n + 1, now: from + n + 1 + more, words }));
  if (tail - head < 2) return lines(first, stop);
  return [...lines(first, head), { kind: "gap", old: 0, now: 0, words: `${tail - head} equal lines` }, ...lines(tail, stop)];
}
