// The tunes of a book in another order, with other numbers, or without one of them: edits of its text.

import { keyOf } from "./key_field.js";

/** @typedef {import("../text/line_edits.js").Replacement} Replacement
 * A tune: its lines, and the blank lines after them.
 * @typedef {{ lines: string[], gap: string[] }} Block */

const ARTICLE = /^(?:the|an?)[ \t]+/i;
const LAST = "\uffff"; // after all words
const collator = new Intl.Collator(undefined, { numeric: true, sensitivity: "base" });

/** What tunes can be sorted by: of the lines of a tune the words that decide.
 * @type {Record<string, (lines: string[]) => string>} */
const SORTED_BY = {
  title: (lines) => valueOf(lines, "T").replace(ARTICLE, ""),
  key: (lines) => {
    const key = keyOf(valueOf(lines, "K"));
    return key?.tonic ? key.tonic + key.mode.trim() : "";
  },
  rhythm: (lines) => valueOf(lines, "R"),
};

/** The first value of a field in the lines of a tune.
 * @type {(lines: string[], letter: string) => string} */
function valueOf(lines, letter) {
  const field = lines.find((line) => line.startsWith(`${letter}:`)) ?? "";
  return field.slice(2).replace(/(?:^|[ \t])%.*/, "").trim();
}

/** The tunes that begin at some lines; the last of them ends before `stop`.
 * @type {(lines: string[], starts: number[], stop: number) => Block[]} */
function blocksOf(lines, starts, stop) {
  return starts.map((start, at) => {
    const next = starts[at + 1] ?? stop;
    let end = next;
    while (end > start + 1 && !lines[end - 1].trim()) end -= 1;
    return { lines: lines.slice(start, end), gap: lines.slice(end, next) };
  });
}

/** Puts tunes into another order: `order` has their present places. The blank lines between the places stay, and there is one at least.
 * @type {(lines: string[], starts: number[], stop: number, order: number[]) => Replacement} */
function ordered(lines, starts, stop, order) {
  const blocks = blocksOf(lines, starts, stop), last = blocks.length - 1;
  const put = order.flatMap((at, n) => [...blocks[at].lines, ...(n < last && !blocks[n].gap.length ? [""] : blocks[n].gap)]);
  return { start: starts[0], taken: lines.slice(starts[0], stop), put };
}

/** Moves the tune at a place one place back or on: the edit, and the line at which the tune begins then. Tunes begin at `starts`.
 * @type {(lines: string[], starts: number[], at: number, by: -1 | 1) => { edit: Replacement, line: number }} */
export function moved(lines, starts, at, by) {
  const first = Math.min(at, at + by), stop = starts[first + 2] ?? lines.length, pair = starts.slice(first, first + 2);
  const [above, below] = blocksOf(lines, pair, stop), edit = ordered(lines, pair, stop, [1, 0]);
  return { edit, line: by < 0 ? pair[0] : pair[0] + edit.put.length - below.gap.length - above.lines.length };
}

/** Sorts the tunes by their titles, keys or rhythms; tunes that have none come last, and equal ones stay in their order. Null if they are
 * sorted.
 * @type {(lines: string[], starts: number[], by: string) => Replacement | null} */
export function sorted(lines, starts, by) {
  const words = blocksOf(lines, starts, lines.length).map((block) => SORTED_BY[by](block.lines) || LAST);
  const order = words.map((_, at) => at).sort((a, b) => collator.compare(words[a], words[b]));
  return order.every((at, n) => at === n) ? null : ordered(lines, starts, lines.length, order);
}

/** Deletes the tune at a place, with the blank lines after it.
 * @type {(lines: string[], starts: number[], at: number) => Replacement} */
export function deleted(lines, starts, at) {
  const stop = starts[at + 1] ?? lines.length;
  return { start: starts[at], taken: lines.slice(starts[at], stop), put: stop - starts[at] === lines.length ? [""] : [] };
}

/** Numbers the tunes from 1 on: the lines that change.
 * @type {(lines: string[], starts: number[]) => Replacement[]} */
export function renumbered(lines, starts) {
  return starts.flatMap((start, at) => {
    const put = withNumber(lines[start], at + 1);
    return put === lines[start] ? [] : [{ start, taken: [lines[start]], put: [put] }];
  });
}

/** A line `X:` with another number.
 * @type {(line: string, number: number) => string} */
export const withNumber = (line, number) => line.replace(/^(X:[ \t]*)[^ \t%\r]*/, (_, before) => before + number);
