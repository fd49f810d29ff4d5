// The sets of a book: tunes that are played one after another, each some times. A set is a comment before the first tune, as
// `% Set "Evening": 12 x3, 7 x2, 30`, so it goes with the book wherever that goes.

/** A tune of a set: its number, and how often it is played.
 * @typedef {{ number: number, times: number }} Item
 * @typedef {{ line: number, name: string, items: Item[] }} TuneSet */

export const MOST_TIMES = 20, MOST_ITEMS = 50;
const SET = /^%[ \t]*Set[ \t]+"([^"]*)"[ \t]*:[ \t]*(.*)$/;
const ITEM = /^(\d{1,9})(?:[ \t]*x[ \t]*(\d{1,2}))?$/;

/** The sets in the lines of a book before its first tune, which begins at a line. What is no number of a tune is no part of a set.
 * @type {(lines: string[], first: number) => TuneSet[]} */
export function setsIn(lines, first) {
  return lines.slice(0, first).flatMap((text, line) => {
    const [, name, list] = SET.exec(text) ?? [];
    if (list === undefined) return [];
    const items = list.split(",").map((part) => ITEM.exec(part.trim())).flatMap((found) => (found ? { number: Number(found[1]), times: timesOf(Number(found[2] ?? 1)) } : []));
    return [{ line, name, items: items.slice(0, MOST_ITEMS) }];
  });
}

/** How often a tune is played: at least once, and no more than that often.
 * @type {(times: number) => number} */
export const timesOf = (times) => Math.max(1, Math.min(MOST_TIMES, Math.trunc(times) || 1));

/** The line of a set.
 * @type {(name: string, items: Item[]) => string} */
export function lineOf(name, items) {
  const list = items.slice(0, MOST_ITEMS).map(({ number, times }) => (times > 1 ? `${number} x${times}` : String(number)));
  return `% Set "${name.replaceAll('"', "'").trim()}": ${list.join(", ")}`;
}

/** The edit that adds a line of a set: below the last set, else at the beginning of the book, with a blank line before what is a tune there.
 * @type {(lines: string[], first: number, put: string) => import("../text/line_edits.js").Replacement} */
export function addedSet(lines, first, put) {
  const start = (setsIn(lines, first).at(-1)?.line ?? -1) + 1;
  return { start, taken: [], put: start === first ? [put, ""] : [put] };
}
