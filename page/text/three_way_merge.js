// What two windows made of the same lines, as one text: both edits are made, line by line, and inside a line letter by letter.

import { replaced } from "./line_edits.js";
import { hunksOf } from "./myers_diff.js";

/** @typedef {import("./line_edits.js").Replacement} Replacement
 * Items start..stop that a window or both changed: they are own.from..own.to in the one list, other.from..other.to in the other.
 * @typedef {{ start: number, stop: number, own: Range, other: Range, isOwn: boolean, isOther: boolean }} Meeting
 * @typedef {{ from: number, to: number }} Range
 * @typedef {import("./myers_diff.js").Hunk} Hunk
 * A hunk with its rank among those of two windows that put something in at one place.
 * @typedef {Hunk & { rank?: number }} Placed
 * What is to be made of the own lines: edits, each at places of the lines that those before it leave. `isTwice` says whether both
 * changed the same letters: then both have their lines, the other's first.
 * @typedef {{ edits: Replacement[], isTwice: boolean }} Merging */

/** What the own lines become by what the other window made of the lines `base`. What both put in at one place has the other's first.
 * @type {(base: string[], own: string[], other: string[]) => Merging} */
export function merging(base, own, other) {
  let isTwice = false;
  const edits = meetings(hunksOfLines(base, own), hunksOfLines(base, other)).reverse().flatMap((meeting) => {
    if (!meeting.isOther) return [];
    const start = meeting.own.from, taken = own.slice(start, meeting.own.to), put = other.slice(meeting.other.from, meeting.other.to);
    if (!meeting.isOwn) return [{ start, taken, put }];
    const steps = merged(base.slice(meeting.start, meeting.stop), taken, put);
    isTwice ||= !steps;
    return steps ? steps.map((step) => ({ ...step, start })) : put.length ? [{ start, taken: [], put }] : [];
  });
  return { edits, isTwice };
}

/** The lines of both.
 * @type {(base: string[], own: string[], other: string[]) => string[]} */
export function mergedLines(base, own, other) {
  const { edits } = merging(base, own, other);
  return edits.reduce((lines, { start, taken, put }) => replaced(lines, start, start + taken.length, put), own);
}

/** The edits of lines that both changed, each over all of these lines; null if both changed the same letters in other ways.
 * @type {(base: string[], own: string[], other: string[]) => { taken: string[], put: string[] }[] | null} */
function merged(base, own, other) {
  if (!base.length || !own.length || !other.length) return own.join("\n") === other.join("\n") && own.length === other.length ? [] : null;
  const [old, mine, theirs] = [base, own, other].map((lines) => [...lines.join("\n")]); // by characters, so that none is torn
  const steps = [];
  let now = mine;
  for (const meeting of meetings(hunksOfLetters(old, mine), hunksOfLetters(old, theirs)).reverse()) {
    const { from, to } = meeting.own, put = theirs.slice(meeting.other.from, meeting.other.to);
    if (!meeting.isOther || (meeting.isOwn && put.join("") === now.slice(from, to).join(""))) continue;
    if (meeting.isOwn) return null;
    const next = [...now.slice(0, from), ...put, ...now.slice(to)];
    steps.push({ taken: now.join("").split("\n"), put: next.join("").split("\n") });
    now = next;
  }
  return steps;
}

/** Where lines differ. A blank line is no sign of a place: hunks with nothing else between them are one.
 * @type {(old: string[], now: string[]) => Hunk[]} */
function hunksOfLines(old, now) {
  /** @type {Hunk[]} */
  const found = [];
  for (const hunk of hunksOf(old, now)) {
    const last = found[found.length - 1];
    if (last && old.slice(last.stop, hunk.start).every((line) => !line.trim())) Object.assign(last, { stop: hunk.stop, to: hunk.to });
    else found.push(hunk);
  }
  return found;
}

/** Where letters differ. What begins a line goes after letters that are put in at the end of the line before, and a line that is put in
 * before a line goes before letters at its begin.
 * @type {(old: string[], now: string[]) => Placed[]} */
function hunksOfLetters(old, now) {
  return hunksOf(old, now).map((hunk) => {
    const rank = now[hunk.from] === "\n" ? 1 : now[hunk.to - 1] === "\n" ? -1 : 0;
    return { ...hunk, rank };
  });
}

/** The hunks of two windows, in order: those that change the same items are one meeting.
 * @type {(mine: Placed[], theirs: Placed[]) => Meeting[]} */
function meetings(mine, theirs) {
  const all = [...mine.map((hunk) => ({ ...hunk, isOwn: true })), ...theirs.map((hunk) => ({ ...hunk, isOwn: false }))].sort(inOrder);
  /** @type {Meeting[]} */
  const found = [];
  let own = 0, other = 0; // how many items the hunks so far add
  for (const hunk of all) {
    const { start, stop, isOwn } = hunk, more = hunk.to - hunk.from - (stop - start);
    let last = found[found.length - 1];
    if (!last || !meet(hunk, last)) {
      last = { start, stop, own: { from: start + own, to: 0 }, other: { from: start + other, to: 0 }, isOwn, isOther: !isOwn };
      found.push(last);
    }
    own += isOwn ? more : 0;
    other += isOwn ? 0 : more;
    last.stop = Math.max(last.stop, stop);
    last.own.to = last.stop + own;
    last.other.to = last.stop + other;
    last.isOwn ||= isOwn;
    last.isOther ||= !isOwn;
  }
  return found;
}

/** Whether two hunks change the same items. What is put in beside an item does not change it.
 * @type {(one: { start: number, stop: number }, other: { start: number, stop: number }) => boolean} */
function meet(one, other) {
  return one.start < other.stop && other.start < one.stop;
}

/** The order of two hunks. At one place what is put in comes first, and of two of these that of the lower rank, then the other's.
 * @type {(one: Placed & { isOwn: boolean }, next: Placed & { isOwn: boolean }) => number} */
function inOrder(one, next) {
  const takes = (/** @type {Hunk} */ hunk) => Number(hunk.stop > hunk.start);
  return one.start - next.start || takes(one) - takes(next) || (one.rank ?? 0) - (next.rank ?? 0) || Number(one.isOwn) - Number(next.isOwn);
}
