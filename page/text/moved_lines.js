// What two texts that were made of one have at another place than this one.

import { commonEnds, replaced } from "./line_edits.js";
import { hunksOf } from "./myers_diff.js";

/** @typedef {import("./myers_diff.js").Hunk & { put: string[] }} Change letters start..stop of a text became others, which were `put` */

const MOST_MOVES = 20, MOST_CHARACTERS = 200_000; // of the lines that are not the same in all three texts

/** A text of which two others were made, with what both have at another place at that place: both left it out, and put it in there.
 * @type {(base: string[], own: string[], other: string[]) => string[]} */
export function withMoves(base, own, other) {
  const ends = [own, other].map((lines) => commonEnds(base, lines));
  const front = Math.min(...ends.map((one) => one.front)), back = Math.min(...ends.map((one) => one.back));
  const [old, mine, theirs] = [base, own, other].map((lines) => [...lines.slice(front, lines.length - back).join("\n")]);
  if (!old.length || old.length + mine.length + theirs.length > MOST_CHARACTERS) return base;
  let now = old;
  for (let count = 0, next = withMove(now, mine, theirs); next && count < MOST_MOVES; count += 1) {
    now = next;
    next = withMove(now, mine, theirs);
  }
  return now === old ? base : replaced(base, front, base.length - back, now.join("").split("\n"));
}

/** Letters with the first ones of them at their place that two texts have at another place; null if there are none.
 * @type {(old: string[], mine: string[], theirs: string[]) => string[] | null} */
function withMove(old, mine, theirs) {
  const own = changesOf(old, mine), others = changesOf(old, theirs);
  const places = own.flatMap(({ start, put }) => others.filter((other) => other.start === start).map((other) => ({ at: start, puts: [put, other.put] })));
  for (const one of own) {
    for (const other of others) {
      const start = Math.max(one.start, other.start), stop = Math.min(one.stop, other.stop), taken = old.slice(start, stop);
      const place = taken.length && places.find(({ at, puts }) => (at < start || at > stop) && puts.every((put) => hasInOrder(put, taken)));
      if (place) return moved(old, start, stop, place.at);
    }
  }
  return null;
}

/** Letters of which those at start..stop are at another place.
 * @type {(old: string[], start: number, stop: number, at: number) => string[]} */
function moved(old, start, stop, at) {
  const place = at < start ? at : at - (stop - start);
  return replaced(replaced(old, start, stop, []), place, place, old.slice(start, stop));
}

/** Whether letters have others among them, in order.
 * @type {(letters: string[], others: string[]) => boolean} */
function hasInOrder(letters, others) {
  let found = 0;
  for (const letter of letters) if (letter === others[found]) found += 1;
  return found === others.length;
}

/** The changes that make letters of others.
 * @type {(old: string[], now: string[]) => Change[]} */
function changesOf(old, now) {
  return hunksOf(old, now).map((hunk) => ({ ...hunk, put: now.slice(hunk.from, hunk.to) }));
}
