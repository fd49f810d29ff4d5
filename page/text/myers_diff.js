// Where two lists differ: the fewest items that are left out and put in, by the algorithm of Myers.

import { commonEnds } from "./line_edits.js";

/** The items start..stop of an old list became the items from..to of a new one.
 * @typedef {{ start: number, stop: number, from: number, to: number }} Hunk
 * A place in both lists.
 * @typedef {{ old: number, now: number }} Pair */

const MOST = 400; // items that are left out or put in; if there are more, all between the common ends are one hunk

/** Where two lists differ, in order. Two hunks have a common item between them.
 * @type {(old: ArrayLike<string>, now: ArrayLike<string>) => Hunk[]} */
export function hunksOf(old, now) {
  const { front, back } = commonEnds(old, now);
  const stop = old.length - back, to = now.length - back;
  if (front === stop && front === to) return [];
  const reaches = front < stop && front < to ? reachesOf(old, now, front, stop, to) : null;
  return reaches ? hunksAlong(reaches, front, stop, to) : [{ start: front, stop, from: front, to }];
}

/** How far each diagonal goes by 0, 1, 2, .. items that are left out or put in, as it was before each round; null if it takes too many.
 * @type {(old: ArrayLike<string>, now: ArrayLike<string>, front: number, stop: number, to: number) => Int32Array[] | null} */
function reachesOf(old, now, front, stop, to) {
  const most = Math.min(MOST, stop + to - 2 * front), reach = new Int32Array(2 * most + 3);
  const reaches = [];
  for (let count = 0; count <= most; count += 1) {
    reaches.push(reach.slice());
    for (let diagonal = -count; diagonal <= count; diagonal += 2) {
      const before = cameFrom(reach, most, count, diagonal);
      let x = reach[most + 1 + before] + (before < diagonal ? 1 : 0);
      while (front + x < stop && front + x - diagonal < to && old[front + x] === now[front + x - diagonal]) x += 1;
      reach[most + 1 + diagonal] = x;
      if (front + x >= stop && front + x - diagonal >= to) return reaches;
    }
  }
  return null;
}

/** The diagonal that goes furthest to another one: the one below leaves an item out, the one above puts one in.
 * @type {(reach: Int32Array, most: number, count: number, diagonal: number) => number} */
function cameFrom(reach, most, count, diagonal) {
  if (!count) return diagonal + 1;
  const isAbove = diagonal === -count || (diagonal !== count && reach[most + diagonal] < reach[most + 2 + diagonal]);
  return isAbove ? diagonal + 1 : diagonal - 1;
}

/** The hunks of a way, which is walked from its end.
 * @type {(reaches: Int32Array[], front: number, stop: number, to: number) => Hunk[]} */
function hunksAlong(reaches, front, stop, to) {
  const most = (reaches[0].length - 3) / 2;
  /** @type {Hunk[]} */
  const hunks = [];
  let x = stop - front, y = to - front;
  for (let count = reaches.length - 1; count > 0; count -= 1) {
    const reach = reaches[count], before = cameFrom(reach, most, count, x - y);
    const old = reach[most + 1 + before], now = old - before;
    const isOut = before < x - y; // an item of the old list is left out, else one of the new list is put in
    const end = { stop: front + old + (isOut ? 1 : 0), to: front + now + (isOut ? 0 : 1) }, next = hunks[0];
    if (next && next.start === end.stop && next.from === end.to) Object.assign(next, { start: front + old, from: front + now });
    else hunks.unshift({ start: front + old, from: front + now, ...end });
    [x, y] = [old, now];
  }
  return hunks;
}
