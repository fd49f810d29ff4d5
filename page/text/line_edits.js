// Lists of lines: where two of them differ, and what edits make of one.

/** @typedef {{ start: number, taken: string[], put: string[] }} Replacement lines from `start` on became others */

/** How much two lists of lines, or two texts, share at their begins, and of the rest at their ends.
 * @param {ArrayLike<unknown>} old
 * @param {ArrayLike<unknown>} now */
export function commonEnds(old, now) {
  const least = Math.min(old.length, now.length);
  let front = 0, back = 0;
  while (front < least && old[front] === now[front]) front += 1;
  while (back < least - front && old[old.length - 1 - back] === now[now.length - 1 - back]) back += 1;
  return { front, back };
}

/** Where two lists of lines differ: lines start..stop of the old one became `put`; null where they are the same.
 * @template T
 * @param {T[]} old
 * @param {T[]} now */
export function difference(old, now) {
  const { front, back } = commonEnds(old, now);
  const edit = { start: front, stop: old.length - back, put: now.slice(front, now.length - back) };
  return edit.start === edit.stop && !edit.put.length ? null : edit;
}

/** Lines, or what belongs to each line, after some became others.
 * @template T
 * @param {T[]} lines
 * @param {number} start
 * @param {number} stop
 * @param {T[]} put */
export function replaced(lines, start, stop, put) {
  if (put.length === stop - start) return copyWith(lines, start, put);
  return lines.slice(0, start).concat(put, lines.slice(stop));
}

/** A copy of lines with others from a place on. It copies a long book once, and not twice.
 * @template T
 * @param {T[]} lines
 * @param {number} start
 * @param {T[]} put */
function copyWith(lines, start, put) {
  const now = lines.slice();
  for (const [n, line] of put.entries()) now[start + n] = line;
  return now;
}

/** Lines after edits, which are in order and at places of these lines.
 * @type {(lines: string[], edits: Replacement[]) => string[]} */
export function applyEdits(lines, edits) {
  if (edits.length === 1) return replaced(lines, edits[0].start, edits[0].start + edits[0].taken.length, edits[0].put);
  /** @type {string[]} */
  const now = [];
  let from = 0;
  for (const { start, taken, put } of edits) {
    append(now, lines, from, start);
    append(now, put, 0, put.length);
    from = start + taken.length;
  }
  append(now, lines, from, lines.length);
  return now;
}

/** Appends the lines from a place to another, one by one: `push` does not take all lines of a long book at once.
 * @type {(now: string[], lines: string[], from: number, to: number) => void} */
function append(now, lines, from, to) {
  for (let n = from; n < to; n += 1) now.push(lines[n]);
}
