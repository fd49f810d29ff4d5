// The differences of two texts, as few edits. Each line of a text ends with a line feed.

import { FEED, MOST_LINES, countLines } from "./lines.js";

const MOST_EDITS = 1000; // for one change of a text
const WORD = 4; // bytes that are compared at once
const oneByteEach = new TextDecoder("latin1"); // different bytes become different characters

/** A view of bytes, which reads words at any place. */
const viewOf = ({ buffer, byteOffset, byteLength }) => new DataView(buffer, byteOffset, byteLength);

/** How many bytes are the same at the front of both texts. */
function commonFront(old, now) {
  const most = Math.min(old.length, now.length), before = viewOf(old), after = viewOf(now);
  let n = 0;
  while (n + WORD <= most && before.getInt32(n) === after.getInt32(n)) n += WORD;
  while (n < most && old[n] === now[n]) n += 1;
  return n;
}

/** How many bytes are the same at the back of both texts, after those that are the same at the front. */
function commonBack(old, now, front) {
  const most = Math.min(old.length, now.length) - front, before = viewOf(old), after = viewOf(now);
  let n = 0;
  while (n + WORD <= most && before.getInt32(old.length - n - WORD) === after.getInt32(now.length - n - WORD)) n += WORD;
  while (n < most && old[old.length - 1 - n] === now[now.length - 1 - n]) n += 1;
  return n;
}

/** How many of the `lines` of a text end at a place or before it, counted on the shorter side of it. */
function linesBefore(text, at, lines) {
  return 2 * at < text.length ? countLines(text.subarray(0, at)) : lines - countLines(text.subarray(at));
}

/** The place at which the line begins that has the byte of a place. */
function lineStart(text, at) {
  return at === 0 ? 0 : text.lastIndexOf(FEED, at - 1) + 1;
}

/** Whether a line begins at a place, or the text ends there. */
function isLineStart(text, at) {
  return at === 0 || text[at - 1] === FEED;
}

/** How many of the last bytes of both texts, which are the same, are whole lines of both. */
function commonLines(old, now, back) {
  const from = old.length - back;
  if (isLineStart(old, from) && isLineStart(now, now.length - back)) return back;
  return old.length - (old.indexOf(FEED, from) + 1);
}

/** The lines of a text, as strings that are equal exactly if the lines are. */
function linesOf(text) {
  return oneByteEach.decode(text).split("\n").slice(0, -1);
}

/** The index of each line that occurs once. */
function singles(lines) {
  const found = new Map();
  lines.forEach((line, n) => found.set(line, found.has(line) ? -1 : n));
  return new Map([...found].filter(([, n]) => n >= 0));
}

/** Pairs of indexes of lines that both texts have once, rising in both: as many as there are. */
function anchors(old, now) {
  const places = singles(now);
  const pairs = [...singles(old)].filter(([line]) => places.has(line)).map(([line, n]) => [n, places.get(line)]);
  return longestRise(pairs);
}

/** As many of the pairs as there are whose second members rise. */
function longestRise(pairs) {
  const ends = []; // by length: the pair with the least end of such a choice, after the pair before it
  for (const pair of pairs) {
    let low = 0, high = ends.length;
    while (low < high) {
      const middle = (low + high) >> 1;
      if (ends[middle].pair[1] < pair[1]) low = middle + 1;
      else high = middle;
    }
    ends[low] = { pair, before: ends[low - 1] };
  }
  const chosen = [];
  for (let end = ends.at(-1); end; end = end.before) chosen.push(end.pair);
  return chosen.reverse();
}

/** An edit of the lines between two anchors, without those that are the same at either end; none if all are. */
function editBetween(old, now, edit) {
  let { start, stop, from, to } = edit;
  while (start < stop && from < to && old[start] === now[from]) {
    start += 1;
    from += 1;
  }
  while (start < stop && from < to && old[stop - 1] === now[to - 1]) {
    stop -= 1;
    to -= 1;
  }
  return start < stop || from < to ? [{ start, stop, from, to }] : [];
}

/** Edits that make one list of lines of another: the lines `start` to `stop` become `from` to `to` of the other. */
function editsOfLines(old, now) {
  const found = [];
  let start = 0, from = 0;
  for (const [stop, to] of [...anchors(old, now), [old.length, now.length]]) {
    found.push(...editBetween(old, now, { start, stop, from, to }));
    start = stop;
    from = to;
  }
  return found;
}

/** The edits with those of one tune in one, and at most `most`: the pairs that are farthest apart stay apart. An edit costs about
 * half of what opening its tune costs, so two in one tune are not worth it. */
function merged(edits, old, most) {
  const gaps = edits.slice(1).map(({ start }, n) => ({ n: n + 1, lines: start - edits[n].stop, first: edits[n].stop, start }));
  const apart = gaps.filter(({ first, start }) => old.slice(first, start).some((line) => line.startsWith("X:")));
  const cuts = apart.sort((one, other) => other.lines - one.lines).slice(0, most - 1).map(({ n }) => n).sort((one, other) => one - other);
  return [0, ...cuts].map((cut, n) => {
    const first = edits[cut], last = edits[(cuts[n] ?? edits.length) - 1];
    return { start: first.start, stop: last.stop, from: first.from, to: last.to };
  });
}

/** Few edits that make the text `now` of `old`, which has `lines` lines, rising, with lines of `old`, counted from 0: those from `start`
 * to `stop` become the lines of `text`. If they are made from the last to the first, the text never has too many lines if neither
 * text has. */
export function fewEdits(old, now, lines) {
  const front = lineStart(old, commonFront(old, now));
  const back = commonLines(old, now, commonBack(old, now, front));
  const oldEnd = old.length - back, nowEnd = now.length - back;
  const oldLines = linesOf(old.subarray(front, oldEnd)), nowLines = linesOf(now.subarray(front, nowEnd));
  const found = editsOfLines(oldLines, nowLines);
  if (found.length === 0) return [];
  const first = linesBefore(old, front, lines);
  const onTheWay = lines + found.reduce((sum, { from, to }) => sum + to - from, 0);
  const starts = [front];
  for (const line of nowLines) starts.push(starts.at(-1) + line.length + 1);
  return merged(found, oldLines, onTheWay > MOST_LINES ? 1 : MOST_EDITS).map(({ start, stop, from, to }) => ({
    start: first + start, stop: first + stop, text: now.subarray(starts[from], starts[to]),
  }));
}
