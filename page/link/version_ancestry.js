// The text that the server has, as far as this window knows, and the texts before it: what two windows have in common.

import { difference, replaced } from "../text/line_edits.js";
import { withMoves } from "../text/moved_lines.js";
import { mergedLines } from "../text/three_way_merge.js";

/** Which edits a text has in it: by author, how many. An author is a window, or a run of the server for what came from disk.
 * @typedef {Record<string, number>} Edits
 * @typedef {{ lines: string[], has: Edits }} Version
 * How to go back to a text that had these edits: lines from `start` on, `count` of them, were `taken`.
 * @typedef {{ has: Edits, start: number, count: number, taken: string[] }} StepBack */

const MOST_STEPS = 1000, MOST_TOPS = 4;
const NONE = -1; // the count of an author without edits
const MOST_CHARACTERS = 1 << 24; // of the lines of all steps together
const MOST_COPIES = 20_000_000; // of lines, on the ways back to texts that a common text is made of

/** Whether a text has an edit of an author.
 * @type {(has: Edits, author: string, count: number) => boolean} */
export const hasEdit = (has, author, count) => (has[author] ?? NONE) >= count;

/** Whether a text has all edits of another one.
 * @type {(has: Edits, part: Edits) => boolean} */
export function hasAll(has, part) {
  return Object.entries(part).every(([author, count]) => hasEdit(has, author, count));
}

/** The edits of a text that another one lacks.
 * @type {(has: Edits, other: Edits) => Edits} */
export function lackedBy(has, other) {
  return Object.fromEntries(Object.entries(has).filter(([author, count]) => !hasEdit(other, author, count)));
}

/** The edits of either.
 * @type {(one: Edits, other: Edits) => Edits} */
export function joined(one, other) {
  return { ...one, ...lackedBy(other, one) };
}

/** The edits that two texts both have.
 * @type {(one: Edits, other: Edits) => Edits} */
export function common(one, other) {
  return { ...within(one, other), ...within(other, one) };
}

/** The edits of a text by those authors of whom another one has them all.
 * @type {(has: Edits, other: Edits) => Edits} */
function within(has, other) {
  return Object.fromEntries(Object.entries(has).filter(([author, count]) => hasEdit(other, author, count)));
}

export class Ancestry {
  /** @param {Version} version that the server has */
  constructor({ lines, has }) {
    this.lines = lines;
    this.has = has;
    /** @type {StepBack[]} */
    this.steps = [];
    this.characters = 0;
    /** @type {Version[]} */
    this.tops = []; // texts that have more than the server's: this window's text has what they have
  }

  /** The server's text became another one by an edit. `now` has its lines, if a list of them is there already: a copy of those of a
   * long book takes a while.
   * @type {(edit: { start: number, stop: number, lines: string[] }, has: Edits, now?: string[]) => void} */
  edit({ start, stop, lines }, has, now = replaced(this.lines, start, stop, lines)) {
    const taken = this.lines.slice(start, stop);
    this.steps.push({ has: this.has, start, count: lines.length, taken });
    this.characters += lengthOf(taken);
    this.lines = now;
    this.has = has;
    this.tops = this.tops.filter((top) => !hasAll(has, top.has));
    while (this.steps.length > MOST_STEPS || (this.characters > MOST_CHARACTERS && this.steps.length > 1)) {
      this.characters -= lengthOf(this.steps.shift()?.taken ?? []);
    }
  }

  /** The server has another text.
   * @type {(version: Version) => void} */
  become({ lines, has }) {
    const { start, stop, put } = difference(this.lines, lines) ?? { start: 0, stop: 0, put: [] };
    this.edit({ start, stop, lines: put }, has, lines);
  }

  /** The server may have had a text in which this edit is too. It counts as an older one.
   * @type {(edit: { start: number, stop: number, lines: string[] }, has: Edits) => void} */
  suppose({ start, stop, lines }, has) {
    this.meet({ lines: this.lines, has: this.has }, [{ lines: replaced(this.lines, start, stop, lines), has }, ...this.tops]);
  }

  /** The server has another text, which was made of `base` as this window's text was. What the texts become by it of which it is
   * known what they have in common with it counts as older texts.
   * @type {(next: Version, base: Version) => void} */
  rejoin(next, base) {
    const tops = [...this.tops, { lines: this.lines, has: this.has }].filter((top) => !hasAll(next.has, top.has));
    this.meet(next, tops.flatMap((top) => {
      const shared = this.sharedWith(next, top) ?? (hasAll(top.has, base.has) ? base : null);
      return shared ? [{ lines: mergedLines(shared.lines, top.lines, next.lines), has: joined(top.has, next.has) }] : [];
    }));
  }

  /** The server has a text, and others have more than it.
   * @type {(next: Version, tops: Version[]) => void} */
  meet(next, tops) {
    for (const top of tops.slice().reverse()) this.become(top);
    this.become(next);
    this.tops = tops.slice(0, MOST_TOPS);
  }

  /** The text of the edits that this window's text and another one both have, in their order; else the latest text that is equal to
   * the other one, or null.
   * @type {(other: Version, own: Version) => Version | null} */
  sharedWith(other, own) {
    const text = this.textOf(common(own.has, other.has));
    return text ? { lines: withMoves(text.lines, own.lines, other.lines), has: text.has } : this.equalTo(other.lines);
  }

  /** The text of these edits: the known text with most of them, in which those that it lacks are made one after another. It lacks
   * some if the known texts do not say what they changed, or if that takes too long. Null if each known text has other edits. Texts
   * from `end` on do not count.
   * @type {(wanted: Edits, end?: number, left?: { copies: number }) => Version | null} */
  textOf(wanted, end = this.steps.length + 1, left = { copies: MOST_COPIES }) {
    const all = [...this.steps.map((step) => step.has), this.has].slice(0, end);
    let best = -1;
    for (const [at, has] of all.entries()) if (hasAll(wanted, has) && (best < 0 || hasAll(has, all[best]))) best = at;
    if (best < 0) return null;
    return all.reduce((text, has, at) => this.withEdits(text, lackedBy(within(has, wanted), text.has), at, left), this.versionAt(best));
  }

  /** A text with more edits, which a known text has: what this one changed by them is changed there too.
   * @type {(text: Version, more: Edits, at: number, left: { copies: number }) => Version} */
  withEdits(text, more, at, left) {
    if (!Object.keys(more).length || left.copies < 0) return text;
    left.copies -= 2 * (this.steps.length - at) * this.lines.length;
    const { lines, has } = this.versionAt(at), rest = { ...has };
    for (const author of Object.keys(more)) rest[author] = text.has[author] ?? NONE;
    const base = this.textOf(rest, at, left);
    return base && hasAll(base.has, rest) ? { lines: mergedLines(base.lines, lines, text.lines), has: joined(text.has, more) } : text;
  }

  /** The latest text that is equal to lines, or null.
   * @type {(wanted: string[]) => Version | null} */
  equalTo(wanted) {
    let differs = 0; // a line that was seen to differ
    for (const { lines, has } of this.backwards()) {
      if (lines.length !== wanted.length || lines[differs] !== wanted[differs]) continue;
      differs = lines.findIndex((line, n) => line !== wanted[n]);
      if (differs < 0) return { lines, has };
    }
    return null;
  }

  /** The text before a step; after all steps, the present one.
   * @type {(wanted: number) => Version} */
  versionAt(wanted) {
    let at = this.steps.length;
    for (const version of this.backwards()) {
      if (at === wanted) return version;
      at -= 1;
    }
    return this;
  }

  /** The texts, the latest one first.
   * @returns {Iterable<Version>} */
  *backwards() {
    let { lines, has } = this;
    yield { lines, has };
    for (const step of this.steps.slice().reverse()) {
      lines = replaced(lines, step.start, step.start + step.count, step.taken);
      ({ has } = step);
      yield { lines, has };
    }
  }
}

/** How many characters lines have.
 * @type {(lines: string[]) => number} */
function lengthOf(lines) {
  return lines.reduce((sum, line) => sum + line.length, 0);
}
