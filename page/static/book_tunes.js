// The tunes of a text in a session: where they begin, and their titles. After an edit only those titles are read that it may have changed.

import { MarkedLines } from "./marked_lines.js";

/** @typedef {import("./book_text.js").Line} Line
 * @typedef {import("../link/finding_rows.js").TuneRow} TuneRow
 * @typedef {import("../abc2midi-live/index.js").Title} Title
 * What has titles.
 * @typedef {{ titlesIn: (start: number, stop: number) => Promise<Title[]> }} Session
 * Titles that edits may have changed: those from `start` to `stop` became those from `start` to `end`.
 * @typedef {{ start: number, stop: number, end: number }} Renewal */

export class BookTunes {
  constructor() {
    this.starts = new MarkedLines(begins);
    /** @type {Title[]} */
    this.titles = []; // as they were read last
    /** @type {Renewal | null} */
    this.renewal = null; // since then
  }

  /** Lines start..stop of the text became others.
   * @type {(start: number, stop: number, put: Line[]) => void} */
  follow(start, stop, put) {
    const { starts } = this, first = starts.before(start), last = starts.before(stop), count = starts.places.length;
    starts.follow(start, stop, put);
    this.renewal = this.renewalOf(first, last, starts.places.length - count);
  }

  /** The titles that may be others after an edit of tunes first..last: from the tune before it to the tune after it. If no tune begins before
   * it, the file header may be another one, and so may all titles.
   * @type {(first: number, last: number, more: number) => Renewal} */
  renewalOf(first, last, more) {
    const known = this.titles.length, count = this.starts.places.length;
    if (this.renewal || first === 0 || known !== count - more) return { start: 0, stop: known, end: count };
    return { start: first - 1, stop: last, end: last + more };
  }

  /** Reads the titles that may be others.
   * @type {(session: Session) => Promise<void>} */
  async read(session) {
    if (!this.renewal) return;
    const { start, stop, end } = this.renewal, fresh = await session.titlesIn(start, end);
    this.titles = this.titles.slice(0, start).concat(fresh, this.titles.slice(stop));
    this.renewal = null;
  }

  /** The rows of the tunes: each `X:` line begins one. The first one of a number that is not too long has the file.
   * @type {(faults: { line: number, name: string }[]) => TuneRow[]} */
  rows(faults) {
    const tooLong = new Set(faults.filter(({ name }) => name === "TuneTooLong").map(({ line }) => line - 1));
    const owned = new Set();
    return this.titles.map(({ number, text }, n) => {
      const line = this.starts.places[n], owns = !owned.has(number) && !tooLong.has(line);
      if (owns) owned.add(number);
      return [line, number, text, owns];
    });
  }
}

/** Whether a line begins a tune.
 * @type {(line: Line) => boolean} */
function begins(line) {
  return typeof line === "string" ? line.startsWith("X:") : line[0] === 0x58 && line[1] === 0x3a;
}
