// The faults, hints and tunes of the book at their places in this window's text, which the server may not have yet.

import { placeOf, rowsIn, without } from "./finding_rows.js";

/** @typedef {import("./finding_rows.js").FaultRow} FaultRow
 * @typedef {import("./finding_rows.js").TuneRow} TuneRow */

const MOST_RANGES = 8; // of lines, of which the remarks are remembered

export class Findings {
  /** @param {import("../text/text.js").Text} text
   * @param {import("./host_link.js").Link} link
   * @param {import("./host_book.js").Book} book */
  constructor(text, link, book) {
    this.text = text;
    this.link = link;
    this.book = book;
    /** @type {FaultRow[]} */
    this.faults = [];
    /** @type {FaultRow[]} */
    this.hints = [];
    /** @type {Set<string>} */
    this.hiddenKinds = new Set(); // of hints; another set if others are hidden
    this.known = { hints: this.hints, kinds: this.hiddenKinds, shown: this.hints }; // the hints that were looked through last
    /** @type {TuneRow[]} */
    this.tunes = [];
    /** @type {{ tunes: TuneRow[], number: number | null, at: number }} */
    this.owner = { tunes: this.tunes, number: null, at: -1 }; // that was looked for last
    /** @type {Map<string, FaultRow[]>} */
    this.found = new Map(); // faults and hints together, by the lines that were asked for
  }

  /** Renews all places: the text or the book became another one. */
  renew() {
    const { faults, hints } = this;
    this.faults = this.placed(this.book.faults);
    this.hints = this.placed(this.shownHints);
    if (faults !== this.faults || hints !== this.hints) this.found.clear();
    this.tunes = this.placed(this.book.tunes);
  }

  /** The hints of the book that are not hidden: the same list until it has others. */
  get shownHints() {
    const { hints } = this.book, { hiddenKinds: kinds, known } = this;
    if (!kinds.size) return hints;
    if (known.hints !== hints || known.kinds !== kinds) this.known = { hints, kinds, shown: hints.filter(([, , , name]) => !kinds.has(name)) };
    return this.known.shown;
  }

  /** Rows of the server's text, as they are in this window's.
   * @template {[line: number, ...more: any[]]} R
   * @param {R[]} rows */
  placed(rows) {
    return this.unsent.reduce((those, { start, stop, count }) => {
      return without(those, start + Math.min(count, stop - start), stop, count - (stop - start));
    }, rows);
  }

  /** The edits that the server does not have, or may not have. */
  get unsent() {
    const { sent } = this.link, { pending } = this.text;
    return [...(sent ? [{ ...sent, count: sent.lines.length }] : []), ...(pending ? [pending] : [])];
  }

  /** Faults and hints of some lines, in order: the same list until one in the book is another.
   * @type {(first: number, last: number) => FaultRow[]} */
  remarksIn(first, last) {
    const key = `${first} ${last}`, known = this.found.get(key);
    if (known) return known;
    if (this.found.size === MOST_RANGES) this.found.clear();
    const found = rowsIn(this.faults, first, last).concat(rowsIn(this.hints, first, last)).sort((a, b) => a[0] - b[0] || a[1] - b[1]);
    this.found.set(key, found);
    return found;
  }

  /** How many faults some lines have.
   * @type {(first: number, last: number) => number} */
  faultsIn(first, last) {
    return rowsIn(this.faults, first, last).length;
  }

  /** The place among the tunes of the one that has a line, -1 before the first tune.
   * @type {(line: number) => number} */
  tuneAt(line) {
    return placeOf(this.tunes, line + 1) - 1;
  }

  /** The place among the tunes of the one that has the file of a number, -1 if none has.
   * @type {(number: number | null) => number} */
  ownerOf(number) {
    const { tunes, owner } = this;
    if (owner.tunes !== tunes || owner.number !== number) this.owner = { tunes, number, at: tunes.findIndex((row) => row[1] === number && row[3]) };
    return this.owner.at;
  }

  /** The line after a tune.
   * @type {(at: number) => number} */
  endOf(at) {
    return this.tunes[at + 1]?.[0] ?? this.text.lines.length;
  }
}
