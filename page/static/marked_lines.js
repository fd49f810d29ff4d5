// Which lines of a text have something, while lines become others: an edit looks at its own lines alone.

import { countBefore } from "../base/binary_search.js";

/** @typedef {import("./book_text.js").Line} Line */

export class MarkedLines {
  /** `has` says whether a line has it.
   * @param {(line: Line) => boolean} has */
  constructor(has) {
    this.has = has;
    /** @type {number[]} */
    this.places = []; // of these lines, rising
  }

  /** How many of them are before a place.
   * @type {(place: number) => number} */
  before(place) {
    return countBefore(this.places, (at) => at < place);
  }

  /** Lines start..stop of the text became others.
   * @type {(start: number, stop: number, put: Line[]) => void} */
  follow(start, stop, put) {
    const more = put.length - (stop - start), later = this.places.slice(this.before(stop));
    const found = put.flatMap((line, n) => (this.has(line) ? [start + n] : []));
    this.places = this.places.slice(0, this.before(start)).concat(found, more ? later.map((place) => place + more) : later);
  }
}
