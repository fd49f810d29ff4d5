// The book as the server has it: its name, its faults, hints and tunes.

import { changed } from "./finding_rows.js";

/** @typedef {import("./finding_rows.js").FaultRow} FaultRow
 * @typedef {import("./finding_rows.js").TuneRow} TuneRow */

export class Book {
  constructor() {
    this.name = ""; // of its file, "" if no book was named
    /** @type {FaultRow[]} */
    this.faults = [];
    /** @type {FaultRow[]} */
    this.hints = [];
    /** @type {TuneRow[]} */
    this.tunes = [];
    this.hintsTold = 0; // which hints these are, as the server counts them
  }

  /** Takes a whole book.
   * @type {(fresh: import("./host_link.js").Book) => void} */
  open({ name, faults, hintRows, hints, tunes }) {
    this.name = name;
    this.faults = faults;
    this.tunes = tunes;
    this.learn(hintRows, hints);
  }

  /** Takes a change. Hints of the lines that changed are read later.
   * @type {(change: import("./host_link.js").Change) => void} */
  change({ edit, faults, tunes }) {
    this.faults = changed(this.faults, edit, faults);
    this.tunes = changed(this.tunes, edit, tunes);
    this.hints = changed(this.hints, edit, { at: 0, out: 0, put: [] });
  }

  /** Takes other hints.
   * @type {(hints: FaultRow[], told: number) => void} */
  learn(hints, told) {
    this.hints = hints;
    this.hintsTold = told;
  }
}
