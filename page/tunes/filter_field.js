// The field that filters the list of the tunes, and how many there are.

import { field, find, write } from "../base/elements.js";

export class TuneFilter {
  /** @param {import("./tune_list.js").Tunes} tunes
   * @param {import("../link/findings.js").Findings} findings */
  constructor(tunes, findings) {
    this.tunes = tunes;
    this.findings = findings;
    this.words = field("filter");
    this.words.addEventListener("input", () => this.sift());
    this.words.addEventListener("keydown", (event) => this.key(event));
  }

  /** Shows the tunes that the filter lets through. */
  sift() {
    this.tunes.sift(this.words.value);
    this.tally();
  }

  /** Says how many tunes there are, and how many of them the filter lets through. */
  tally() {
    const { rows } = this.tunes, all = this.findings.tunes, isSifted = rows !== all;
    find("list").classList.toggle("none", isSifted && !rows.length);
    write(find("tally"), isSifted ? `${rows.length} of ${all.length}` : all.length ? String(all.length) : "");
  }

  /** @type {(event: KeyboardEvent) => void} */
  key(event) {
    const { tunes, words } = this;
    if (event.key === "Escape" && words.value) {
      words.value = "";
      this.sift();
    } else if (event.key === "Enter" && tunes.rows.length) tunes.chosen(tunes.rows[0]);
    else if (event.key === "ArrowDown") find("list").focus();
    else return;
    event.preventDefault();
  }
}
