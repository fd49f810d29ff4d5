// The line at the bottom: the latest sentence of the page, and the place of the caret.

import { find, write } from "../base/elements.js";

export class StatusBar {
  constructor() {
    this.line = find("status");
    this.isAway = false; // the server is shown to be away
  }

  /** @type {(words: string) => void} */
  say(words) {
    this.line.textContent = words;
  }

  /** Shows that the server is away, or is there. A sentence on that may be longer than a row.
   * @type {(isAway: boolean) => void} */
  mark(isAway) {
    this.isAway = isAway;
    this.line.classList.toggle("away", isAway);
    this.line.parentElement?.classList.toggle("tall", isAway);
  }

  /** Shows the place of the caret.
   * @type {(place: import("../text/selection.js").Place) => void} */
  place({ line, column }) {
    write(find("place"), `Line ${line + 1}, column ${column + 1}`);
  }
}
