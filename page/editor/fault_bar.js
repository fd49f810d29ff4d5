// How many faults and hints there are, and the ways from one to another.

import { button, find, show, write } from "../base/elements.js";
import { counted } from "../base/plural.js";

/** @typedef {import("../link/finding_rows.js").FaultRow} FaultRow */

const MANY = 99; // hints

export class FaultBar {
  /** @param {import("./text_sheet.js").Sheet} sheet
   * @param {import("../link/findings.js").Findings} findings */
  constructor(sheet, findings) {
    this.sheet = sheet;
    this.findings = findings;
    /** @type {FaultRow[] | null} */
    this.counted = null; // the hints of which the number is shown
    find("count").addEventListener("click", () => this.go(neighbour(findings.faults, sheet.caret(), true)));
    find("before").addEventListener("click", () => this.step(false));
    find("after").addEventListener("click", () => this.step(true));
  }

  show() {
    const { faults, hints, book } = this.findings, count = button("count");
    write(count, faults.length ? counted(faults.length, "fault") : "No faults");
    if (hints !== this.counted || !hints.length) write(find("hinted"), hints.length ? hintWords(hints) : "Hints are hidden");
    this.counted = hints;
    show(find("hinted"), hints.length > 0 || book.hints.length > 0);
    count.disabled = !faults.length;
    button("before").disabled = button("after").disabled = !faults.length && !hints.length;
  }

  /** Goes to the next fault, or the one before. The hints of the book come after its last fault, so that no mistake is behind
   * hundreds of them.
   * @type {(isForward: boolean) => void} */
  step(isForward) {
    const { faults, hints } = this.findings, place = this.sheet.caret();
    const isAt = (/** @type {FaultRow} */ row) => compared(row, place) === 0;
    const isAmongHints = !faults.length || (hints.some(isAt) && !faults.some(isAt));
    const [those, others] = isAmongHints ? [hints, faults] : [faults, hints];
    const end = those.at(isForward ? -1 : 0), isAtEnd = end !== undefined && isAt(end);
    this.go(isAtEnd && others.length ? others.at(isForward ? 0 : -1) : neighbour(those, place, isForward));
  }

  /** @type {(row: FaultRow | undefined) => void} */
  go(row) {
    if (row) this.sheet.go(row[0], row[1], true);
  }
}

/** How many hints there are; of a book with many of them, of how many kinds they are.
 * @type {(hints: FaultRow[]) => string} */
function hintWords(hints) {
  const kinds = hints.length > MANY ? new Set(hints.map(([, , , name]) => name)).size : 0;
  return kinds ? `Hints of ${counted(kinds, "kind")}` : counted(hints.length, "hint");
}

/** Less than 0 if a row is before a place, more if it is after it.
 * @type {(row: FaultRow, place: import("../text/selection.js").Place) => number} */
const compared = ([at, from], { line, column }) => at - line || from - column;

/** The first row after a place, or the last one before it; after the last one comes the first.
 * @type {(rows: FaultRow[], place: import("../text/selection.js").Place, isForward: boolean) => FaultRow | undefined} */
function neighbour(rows, place, isForward) {
  if (isForward) return rows.find((row) => compared(row, place) > 0) ?? rows[0];
  return rows.findLast((row) => compared(row, place) < 0) ?? rows.at(-1);
}
