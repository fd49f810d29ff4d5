// What the page says when there is nothing to show: no tune, no notes, no file.

import { show } from "../base/elements.js";

/** @typedef {import("../link/finding_rows.js").TuneRow} TuneRow
 * @typedef {import("../link/finding_rows.js").FaultRow} FaultRow */

/** A tune to begin with. */
export const STARTER = ["X:1", "T:My first tune", "M:4/4", "L:1/8", "Q:1/4=120", "K:G", "|: G2 B2 d2 B2 | c2 A2 G4 :|", ""];

/** Whether a text has nothing in it.
 * @type {(lines: string[]) => boolean} */
const isBlank = (lines) => lines.length < 100 && lines.every((line) => !line.trim());

/** What the page says over an empty sheet. `saved` is the digest of the file that was read or saved last, null if there was none.
 * @type {(name: string, saved: string | null) => string} */
export function whyBlank(name, saved) {
  return name && saved === null ? `There is no file ${name} yet. The first save makes it.` : "The book is empty.";
}

/** Why no tune, or no note of it, is to be seen or heard; nothing if there are notes. `row` is the tune of the caret, `notes` the
 * number of its notes, null if it is not known.
 * @type {(seen: { lines: string[], rows: TuneRow[], faults: FaultRow[], row: TuneRow | null, notes: number | null }) => string} */
export function whyNothing({ lines, rows, faults, row, notes }) {
  if (isBlank(lines)) return "The book is empty. A tune begins with a line X:1.";
  if (!rows.length) return "This text has no tune. A tune begins with a line X: and its number, as X:1.";
  if (!row) return `The caret is before the first tune, which begins at line ${rows[0][0] + 1}.`;
  const [line, number, , hasFile] = row;
  if (!hasFile) return whyNoFile(row, rows, faults);
  if (notes !== 0) return "";
  const isUnread = faults.some((fault) => fault[0] === line && fault[3] === "BadReference");
  return isUnread ? "This tune has no notes yet, and its number cannot be read. Write it as X:1." : `Tune ${number} has no notes yet.`;
}

/** Why a tune has no file.
 * @type {(row: TuneRow, rows: TuneRow[], faults: FaultRow[]) => string} */
function whyNoFile([line, number], rows, faults) {
  const owner = rows.find((row) => row[1] === number && row[3]);
  if (faults.some((fault) => fault[0] === line && fault[3] === "TuneTooLong")) return "This tune is too long; it has no file.";
  if (owner && !number) return `This tune has no number, as the one at line ${owner[0] + 1}; it has no file. Write one, as X:2.`;
  if (owner) return `Number ${number} is used at line ${owner[0] + 1}; this tune has no file.`;
  return "The program made no file of this tune.";
}

export class Starter {
  /** Offers a tune over an empty sheet.
   * @param {import("../editor/text_sheet.js").Sheet} sheet
   * @param {HTMLElement} root */
  constructor(sheet, root) {
    this.sheet = sheet;
    this.root = root;
    root.querySelector("button")?.addEventListener("click", () => this.insert());
  }

  /** The text became another one, or the book is there, or it was saved.
   * @type {(name: string, saved: string | null) => void} */
  look(name, saved) {
    const isShown = isBlank(this.sheet.text.lines);
    show(this.root, isShown);
    if (isShown) this.root.querySelector("p")?.replaceChildren(whyBlank(name, saved));
  }

  /** Whoever opens an empty book can type at once. */
  begin() {
    if (isBlank(this.sheet.text.lines)) this.sheet.area.focus({ preventScroll: true });
  }

  /** Inserts the tune as an edit that can be undone, with its title selected. */
  insert() {
    const { text } = this.sheet, at = { line: 1, column: 2 };
    const after = { start: at, end: { line: 1, column: STARTER[1].length }, direction: "forward" };
    text.edit(0, text.lines.length, STARTER, this.sheet.selection(), after);
    this.sheet.refresh(after);
    this.sheet.area.focus({ preventScroll: true });
  }
}
