// The window that shows what is different between two texts.

import { differencesOf } from "./difference_rows.js";

/** @typedef {import("./difference_rows.js").Row} Row
 * A text to compare: its name, as "this text", and its lines.
 * @typedef {{ name: string, lines: string[] }} Named */

const SIGNS = { same: "", out: "−", in: "+", gap: "⋯" };

export class DifferencesDialog {
  /** @param {HTMLDialogElement} dialog */
  constructor(dialog) {
    const part = (/** @type {string} */ name) => /** @type {HTMLElement} */ (dialog.querySelector(`#differences-${name}`));
    this.dialog = dialog;
    this.words = part("words");
    this.table = part("rows");
    part("close").addEventListener("click", () => dialog.close());
  }

  /** Shows the differences between two texts.
   * @type {(old: Named, now: Named) => void} */
  open(old, now) {
    const { rows, out, put, more } = differencesOf(old.lines, now.lines);
    this.words.textContent = summary(old.name, out, now.name, put);
    this.table.replaceChildren(...rows.map(rowOf), ...(more ? [rowOf({ kind: "gap", old: 0, now: 0, words: `${more} more rows` })] : []));
    if (!this.dialog.open) this.dialog.showModal();
  }
}

/** How many lines are in one text alone.
 * @type {(old: string, out: number, now: string, put: number) => string} */
export function summary(old, out, now, put) {
  if (!out && !put) return `The lines of ${old} and of ${now} are the same.`;
  return `− ${counted(out)} only in ${old}. + ${counted(put)} only in ${now}.`;
}

/** @type {(count: number) => string} */
const counted = (count) => (count === 1 ? "1 line is" : `${count} lines are`);

/** A row of the table: the numbers of the line in both texts, the sign, and the line.
 * @type {(row: Row) => HTMLTableRowElement} */
function rowOf({ kind, old, now, words }) {
  const row = Object.assign(document.createElement("tr"), { className: kind });
  const line = Object.assign(document.createElement({ same: "span", out: "del", in: "ins", gap: "span" }[kind]), { textContent: words });
  for (const content of [old || "", now || "", SIGNS[kind], line]) {
    const cell = document.createElement("td");
    cell.append(typeof content === "number" ? String(content) : content);
    row.append(cell);
  }
  return row;
}
