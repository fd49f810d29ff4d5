// A layer below the text area, with a row for each line about those that are seen.

import { commonEnds, difference } from "../text/line_edits.js";

const TEXT = 3; // the type of a node

export class Layer {
  /** @param {import("./text_sheet.js").Sheet} sheet
   * @param {string} className */
  constructor(sheet, className) {
    this.sheet = sheet;
    this.element = Object.assign(document.createElement("div"), { className, ariaHidden: "true" });
    /** @type {unknown[]} */
    this.keys = []; // of the rows that are drawn
    sheet.area.before(this.element);
  }

  /** Draws the rows of some lines. Each line has a key; `make` makes the row of the n-th. Rows with the same key stay.
   * @type {(first: number, keys: unknown[], make: (n: number) => Node) => void} */
  draw(first, keys, make) {
    this.element.style.top = `${this.sheet.topInArea(first)}px`;
    const edit = difference(this.keys, keys), old = this.keys;
    this.keys = keys;
    if (edit) this.change(edit, old, make);
  }

  /** Puts in the rows of other keys, and takes out those of keys that are no more. Between them rows stay, as those after a new line.
   * @type {(edit: { start: number, stop: number, put: unknown[] }, old: unknown[], make: (n: number) => Node) => void} */
  change({ start, stop, put }, old, make) {
    const rows = [...this.element.children], wanted = new Set(put);
    if (put.length === 1 && stop - start === 1) return patch(rows[start], make(start));
    let at = start; // of the next row that is there
    for (const [n, key] of put.entries()) {
      while (at < stop && !wanted.has(old[at])) rows[at++].remove();
      if (at < stop && old[at] === key) at += 1;
      else this.element.insertBefore(make(start + n), rows[at] ?? null);
    }
    for (; at < stop; at += 1) rows[at].remove();
  }

  clear() {
    this.keys = [];
    this.element.replaceChildren();
  }
}

/** Makes a row show what another one shows. Nodes that show the same stay, so the browser lays out less.
 * @type {(row: Node, next: Node) => void} */
function patch(row, next) {
  const old = [...row.childNodes], now = [...next.childNodes], { front, back } = commonEnds(old.map(wordsOf), now.map(wordsOf));
  const gone = old.slice(front, old.length - back), come = now.slice(front, now.length - back);
  if (gone.length === 1 && come.length === 1 && gone[0].nodeType === TEXT && come[0].nodeType === TEXT) {
    gone[0].nodeValue = come[0].nodeValue;
    return;
  }
  for (const node of gone) row.removeChild(node);
  for (const node of come) row.insertBefore(node, old[old.length - back] ?? null);
}

/** What a node shows.
 * @type {(node: Node) => string} */
const wordsOf = (node) => `${/** @type {Element} */ (node).className ?? ""}|${node.textContent}`;

/** A row of a line, with some parts of it in elements: [start, end, class].
 * @type {(line: string, parts: [start: number, end: number, className: string][]) => HTMLElement} */
export function rowOf(line, parts) {
  const row = document.createElement("div");
  let at = 0;
  for (const [start, end, className] of parts) {
    if (at < start) row.append(line.slice(at, start));
    row.append(Object.assign(document.createElement("span"), { className, textContent: line.slice(start, end) }));
    at = end;
  }
  if (at < line.length) row.append(line.slice(at));
  return row;
}
