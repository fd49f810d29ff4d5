// The list of what may be written at the caret, while someone types.

import { DIRECTIVE } from "../tunes/instruments.js";
import { completions, narrowed, situationOf } from "./completion.js";

/** @typedef {import("./completion.js").Item} Item
 * @typedef {import("../text/selection.js").Place} Place */

const MOST = 128; // items that are shown: there are as many programs

export class Completing {
  /** `list` is the element of the items; `rows` gives the tunes of the book.
   * @param {import("./text_sheet.js").Sheet} sheet
   * @param {HTMLElement} list
   * @param {() => import("../link/finding_rows.js").TuneRow[]} rows */
  constructor(sheet, list, rows) {
    this.sheet = sheet;
    this.list = list;
    this.rows = rows;
    /** @type {import("./completion.js").Words | null} */
    this.words = null;
    /** @type {Item[]} */
    this.items = [];
    /** @type {Place | null} */
    this.place = null; // of the caret, for which the items are
    this.at = -1; // the item that a key chose
    const { area, scroller } = sheet;
    area.addEventListener("input", () => this.look());
    area.addEventListener("keydown", (event) => this.key(event), true);
    for (const name of ["blur", "pointerdown"]) area.addEventListener(name, () => this.close());
    scroller.addEventListener("scroll", () => this.put());
    document.addEventListener("selectionchange", () => this.place && !isSame(sheet.caret(), this.place) && this.close());
    list.addEventListener("pointerdown", (event) => {
      event.preventDefault(); // the text keeps the focus
      const row = /** @type {HTMLElement | null} */ (/** @type {Element} */ (event.target).closest("[role=option]"));
      if (row) this.take(Number(row.dataset.at));
    });
  }

  /** Reads the words. Without them nothing is offered. */
  async open() {
    const answer = await fetch("completion.json").catch(() => null);
    if (answer?.ok) this.words = await answer.json();
  }

  get isOpen() {
    return this.place !== null;
  }

  /** Offers what may be written at the caret. An empty line offers nothing until a letter is there. */
  look() {
    const { sheet, words } = this, place = sheet.caret();
    if (!words || sheet.composing || sheet.away) return this.close();
    const where = situationOf(sheet.text.lines, this.rows(), place), rest = sheet.text.lines[place.line].slice(place.column);
    const items = where.before ? narrowed(completions(words, where), where.before).slice(0, MOST) : [];
    const isInWord = /^\w/.test(rest) && !items[0]?.text.startsWith("!"); // a mark comes directly before a note
    if (!items.length || isInWord) return this.close();
    this.show(items, place);
  }

  /** @type {(items: Item[], place: Place) => void} */
  show(items, place) {
    const { list, sheet } = this;
    Object.assign(this, { items, place, at: -1 });
    list.replaceChildren(...items.map((item, at) => optionOf(item, at)));
    list.hidden = false;
    list.scrollTop = 0;
    this.put();
    sheet.area.setAttribute("aria-controls", list.id);
    this.choose(-1);
  }

  /** Puts the list below the place of its items, or above it. It goes with that place. */
  put() {
    const { list, sheet, items, place } = this;
    if (!place) return;
    const { left, top, bottom } = sheet.boxOf({ line: place.line, column: items[0].start }), { offsetWidth, offsetHeight } = list;
    const view = sheet.scroller.getBoundingClientRect();
    if (bottom < view.top || top > view.bottom) return this.close();
    list.style.left = `${Math.max(4, Math.min(left, innerWidth - offsetWidth - 4))}px`;
    list.style.top = `${bottom + offsetHeight + 4 > innerHeight ? Math.max(4, top - offsetHeight) : bottom}px`;
  }

  close() {
    if (!this.isOpen) return;
    Object.assign(this, { items: [], place: null, at: -1 });
    this.list.hidden = true;
    this.list.replaceChildren();
    for (const name of ["aria-controls", "aria-activedescendant"]) this.sheet.area.removeAttribute(name);
  }

  /** Up and down choose, Tab takes what is chosen or else the first, Enter what is chosen, Escape closes.
   * @type {(event: KeyboardEvent) => void} */
  key(event) {
    if (!this.isOpen || event.isComposing || event.ctrlKey || event.metaKey || event.altKey || event.shiftKey) return;
    const { at, items } = this;
    if (event.key === "ArrowDown") this.choose((at + 1) % items.length);
    else if (event.key === "ArrowUp") this.choose(at <= 0 ? items.length - 1 : at - 1);
    else if (event.key === "Tab") this.take(Math.max(0, at));
    else if (event.key === "Enter" && at >= 0) this.take(at);
    else if (event.key === "Escape") this.close();
    else return;
    event.preventDefault();
    event.stopPropagation();
    event.stopImmediatePropagation();
  }

  /** @type {(at: number) => void} */
  choose(at) {
    this.at = at;
    [...this.list.children].forEach((row, n) => row.setAttribute("aria-selected", String(n === at)));
    this.list.children[at]?.scrollIntoView({ block: "nearest" });
    if (at >= 0) this.sheet.area.setAttribute("aria-activedescendant", `completion-${at}`);
    else this.sheet.area.removeAttribute("aria-activedescendant");
  }

  /** Writes an item instead of what is there, as a step of its own. A field then offers its values.
   * @type {(at: number) => void} */
  take(at) {
    const { sheet, items, place } = this, item = items[at];
    if (!item || !place) return;
    this.close();
    const { line } = place, text = sheet.text.lines[line], column = item.start + item.text.length;
    const after = { start: { line, column }, end: { line, column }, direction: "forward" };
    sheet.text.change([{ start: line, taken: [text], put: [text.slice(0, item.start) + item.text + text.slice(place.column)] }], sheet.selection(), after);
    sheet.refresh(after);
    if (item.text.endsWith(":") || item.text === DIRECTIVE) this.look();
  }
}

/** @type {(one: Place, other: Place) => boolean} */
const isSame = (one, other) => one.line === other.line && one.column === other.column;

/** The row of an item.
 * @type {(item: Item, at: number) => HTMLElement} */
function optionOf({ text, meaning }, at) {
  const row = document.createElement("li"), small = document.createElement("span");
  row.id = `completion-${at}`;
  row.setAttribute("role", "option");
  row.dataset.at = String(at);
  small.textContent = meaning;
  row.append(Object.assign(document.createElement("b"), { textContent: text.trim() }), small);
  return row;
}
