// The list of the tunes: rows are made for those that are seen. A row stays one element for as long as it is drawn, so that
// the press and the release of a click meet the same one.

import { write } from "../base/elements.js";
import { onResize } from "../base/on_resize.js";
import { onceAFrame } from "../base/once_a_frame.js";
import { counted } from "../base/plural.js";
import { Filter, folded } from "./tune_filter.js";

/** @typedef {import("../link/finding_rows.js").TuneRow} TuneRow */

const BEYOND = 2; // rows drawn above and below those that are seen
const LIGHT = 480, FADE = 1120; // milliseconds

export class Tunes {
  /** @param {HTMLElement} list */
  constructor(list) {
    this.list = list;
    this.space = /** @type {HTMLElement} */ (list.querySelector(".space"));
    /** @type {TuneRow[]} */
    this.all = []; // the tunes of the book
    /** @type {TuneRow[]} */
    this.rows = []; // those that the filter lets through
    this.filter = new Filter();
    /** @type {TuneRow | undefined} */
    this.shown = undefined;
    /** @type {(row: TuneRow) => number} */
    this.faultsOf = () => 0; // of a tune: how many faults it has
    /** @type {Map<number, HTMLElement>} */
    this.drawn = new Map(); // by place: the element of its row
    /** @type {Map<number, string>} */
    this.texts = new Map(); // by place: what the row shows
    this.height = this.top = this.room = 0; // of a row, above the view, of the view: each question makes the browser lay out the page
    this.drawSoon = onceAFrame(() => this.draw());
    this.here = -1; // the tune that is shown
    this.at = -1; // the one with the frame of the keyboard
    /** @type {Map<number, string>} */
    this.lit = new Map(); // by number: "written" or "removed", with "fading" at the end
    /** @type {(row: TuneRow) => void} */
    this.chosen = () => {};
    /** @type {ReturnType<typeof setTimeout> | undefined} */
    this.timer = undefined;
    list.addEventListener("scroll", () => {
      this.top = list.scrollTop;
      this.draw();
    });
    list.addEventListener("keydown", (event) => this.key(event));
    list.addEventListener("focus", () => list.matches(":focus-visible") && this.frame(Math.max(0, this.here)));
    list.addEventListener("click", (event) => {
      /** @type {HTMLElement | null} */
      const row = /** @type {Element} */ (event.target).closest("[role=option]");
      if (row) this.chosen(this.rows[Number(row.dataset.at)]);
    });
    onResize(list, () => this.measure());
    this.measure();
  }

  /** The height of a row goes by the width of the window. */
  measure() {
    this.height = parseFloat(getComputedStyle(this.list).getPropertyValue("--row-height"));
    this.room = this.list.clientHeight;
    this.draw();
  }

  /** @type {(top: number) => void} */
  scroll(top) {
    this.list.scrollTop = top;
    this.top = this.list.scrollTop;
  }

  /** Other tunes, of which one is shown.
   * @type {(all: TuneRow[], at: number) => void} */
  show(all, at) {
    this.all = all;
    this.shown = all[at];
    this.rows = this.filter.rows(all);
    const here = this.shown ? this.rows.indexOf(this.shown) : -1, moved = here !== this.here;
    this.here = here;
    if (moved && here >= 0) this.frame(here);
    else this.draw();
  }

  /** Shows the tunes alone that have these words.
   * @type {(words: string) => void} */
  sift(words) {
    this.filter.words = folded(words).split(/\s+/).filter(Boolean);
    this.here = -1;
    this.scroll(0);
    this.at = 0;
    this.show(this.all, this.shown ? this.all.indexOf(this.shown) : -1);
  }

  /** Lights up numbers for a moment. Those that are alight stay so: an animation for each key would cost more than the key.
   * @type {(written: number[], removed: number[]) => void} */
  light(written, removed) {
    this.lit.clear();
    for (const number of written) this.lit.set(number, "written");
    for (const number of removed) this.lit.set(number, "removed");
    clearTimeout(this.timer);
    this.timer = setTimeout(() => this.fade(), LIGHT);
    this.drawSoon();
  }

  fade() {
    for (const [number, name] of this.lit) this.lit.set(number, `${name} fading`);
    this.timer = setTimeout(() => this.putOut(), FADE);
    this.draw();
  }

  putOut() {
    this.lit.clear();
    this.draw();
  }

  /** Moves the keyboard's place, and keeps it in view.
   * @type {(at: number) => void} */
  frame(at) {
    this.at = Math.max(0, Math.min(this.rows.length - 1, at));
    this.stretch();
    const { height, room } = this, top = this.at * height;
    if (top < this.top) this.scroll(top);
    else if (top + height > this.top + room) this.scroll(top + height - room);
    this.draw();
  }

  /** @type {(event: KeyboardEvent) => void} */
  key(event) {
    const page = Math.floor(this.room / this.height) - 1;
    /** @type {Record<string, number>} */
    const places = {
      ArrowUp: this.at - 1,
      ArrowDown: this.at + 1,
      PageUp: this.at - page,
      PageDown: this.at + page,
      Home: 0,
      End: this.rows.length - 1,
    };
    const to = places[event.key];
    if (to !== undefined) this.frame(to);
    else if (event.key === "Enter" && this.rows[this.at]) this.chosen(this.rows[this.at]);
    else return;
    event.preventDefault();
  }

  /** Gives the list the room of all its rows. */
  stretch() {
    this.space.style.height = `${this.rows.length * this.height}px`;
  }

  /** The rows to be drawn: from, to. */
  seen() {
    const { height, top, room } = this;
    const first = Math.floor(top / height), last = Math.ceil((top + room) / height);
    return [Math.max(0, first - BEYOND), Math.min(this.rows.length, last + BEYOND)];
  }

  draw() {
    const [first, last] = this.seen();
    this.stretch();
    for (const [at, row] of this.drawn) if (at < first || at >= last) this.takeOut(at, row);
    /** @type {HTMLElement | null} */
    let next = null; // the row after it: a new row is inserted before that, so none is moved
    for (let at = last - 1; at >= first; at -= 1) {
      /** @type {HTMLElement} */
      const row = this.drawn.get(at) ?? this.putIn(at, next);
      this.write(row, at);
      next = row;
    }
    if (this.drawn.has(this.at)) this.list.setAttribute("aria-activedescendant", `tune-${this.at}`);
    else this.list.removeAttribute("aria-activedescendant");
  }

  /** @type {(at: number, row: HTMLElement) => void} */
  takeOut(at, row) {
    this.drawn.delete(at);
    this.texts.delete(at);
    row.remove();
  }

  /** Puts in the row of a place, before another one.
   * @type {(at: number, next: HTMLElement | null) => HTMLElement} */
  putIn(at, next) {
    const row = document.createElement("div");
    row.id = `tune-${at}`;
    row.setAttribute("role", "option");
    row.dataset.at = String(at);
    row.style.setProperty("--at", String(at));
    row.ariaPosInSet = String(at + 1);
    row.append(document.createElement("b"), document.createElement("span"));
    this.drawn.set(at, row);
    return this.space.insertBefore(row, next);
  }

  /** Writes into a row what its tune is now, if it is another one than before.
   * @type {(row: HTMLElement, at: number) => void} */
  write(row, at) {
    const [, number, title, hasFile] = this.rows[at], faults = this.faultsOf(this.rows[at]), description = faults ? counted(faults, "fault") : "";
    const text = [number, title, hasFile, faults, this.lit.get(number), at === this.at, at === this.here, this.rows.length].join();
    if (text === this.texts.get(at)) return;
    this.texts.set(at, text);
    row.ariaSelected = String(at === this.here);
    row.ariaSetSize = String(this.rows.length);
    row.className = `${this.lit.get(number) ?? ""} ${at === this.at ? "at" : ""} ${hasFile ? "" : "silent"} ${faults ? "faulty" : ""}`;
    row.title = hasFile ? [title, description].filter(Boolean).join(": ") : "This tune has no file: it is too long, or another one has its number.";
    row.setAttribute("aria-description", description);
    const [name, words] = /** @type {HTMLElement[]} */ ([...row.children]);
    write(name, String(number));
    write(words, title || "(no title)");
  }
}
