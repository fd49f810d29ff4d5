// Keeps what can be undone while the page is loaded anew: in the browser's store of this tab, by the book.

import { difference, replaced } from "./line_edits.js";

const MOST = 1_000_000; // characters
const REST = 400; // milliseconds without an edit, after which it is kept
const SLICE = 3; // milliseconds of work, after which a key has its turn
const OFTEN = 255; // lines between two looks at the clock

/** @typedef {import("../link/host_link.js").Change} Change */

export class UndoStore {
  /** `ask` returns the changes of the server after a version; the store is that of the browser, but for tests.
   * @param {import("./text.js").Text} text
   * @param {{ state: { run: string, version: number } | null, isSettled: boolean }} link
   * @param {(version: number) => Promise<{ changes: Change[] }>} ask
   * @param {Pick<Storage, "getItem" | "setItem"> | null} store */
  constructor(text, link, ask, store = null) {
    this.text = text;
    this.link = link;
    this.ask = ask;
    this.store = store;
    this.prints = new Prints();
    this.key = "";
    /** @type {ReturnType<typeof setTimeout> | undefined} */
    this.timer = undefined;
  }

  /** The page has the book. What was kept for its text is taken; if the text changed meanwhile, it is moved over the changes.
   * @type {(book: string) => Promise<void>} */
  async open(book) {
    this.key = `abc2midi_live undo ${book}`;
    const kept = this.read();
    if (!kept) return;
    const { run, version, print, steps } = kept;
    const changes = print === this.prints.of(this.text.lines) ? [] : await this.changes(run, version);
    const { past, future } = this.text.history;
    if (!changes || past.length || future.length || !this.link.isSettled) return;
    this.text.history.restore(steps);
    for (const { edit } of changes) this.text.history.others(edit.start, edit.stop, edit.lines.length);
  }

  /** The changes that made this window's text of that of a version, null if the server does not have them.
   * @type {(run: string, version: number) => Promise<Change[] | null>} */
  async changes(run, version) {
    if (run !== this.link.state?.run) return null;
    const { changes } = await this.ask(version).catch(() => ({ changes: /** @type {Change[]} */ ([]) }));
    const now = this.link.state;
    const those = changes.filter((change) => change.version <= now.version);
    return run === now.run && those.length === now.version - version ? those : null;
  }

  read() {
    try {
      return JSON.parse((this.store ?? sessionStorage).getItem(this.key) ?? "null");
    } catch {
      return null;
    }
  }

  /** The text changed: it is kept when nobody edits for a moment. */
  soon() {
    clearTimeout(this.timer);
    this.timer = setTimeout(() => this.prepare(), REST);
  }

  /** Keeps it when the lines have prints, which are found a slice at a time: all those of a long book would let a key wait. */
  prepare() {
    if (this.prints.learn(this.text.lines, SLICE)) this.keep();
    else this.timer = setTimeout(() => this.prepare(), 0);
  }

  /** Keeps what can be undone, if the server has all that was typed. */
  keep() {
    clearTimeout(this.timer);
    if (!this.key || !this.link.state || !this.link.isSettled) return;
    const { run, version } = this.link.state;
    const { lines, history } = this.text;
    try {
      (this.store ?? sessionStorage).setItem(this.key, JSON.stringify({ run, version, print: this.prints.of(lines), steps: history.stored(MOST) }));
    } catch {
      // a browser that stores nothing, or has no room: what was kept before is for an older text, and its version says so
    }
  }
}

/** Short names of texts, so that one text is known from another. Of a text only those lines are read that the text before it did not
 * have at their places. */
export class Prints {
  constructor() {
    /** @type {string[]} */
    this.lines = []; // of the text before
    /** @type {(number | null)[]} */
    this.prints = []; // of its lines, null if it is not known
    this.at = 0; // the lines before this one have prints
  }

  /** Finds the prints of lines, for some milliseconds; whether all are known then.
   * @type {(lines: string[], milliseconds: number) => boolean} */
  learn(lines, milliseconds) {
    const edit = lines === this.lines ? null : difference(this.lines, lines), until = performance.now() + milliseconds;
    this.lines = lines;
    if (edit) {
      this.prints = replaced(this.prints, edit.start, edit.stop, edit.put.map(() => null));
      this.at = Math.min(this.at, edit.start);
    }
    while (this.at < lines.length) {
      this.prints[this.at] ??= printOf(lines[this.at]);
      this.at += 1;
      if ((this.at & OFTEN) === OFTEN && performance.now() > until) break;
    }
    return this.at === lines.length;
  }

  /** @type {(lines: string[]) => string} */
  of(lines) {
    this.learn(lines, Infinity);
    let one = 0xdeadbeef, other = 0x41c6ce57;
    for (const print of /** @type {number[]} */ (this.prints)) {
      one = Math.imul(one ^ print, 2654435761);
      other = Math.imul(other ^ print, 1597334677);
      one ^= one >>> 15;
      other ^= other >>> 13;
    }
    return `${lines.length} ${one >>> 0} ${other >>> 0}`;
  }
}

/** A number for a line.
 * @type {(line: string) => number} */
function printOf(line) {
  let print = 0x811c9dc5;
  for (let n = 0; n < line.length; n += 1) {
    print = Math.imul(print ^ line.charCodeAt(n), 2654435761);
    print ^= print >>> 15;
  }
  return print;
}
