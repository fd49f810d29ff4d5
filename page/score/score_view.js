// The score: the tune at the caret as staves, which `abcm2ps` draws at the server, some time after the last key.
//
// What others may use of a `Score` (in application.js its name is `staves`):
//   notes          the notes, rests and grace notes of the drawn tune, in the order in which they are drawn: each has `line` and
//                  `column` (its place in the present lines of the book, from 0, columns in UTF-16 units), `length` (of its
//                  text), `kind` ("note", "rest", "grace") and `element`, which covers it as soon as its part of the score is
//                  in the page. A chord is one note, and begins at `[`
//   mark(places)   lights up the notes at these places, { line, column } each, and no others: a chord also by a place in it;
//                  with `true` after them they sound: it also scrolls to the first one, and has a line at them
//   clear()        lights up none
//   drawn          is called when another drawing is there, or none: then no note is lit up
//   picked         is called with the line and the column of a note that was clicked
//   see(tune)      says which tune is to be drawn: { first, lines, header }, the place of its first line in the book, its
//                  lines, and those of the file header; null for none
//   caret(place)   says where the caret is
//   hasFaults      is asked whether a tune has faults; `abcm2ps` may draw them in another way than the program plays them
//   doubt()        looks whether the drawn tune has faults, so that it may differ from the sound
//   doubted        is called with whether it has
//   print()        prints the tune, page by page
//   printAll(tunes) prints other tunes
//   transpose(semitones) draws by so many semitones higher
//
// The element that is given has the attribute `aria-busy` while a drawing is asked for, or while another tune is to be drawn than
// the one that it shows. `document.body.dataset.score` is "missing" if there is no `abcm2ps`.

import { onResize } from "../base/on_resize.js";
import { onceAFrame } from "../base/once_a_frame.js";
import { BLANK } from "../text/blank_line.js";
import { ScoreLine } from "./playback_line.js";
import { laidOut } from "./score_elements.js";

/** The tune that is to be drawn.
 * @typedef {{ first: number, lines: string[], header: string[] }} DrawnTune
 * What the server answers: the drawing, why there is none, a note about it, the walls in which it was drawn, whether `abcm2ps` is missing.
 * @typedef {{ images?: import("./score_elements.js").Node[], why?: string, note?: string, walls?: string, missing?: boolean }} Answer
 * @typedef {import("./score_elements.js").Page} Page
 * @typedef {import("../text/selection.js").Place} Place
 * @typedef {Element & { note?: Note }} Cover the element of a note */

const REST = 200; // milliseconds after the last key
const BETWEEN = 50; // milliseconds between pages that are not seen
const USUAL_ROOM = 640; // pixels, while the score is hidden
const LEAST = 12; // pixels by which the width must differ before it is drawn anew
const MOST_LINES = 5000; // the server draws no tune that has as many
const PRECEDES = /^(?!%%)[ \t]*(?:%|$)/; // a comment or a blank line, which may precede a file header
const LENGTH = /(?:[_^=]{0,2}[A-Ga-gxyzXZ][',]*|\[[^\]|]*\])\d*\/*\d*|/y; // of a note, a rest or a chord

export class Score {
  /** `ask` asks the server for a drawing: it gives the answer, or throws.
   * @param {HTMLElement} view
   * @param {(question: { header: string[], tune: string[], width: number | null, transpose: number }) => Promise<Answer>} ask */
  constructor(view, ask) {
    this.view = view;
    this.ask = ask;
    this.line = new ScoreLine(view);
    /** @type {DrawnTune | null} */
    this.seen = null; // the tune that is to be drawn
    /** @type {DrawnTune | null} */
    this.shown = null; // the one that is drawn
    /** @type {Note[]} */
    this.notes = [];
    /** @type {Map<number, Note[]>} */
    this.rows = new Map(); // the notes of each line of the tune, by its number
    /** @type {Page[]} */
    this.pages = []; // the parts of the score, some of which may not be in the page yet
    /** @type {Set<Note>} */
    this.lit = new Set();
    /** @type {Note | undefined} */
    this.here = undefined; // the note of the caret
    this.markSoon = onceAFrame(() => this.markCaret());
    /** @type {ReturnType<typeof setTimeout> | undefined} */
    this.timer = undefined;
    this.width = 0; // that was asked for last
    this.semitones = 0; // by which it is drawn higher
    this.isFailed = false; // the server did not answer
    this.asking = false;
    this.at = { line: -1, column: 0 }; // the caret
    this.drawn = () => {};
    /** @type {(isDoubtful: boolean) => void} */
    this.doubted = () => {};
    /** @type {(line: number, column: number) => void} */
    this.picked = () => {};
    /** @type {(tune: DrawnTune) => boolean} */
    this.hasFaults = () => false;
    view.addEventListener("click", ({ target }) => {
      const { note } = /** @type {Cover} */ (target);
      if (note) this.picked(note.line, note.column);
    });
    document.addEventListener("visibilitychange", () => this.shown !== this.seen && this.soon());
    onResize(view, () => this.seen && Math.abs(this.room() - this.width) >= LEAST && this.soon());
  }

  /** @type {(tune: DrawnTune | null) => void} */
  see(tune) {
    if (!isSame(tune, this.seen)) {
      this.seen = tune;
      this.markBusy();
    } else {
      if (tune && this.seen) this.seen.first = tune.first;
      if (!this.isFailed) return;
    }
    this.isFailed = false; // it is asked again, once
    this.soon();
  }

  /** @type {(semitones: number) => void} */
  transpose(semitones) {
    if (semitones === this.semitones) return;
    this.semitones = semitones;
    if (this.seen) this.soon();
  }

  /** @type {(place: Place) => void} */
  caret(place) {
    this.at = place;
    if (this.noteAt(place, false) !== this.here) this.markSoon();
  }

  /** @type {(places: Place[], scroll?: boolean) => void} */
  mark(places, scroll = false) {
    const lit = new Set(places.flatMap((place) => this.noteAt(place, true) ?? []));
    for (const note of this.lit) if (!lit.has(note)) note.element.classList.remove("score-lit");
    for (const note of lit) note.element.classList.add("score-lit");
    this.lit = lit;
    if (scroll && lit.size) this.reveal([...lit][0]);
    this.line.show(scroll ? [...lit] : []);
  }

  clear() {
    this.mark([]);
  }

  /** Another tune that is to be drawn leaves the doubt as it is till it is there. */
  doubt() {
    if (this.shown !== this.seen) return;
    this.doubted(this.shown !== null && this.notes.length > 0 && this.hasFaults(this.shown));
  }

  async print() {
    await this.printAll(this.seen && this.notes.length ? [this.seen] : []);
  }

  /** Prints tunes, one after another. Those that cannot be drawn are not there.
   * @type {(tunes: DrawnTune[]) => Promise<void>} */
  async printAll(tunes) {
    const images = [];
    for (const tune of tunes) images.push(...((await this.ask({ ...linesOf(tune), width: null, transpose: this.semitones }).catch(() => null))?.images ?? []));
    if (images.length) this.layOut(images);
    window.print();
  }

  /** Lays out pages of paper, which are there till they are printed.
   * @type {(images: import("./score_elements.js").Node[]) => void} */
  layOut(images) {
    document.getElementById("paper")?.remove();
    const paper = Object.assign(document.createElement("div"), { id: "paper" });
    const { pages } = laidOut(images);
    for (const page of pages) page.fill();
    paper.append(...pages.map(({ element }) => element));
    document.body.append(paper);
    document.body.dataset.paper = "";
    addEventListener("afterprint", () => {
      paper.remove();
      delete document.body.dataset.paper;
    }, { once: true });
  }

  /** How many pixels wide a drawing may be. */
  room() {
    const { clientWidth } = this.view;
    return clientWidth ? Math.floor(clientWidth) - 8 : this.width || USUAL_ROOM;
  }

  soon() {
    clearTimeout(this.timer);
    this.timer = setTimeout(() => this.draw(), REST);
  }

  /** Asks for the drawing of the tune that was seen last, if the window is seen. An answer that comes when another tune is wanted
   * is not shown. */
  async draw() {
    if (document.hidden) return;
    if (this.asking) return this.soon();
    const tune = this.seen;
    if (!tune) return this.show({ missing: document.body.dataset.score === "missing" }, null);
    this.wait(true);
    this.width = this.room();
    const { semitones } = this;
    const answer = await this.ask({ ...linesOf(tune), width: this.width, transpose: semitones }).catch(() => null);
    this.wait(false);
    this.isFailed = !answer;
    if (answer && this.seen === tune && this.semitones === semitones) this.show(answer, tune);
  }

  /** Waits for an answer, or does so no more.
   * @type {(asking: boolean) => void} */
  wait(asking) {
    this.asking = asking;
    this.markBusy();
  }

  /** Marks what is shown as busy while it is not the drawing of the tune that was seen last, also without a server. */
  markBusy() {
    this.view.setAttribute("aria-busy", String(this.asking || this.shown !== this.seen));
  }

  /** Shows a drawing with a note below it, or why there is none.
   * @type {(answer: Answer, tune: DrawnTune | null) => void} */
  show({ images = [], why = "", note = "", walls = "", missing = false }, tune) {
    if (tune?.lines[0] !== this.shown?.lines[0]) this.view.scrollTop = 0; // another tune begins at its begin
    this.shown = tune;
    this.view.title = walls;
    this.markBusy();
    this.lit = new Set();
    const { pages, places } = laidOut(images);
    this.notes = tune ? places.map((place) => new Note(tune, place)) : [];
    this.rows = new Map();
    for (const note of this.notes) {
      const those = this.rows.get(note.row) ?? [];
      those.push(note);
      this.rows.set(note.row, those);
      /** @type {Cover} */ (note.element).note = note;
    }
    const told = Object.assign(document.createElement("p"), { className: "why", textContent: why || note });
    this.view.replaceChildren(...(why ? [] : pages.map(({ element }) => element)), ...(why || note ? [told] : []));
    this.fill(pages);
    document.body.dataset.score = missing ? "missing" : "here";
    this.markCaret();
    this.doubt();
    this.drawn();
  }

  /** Fills the pages that are seen, and the others one after another, so that no key waits long.
   * @type {(pages: Page[]) => void} */
  fill(pages) {
    this.pages = pages;
    const { top, bottom } = this.view.getBoundingClientRect();
    /** @type {Page[]} */
    const later = [];
    for (const page of pages) {
      const place = page.element.getBoundingClientRect();
      if (place.top < bottom && place.bottom > top) page.fill();
      else later.push(page);
    }
    const next = () => {
      if (this.pages !== pages || !later.length) return;
      later.shift()?.fill();
      setTimeout(next, BETWEEN);
    };
    setTimeout(next, BETWEEN);
  }

  /** The last note of a line that begins at a place or before it, or undefined; one that ends before it does not count if the
   * place is to be inside.
   * @type {(place: Place, inside: boolean) => Note | undefined} */
  noteAt({ line, column }, inside) {
    /** @type {Note | undefined} */
    let found;
    for (const note of (this.shown && this.rows.get(line - this.shown.first)) ?? []) {
      if (note.column <= column && !(found && found.column > note.column)) found = note;
    }
    return inside && found && column >= found.column + found.length ? undefined : found;
  }

  /** Marks the note in which the caret is. */
  markCaret() {
    const here = this.noteAt(this.at, false);
    if (here === this.here) return;
    this.here?.element.classList.remove("score-here");
    here?.element.classList.add("score-here");
    this.here = here;
    if (here) this.reveal(here);
  }

  /** Scrolls no farther than a note wants to be seen.
   * @type {(note: Note) => void} */
  reveal({ page, element }) {
    page.fill();
    const { top, bottom } = element.getBoundingClientRect(), view = this.view.getBoundingClientRect();
    if (top < view.top) this.view.scrollTop += top - view.top - 8;
    else if (bottom > view.bottom) this.view.scrollTop += Math.min(bottom - view.bottom + 8, top - view.top - 8);
  }
}

/** A note of a drawn tune: its line moves with the tune. */
class Note {
  /** @param {DrawnTune} tune
   * @param {import("./score_elements.js").DrawnPlace} place */
  constructor(tune, { row, column, kind, heads, element, page }) {
    this.tune = tune;
    this.row = row;
    this.column = column;
    this.kind = kind;
    this.heads = heads; // how far down their centres are, from the lowest one on
    this.element = element;
    this.page = page;
  }

  get line() {
    return this.tune.first + this.row;
  }

  get length() {
    LENGTH.lastIndex = this.column;
    return LENGTH.exec(this.tune.lines[this.row])?.[0].length ?? 0;
  }
}

/** The lines that the server draws.
 * @type {(tune: DrawnTune) => { header: string[], tune: string[] }} */
function linesOf({ header, lines }) {
  return { header, tune: lines };
}

/** The tune of a row, up to the first blank line, with the file header; null if there is no such row.
 * @type {(lines: string[], rows: import("../link/finding_rows.js").TuneRow[], at: number) => DrawnTune | null} */
export function tuneOf(lines, rows, at) {
  if (at < 0) return null;
  const [first] = rows[at];
  let top = 0;
  while (top < rows[0][0] && PRECEDES.test(lines[top])) top += 1;
  return { first, lines: run(lines, first, rows[at + 1]?.[0] ?? lines.length), header: run(lines, top, rows[0][0]) };
}

/** The lines from one place to another, up to the first blank one.
 * @type {(lines: string[], from: number, to: number) => string[]} */
function run(lines, from, to) {
  const most = Math.min(to, from + MOST_LINES);
  let end = from;
  while (end < most && !BLANK.test(lines[end])) end += 1;
  return lines.slice(from, end);
}

/** Whether two tunes are drawn alike.
 * @type {(one: DrawnTune | null, other: DrawnTune | null) => boolean} */
function isSame(one, other) {
  if (!one || !other) return one === other;
  return areSame(one.lines, other.lines) && areSame(one.header, other.header);
}

/** @type {(some: string[], others: string[]) => boolean} */
function areSame(some, others) {
  return some.length === others.length && some.every((line, n) => line === others[n]);
}
