// A tune as a piano roll: pitch by time, a colour for each voice, bars and beats. This part has the measures, the mouse and the keys;
// what is seen is drawn by piano_roll_picture.js.

import { onResize } from "../base/on_resize.js";
import { onceAFrame } from "../base/once_a_frame.js";
import { Grid } from "./bars_and_beats.js";
import { FOOT, HEAD, SIDE, drawRoll } from "./piano_roll_picture.js";
import { lanesOf } from "./unison_lanes.js";
import { Shades } from "./voice_colours.js";

/** @typedef {import("./midi_file.js").Score} Score
 * @typedef {import("./midi_file.js").Note} Note */

const QUARTER = 44, NARROWEST = 8, WIDEST = 360; // pixels of a quarter note
const LEAST_ROW = 5, MOST_ROW = 26; // pixels of a key
const ZOOM = 1.25; // a step of the zoom
const TOLD = 2500; // milliseconds for which a note that was touched is named
const LOWEST = 58, HIGHEST = 74; // keys that are drawn without a tune
/** @type {Record<string, number>} */
const ZOOMS = { "+": 1, "=": 1, "-": -1, 0: 0 }; // by key: steps
const DRAG = 6; // pixels that make a click a stretch

export class Roll {
  /** @param {HTMLElement} scroller
   * @param {HTMLCanvasElement} canvas */
  constructor(scroller, canvas) {
    this.scroller = scroller;
    this.canvas = canvas;
    this.space = /** @type {HTMLElement} */ (scroller.querySelector(".space"));
    this.dark = matchMedia("(prefers-color-scheme: dark)");
    this.quarter = QUARTER;
    /** @type {Score | null} */
    this.score = null;
    /** @type {Grid | null} */
    this.grid = null;
    /** @type {number | null} */
    this.tick = null; // of the cursor
    /** @type {[from: number, to: number] | null} */
    this.loop = null;
    this.lowest = this.highest = 60; // keys that sound
    this.low = LOWEST; // keys that are drawn
    this.high = HIGHEST;
    this.row = LEAST_ROW; // pixels of a key
    /** @type {{ from: number, range: [from: number, to: number] | null } | null} */
    this.dragged = null;
    this.soon = onceAFrame(() => drawRoll(this)); // draws
    /** @type {Map<Note, import("./unison_lanes.js").Lane>} */
    this.lanes = new Map();
    /** @type {Set<Note>} */
    this.pointedAt = new Set(); // notes of the caret
    /** @type {Set<number>} */
    this.silent = new Set(); // voices
    /** @type {(tick: number, note: Note | null) => void} */
    this.picked = () => {}; // a tick, and the note there
    /** @type {(from: number, to: number) => void} */
    this.stretched = () => {}; // from a tick, to a tick
    /** @type {(note: Note | null, event?: MouseEvent) => void} */
    this.pointed = () => {}; // a note or null, and where the mouse is
    this.recoloured = () => {};
    /** @type {{ name: string, shades: Shades } | null} */
    this.shades = null; // on the present grounds
    this.listen();
  }

  listen() {
    const { scroller } = this;
    scroller.addEventListener("scroll", () => this.soon());
    scroller.addEventListener("pointerdown", (event) => this.press(event));
    scroller.addEventListener("pointerup", () => this.dragged?.range && this.stretched(...this.dragged.range));
    scroller.addEventListener("click", (event) => this.release(/** @type {PointerEvent} */ (event)));
    scroller.addEventListener("pointermove", (event) => this.move(event));
    scroller.addEventListener("pointerleave", () => this.pointed(null));
    scroller.addEventListener("wheel", (event) => this.turn(event), { passive: false });
    scroller.addEventListener("keydown", (event) => this.key(event));
    this.dark.addEventListener("change", () => {
      this.soon();
      this.recoloured();
    });
    onResize(scroller, () => this.measure());
  }

  /** The colours of the voices on the present background. */
  get colours() {
    const style = getComputedStyle(this.scroller);
    const grounds = ["paper", "row", "loop"].map((name) => style.getPropertyValue(`--${name}`).trim() || "#ffffff");
    const name = grounds.join();
    if (this.shades?.name !== name) this.shades = { name, shades: new Shades(grounds) };
    return this.shades.shades;
  }

  /** The colour of a voice.
   * @type {(voice: number) => string} */
  colour(voice) {
    return this.colours.of(voice);
  }

  /** Draws another score, or none, with its bars and beats.
   * @type {(score: Score | null, grid?: Grid | null) => void} */
  show(score, grid = score && Grid.ofMeters(score)) {
    const notes = score?.notes ?? [];
    this.grid = grid;
    if (score !== this.score) {
      this.score = score;
      this.lanes = lanesOf(notes);
      this.lowest = notes.reduce((key, note) => Math.min(key, note.key), 127);
      this.highest = notes.reduce((key, note) => Math.max(key, note.key), 0);
      this.low = notes.length ? this.lowest - 1 : LOWEST;
      this.high = notes.length ? this.highest + 1 : HIGHEST;
    }
    this.measure();
  }

  /** Frames the notes of the caret.
   * @type {(notes: Set<Note>) => void} */
  point(notes) {
    if (areSame(notes, this.pointedAt)) return;
    this.pointedAt = notes;
    this.soon();
  }

  /** Draws the notes of silent voices as outlines.
   * @type {(voices: Set<number>) => void} */
  hush(voices) {
    if (areSame(voices, this.silent)) return;
    this.silent = voices;
    this.soon();
  }

  /** Draws the ground of a loop, or none.
   * @type {(range: [from: number, to: number] | null) => void} */
  enclose(range) {
    if (String(range) === String(this.loop)) return;
    this.loop = range;
    this.soon();
  }

  /** How high the row of a key is, and how far the roll scrolls. */
  measure() {
    const keys = this.high - this.low + 1, room = this.scroller.clientHeight - HEAD - FOOT;
    this.row = Math.max(LEAST_ROW, Math.min(MOST_ROW, room / keys));
    this.space.style.width = this.score ? `${this.along(this.score.end) + 24}px` : "0";
    this.space.style.height = this.score ? `${HEAD + FOOT + Math.floor(keys * this.row)}px` : "0";
    this.soon();
  }

  /** How far from the left end a tick is.
   * @type {(tick: number) => number} */
  along(tick) {
    return this.score ? SIDE + (tick / this.score.division) * this.quarter : SIDE;
  }

  /** How far below the top end the row of a key is.
   * @type {(key: number) => number} */
  down(key) {
    return HEAD + (this.high - key) * this.row;
  }

  /** The tick at a number of pixels from the left end.
   * @type {(x: number) => number} */
  tickAt(x) {
    return this.score ? Math.max(0, Math.min(this.score.end, ((x - SIDE) / this.quarter) * this.score.division)) : 0;
  }

  /** Makes the roll wider or narrower; what is at a number of pixels in the view stays there.
   * @type {(steps: number, at?: number) => void} */
  zoom(steps, at = this.middle()) {
    if (!this.score) return;
    const tick = this.tickAt(this.scroller.scrollLeft + at);
    this.quarter = steps === 0 ? QUARTER : Math.max(NARROWEST, Math.min(WIDEST, this.quarter * ZOOM ** steps));
    this.measure();
    this.scroller.scrollLeft = this.along(tick) - at;
  }

  /** Where a zoom by keys is centred: at the cursor if that is seen. */
  middle() {
    const wide = this.scroller.clientWidth;
    const x = this.tick === null ? -1 : this.along(this.tick) - this.scroller.scrollLeft;
    return x >= SIDE && x <= wide ? x : wide / 2;
  }

  /** Puts the cursor at a tick, or takes it away; it is kept in view.
   * @type {(tick: number | null) => void} */
  cursor(tick) {
    if (tick === null && this.tick === null) return;
    this.tick = tick;
    if (tick !== null && this.score) {
      const x = this.along(tick), left = this.scroller.scrollLeft, wide = this.scroller.clientWidth;
      if (x < left + SIDE || x > left + wide * 0.85) this.scroller.scrollLeft = Math.max(0, x - SIDE - wide * 0.1);
    }
    this.soon();
  }

  /** Where in the roll an event is, and the note there: the one that is drawn last.
   * @type {(event: MouseEvent) => { x: number, tick: number, note: Note | null, isHead: boolean }} */
  under(event) {
    const { left, top } = this.scroller.getBoundingClientRect();
    const [seenX, seenY] = [event.clientX - left, event.clientY - top];
    const [x, y] = [seenX + this.scroller.scrollLeft, seenY + this.scroller.scrollTop];
    const note = seenX < SIDE || seenY < HEAD ? undefined : this.score?.notes.findLast((one) => this.covers(one, x, y));
    return { x, tick: this.tickAt(x), note: note ?? null, isHead: seenY < HEAD };
  }

  /** Whether a note is drawn at a place; a short one is as wide as a finger of the mouse.
   * @type {(note: Note, x: number, y: number) => boolean} */
  covers(note, x, y) {
    const { lane, of } = this.lanes.get(note) ?? { lane: 0, of: 1 };
    const top = this.down(note.key) + (lane * this.row) / of;
    return y >= top && y < top + this.row / of && x >= this.along(note.start) && x < Math.max(this.along(note.end), this.along(note.start) + 3);
  }

  /** @type {(event: PointerEvent) => void} */
  press(event) {
    this.dragged = null;
    if (!this.score || event.pointerType === "touch" || event.button !== 0) return;
    const { x, isHead } = this.under(event);
    if (!isHead) return;
    this.dragged = { from: x, range: null };
    this.scroller.setPointerCapture(event.pointerId);
  }

  /** The mouse points at a note, or draws a stretch along the numbers of the bars.
   * @type {(event: PointerEvent) => void} */
  move(event) {
    if (!this.score) return;
    if (this.dragged && event.buttons & 1) this.stretch(this.under(event).x);
    else if (event.pointerType !== "touch") this.pointed(this.under(event).note, event);
  }

  /** Shows the stretch up to where the mouse is. It begins and ends with a beat.
   * @type {(x: number) => void} */
  stretch(x) {
    if (!this.dragged || !this.grid) return;
    const [from, to] = [this.dragged.from, x].sort((a, b) => a - b);
    if (to - from < DRAG) return;
    /** @type {[from: number, to: number]} */
    const range = [this.grid.before(this.tickAt(from) + 1, false), this.grid.after(this.tickAt(to) - 1, false)];
    if (range[0] >= range[1]) return;
    this.dragged.range = this.loop = range;
    this.soon();
  }

  /** Someone points at a moment or at a note.
   * @type {(event: PointerEvent) => void} */
  release(event) {
    if (!this.score || this.dragged?.range) return;
    const { tick, note } = this.under(event);
    this.pointed(note, event);
    if (event.pointerType === "touch") setTimeout(() => this.pointed(null), TOLD);
    this.picked(note ? note.start : tick, note);
  }

  /** The wheel zooms while Ctrl is held.
   * @type {(event: WheelEvent) => void} */
  turn(event) {
    if (!event.ctrlKey) return;
    event.preventDefault();
    this.zoom(event.deltaY < 0 ? 1 : -1, event.clientX - this.scroller.getBoundingClientRect().left);
  }

  /** Keys move the cursor by beats and by bars, and zoom.
   * @type {(event: KeyboardEvent) => void} */
  key(event) {
    const { score, grid } = this;
    if (!score || !grid || event.altKey) return;
    const tick = this.tick ?? 0, byBar = event.ctrlKey || event.metaKey || event.shiftKey;
    /** @type {Record<string, () => number>} */
    const moves = {
      ArrowRight: () => grid.after(tick, byBar),
      ArrowLeft: () => grid.before(tick, byBar),
      Home: () => 0,
      End: () => grid.before(score.end, true),
    };
    const to = moves[event.key]?.();
    const steps = event.ctrlKey || event.metaKey ? undefined : ZOOMS[event.key];
    if (to !== undefined) this.picked(Math.min(to, score.end), null);
    else if (steps !== undefined) this.zoom(steps);
    else return;
    event.preventDefault();
  }
}

/** @type {(some: Set<unknown>, others: Set<unknown>) => boolean} */
function areSame(some, others) {
  return some.size === others.size && [...some].every((one) => others.has(one));
}
