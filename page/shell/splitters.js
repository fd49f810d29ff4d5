// The bars between the parts of the page: each gives the part beside it more room or less, by mouse, touch and keys.

import { find } from "../base/elements.js";
import { onResize } from "../base/on_resize.js";

const STEP = 5; // percent of the window, by a key
const LEAST = 5, MOST = 90; // percent of the window

/** A bar, and the part of which it changes the size. Is the part `after` the bar, or before it?
 * @type {{ bar: string, part: string, after: boolean }[]} */
const BARS = [
  { bar: "split-tunes", part: "tunes", after: true },
  { bar: "split-faults", part: "faults", after: true },
  { bar: "split-music", part: "music", after: true },
  { bar: "split-roll", part: "score", after: false },
];

/** All bars of the page. The sizes are in percent of the window, by the names of the properties that the styles read, as `--music-high`. */
export class Splitters {
  /** `kept` are the sizes of the last visit; `changed` is called with other ones.
   * @param {HTMLElement} root has the properties
   * @param {Record<string, number>} kept
   * @param {(sizes: Record<string, number>) => void} changed */
  constructor(root, kept, changed) {
    this.root = root;
    this.sizes = kept;
    this.changed = changed;
    for (const [name, size] of Object.entries(kept)) this.apply(name, size);
    this.bars = BARS.map(({ bar, part, after }) => new Splitter(this, find(bar), find(part), after));
    onResize(root, () => this.bars.forEach((bar) => bar.describe()));
  }

  /** Gives a part a size, or its usual one.
   * @type {(name: string, size: number | null) => void} */
  resize(name, size) {
    const { [name]: _, ...others } = this.sizes;
    this.sizes = size === null ? others : { ...others, [name]: size };
    this.apply(name, size);
    this.changed(this.sizes);
  }

  /** @type {(name: string, size: number | null) => void} */
  apply(name, size) {
    const unit = name.endsWith("-wide") ? "vw" : "dvh";
    if (size === null) this.root.style.removeProperty(name);
    else this.root.style.setProperty(name, `${size}${unit}`);
  }
}

class Splitter {
  /** @param {Splitters} all
   * @param {HTMLElement} bar
   * @param {HTMLElement} part
   * @param {boolean} isAfter */
  constructor(all, bar, part, isAfter) {
    this.all = all;
    this.bar = bar;
    this.part = part;
    this.sign = isAfter ? -1 : 1;
    /** @type {{ at: number, size: number } | null} */
    this.dragged = null; // where a drag began, and the size there
    bar.addEventListener("pointerdown", (event) => this.press(event));
    bar.addEventListener("pointermove", (event) => this.move(event));
    for (const name of ["pointerup", "pointercancel"]) bar.addEventListener(name, () => (this.dragged = null));
    bar.addEventListener("dblclick", () => this.put(null));
    bar.addEventListener("keydown", (event) => this.key(event));
  }

  /** Whether the parts are side by side. */
  get isUpright() {
    return this.bar.offsetHeight > this.bar.offsetWidth;
  }

  /** How much of the window the part has, in percent. */
  get size() {
    const { width, height } = this.part.getBoundingClientRect();
    return this.isUpright ? (100 * width) / innerWidth : (100 * height) / innerHeight;
  }

  /** Says how the bar lies, and the size. */
  describe() {
    if (!this.bar.offsetWidth) return;
    this.bar.setAttribute("aria-orientation", this.isUpright ? "vertical" : "horizontal");
    this.bar.setAttribute("aria-valuenow", String(Math.round(this.size)));
  }

  /** @type {(size: number | null) => void} */
  put(size) {
    const name = `--${this.part.id}-${this.isUpright ? "wide" : "high"}`;
    this.all.resize(name, size === null ? null : Math.round(10 * Math.max(LEAST, Math.min(MOST, size))) / 10);
    this.describe();
  }

  /** Begins a drag, which selects nothing.
   * @type {(event: PointerEvent) => void} */
  press(event) {
    if (event.button !== 0) return;
    event.preventDefault();
    this.bar.setPointerCapture(event.pointerId);
    this.dragged = { at: this.along(event), size: this.size };
  }

  /** @type {(event: PointerEvent) => void} */
  move(event) {
    if (this.dragged) this.put(this.dragged.size + this.sign * (this.along(event) - this.dragged.at));
  }

  /** Where an event is, in percent of the window.
   * @type {(event: PointerEvent) => number} */
  along({ clientX, clientY }) {
    return this.isUpright ? (100 * clientX) / innerWidth : (100 * clientY) / innerHeight;
  }

  /** Arrows move the bar, Home and End move it as far as it goes, Enter gives the usual size.
   * @type {(event: KeyboardEvent) => void} */
  key(event) {
    const { ctrlKey, metaKey, altKey, key } = event, [back, on] = this.isUpright ? ["ArrowLeft", "ArrowRight"] : ["ArrowUp", "ArrowDown"];
    if (ctrlKey || metaKey || altKey) return;
    if (key === back) this.put(this.size - this.sign * STEP);
    else if (key === on) this.put(this.size + this.sign * STEP);
    else if (key === "Home" || key === "End") this.put((key === "Home") === this.sign > 0 ? LEAST : MOST);
    else if (key === "Enter") this.put(null);
    else return;
    event.preventDefault();
  }
}
