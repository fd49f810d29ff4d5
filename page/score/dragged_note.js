// A note of the score, or one of a chord, that is dragged up or down by the mouse: its text gets the letter of the line or the space where it
// is dropped.

import { noteOf, wordsOfNote } from "../tunes/pitch_names.js";

/** @typedef {import("./score_view.js").Cover} Cover
 * @typedef {{ line: number, column: number }} Place */

const NOTE = /(?:\^\^?|__?|=)?[A-Ga-g][',]*/y;
const CHORD = /\[(?![A-Za-z]:)[^\]|[]*\]/y;
const IN_CHORD = /"[^"]*"|![^!]*!|\{[^}]*\}|((?:\^\^?|__?|=)?[A-Ga-g][',]*)/g; // words, decorations and grace notes have letters, too
const STEP = 3; // units of the drawing from a line to a space: abcm2ps draws lines 6 apart
const LEAST = 3; // pixels that the mouse moves before it drags: about a step of a drawing in its usual size
const LOWEST = -35, HIGHEST = 42; // indexes of letters that a file has keys for, with room for signs

/** A line in which the note at a column moved by letters, as the key has it: without its accidental. Null if no single note is there, or it
 * would be too high or too low.
 * @type {(text: string, column: number, steps: number) => string | null} */
export function draggedNote(text, column, steps) {
  NOTE.lastIndex = column;
  const word = NOTE.exec(text)?.[0], found = word === undefined ? null : noteOf(word);
  if (word === undefined || !found) return null;
  const index = found.index + steps;
  if (index < LOWEST || index > HIGHEST) return null;
  return text.slice(0, column) + wordsOfNote(index, null) + text.slice(column + word.length);
}

/** The columns of the notes of the chord at a column, from the lowest one on; of none if no chord is there.
 * @type {(text: string, column: number) => number[]} */
export function chordColumns(text, column) {
  CHORD.lastIndex = column;
  const notes = [...(CHORD.exec(text)?.[0] ?? "").matchAll(IN_CHORD)].filter(([, note]) => note !== undefined);
  const found = notes.map(({ index = 0, 1: note }) => ({ column: column + index, height: noteOf(note)?.index ?? 0 }));
  return found.sort((one, other) => one.height - other.height).map((one) => one.column);
}

/** Which head is nearest to a height.
 * @type {(heads: number[], y: number) => number} */
export function nearest(heads, y) {
  const ways = heads.map((head) => Math.abs(head - y));
  return ways.indexOf(Math.min(...ways));
}

export class NoteDrag {
  /** @param {import("./score_view.js").Score} staves
   * @param {import("../editor/text_sheet.js").Sheet} sheet
   * @param {(words: string) => void} say */
  constructor(staves, sheet, say) {
    const { view } = staves;
    this.view = view;
    this.sheet = sheet;
    this.say = say;
    /** @type {{ cover: SVGGraphicsElement, head: number | null, place: Place, y: number, each: number, steps: number } | null} */
    this.drag = null; // `head` is how far down a head of a chord is
    /** @type {SVGGraphicsElement | null} */
    this.moving = null; // what moves: the cover of a note, or of a head
    this.wasMoved = false; // the next click ends a drag
    view.addEventListener("pointerdown", (event) => this.begin(event));
    view.addEventListener("pointermove", (event) => this.move(event));
    view.addEventListener("pointerup", () => this.end(true));
    view.addEventListener("pointercancel", () => this.end(false));
    view.addEventListener("keydown", ({ key }) => key === "Escape" && this.end(false));
    view.addEventListener("click", (event) => this.click(event), true);
  }

  /** A finger scrolls the score.
   * @type {(event: PointerEvent) => void} */
  begin({ target, button, pointerType, clientY }) {
    const { note } = /** @type {Cover} */ (target), cover = /** @type {SVGGraphicsElement} */ (target);
    this.wasMoved = false;
    const isOld = this.view.getAttribute("aria-busy") === "true", { d = 1, f = 0 } = cover.getScreenCTM?.() ?? {};
    if (button !== 0 || pointerType === "touch" || note?.kind !== "note" || isOld) return;
    const text = this.sheet.text.lines[note.line] ?? "", columns = chordColumns(text, note.column), at = nearest(note.heads, (clientY - f) / d);
    const isChord = columns.length > 0 && columns.length === note.heads.length, column = isChord ? columns[at] : note.column;
    if (draggedNote(text, column, 0) === null) return;
    this.drag = { cover, head: isChord ? note.heads[at] : null, place: { line: note.line, column }, y: clientY, each: STEP * d, steps: 0 };
  }

  /** The view has the pointer while a note moves, and not before: a click is on its note.
   * @type {(event: PointerEvent) => void} */
  move({ clientY, pointerId }) {
    const { drag } = this;
    if (!drag) return;
    const way = drag.y - clientY;
    if (!this.moving && Math.abs(way) >= LEAST) {
      this.moving = drag.head === null ? drag.cover : headOf(drag.cover, drag.head);
      this.view.setPointerCapture?.(pointerId);
    }
    if (!this.moving) return;
    drag.steps = Math.round(way / drag.each);
    this.moving.style.transform = `translateY(${-STEP * drag.steps}px)`;
    this.moving.classList.add("score-dragged");
  }

  /** @type {(isDropped: boolean) => void} */
  end(isDropped) {
    const { drag, moving } = this;
    this.drag = this.moving = null;
    if (!drag) return;
    if (moving) moving.style.transform = "";
    moving?.classList.remove("score-dragged");
    if (moving !== drag.cover) moving?.remove();
    this.wasMoved = moving !== null;
    if (isDropped && drag.steps) this.dropped(drag.place, drag.steps);
  }

  /** Writes a note where it was dropped, in a step of its own.
   * @type {(place: Place, steps: number) => void} */
  dropped(place, steps) {
    const { sheet, say } = this, { text } = sheet, { line, column } = place, put = draggedNote(text.lines[line], column, steps);
    if (put === null) return say("No file has a note that high or low.");
    const after = { start: place, end: place, direction: "forward" };
    text.change([{ start: line, taken: [text.lines[line]], put: [put] }], sheet.selection(), after);
    sheet.refresh(after);
  }

  /** The click that ends a drag is none.
   * @type {(event: MouseEvent) => void} */
  click(event) {
    if (this.wasMoved) event.stopPropagation();
    this.wasMoved = false;
  }
}

/** An element over a head of a chord, beside the one that covers the chord.
 * @type {(cover: SVGGraphicsElement, y: number) => SVGGraphicsElement} */
function headOf(cover, y) {
  const head = /** @type {SVGGraphicsElement} */ (cover.cloneNode());
  head.setAttribute("y", String(y - STEP));
  head.setAttribute("height", String(2 * STEP));
  cover.after(head);
  return head;
}
