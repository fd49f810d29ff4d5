// The row below the text with the fingering of the note at the caret, or of what sounds.

import { find, show } from "../base/elements.js";
import { nameOf } from "./piano_roll_picture.js";
import { PLAYERS, fingeringWords } from "./fingerings.js";

/** @typedef {import("./fingerings.js").Fingering} Fingering
 * @typedef {import("./midi_file.js").Note} Note */

const KEY = "abc2midi_live_fingering"; // in the browser's store
const MOST = 4; // notes that are shown

export class FingeringRow {
  /** `noteName` names a note as the text spells it.
   * @param {(note: Note) => string} noteName */
  constructor(noteName) {
    this.noteName = noteName;
    this.row = find("fingering");
    this.list = /** @type {HTMLSelectElement} */ (find("fingering-for"));
    /** @type {Note[]} */
    this.notes = [];
    this.shown = ""; // the keys and the names that the row shows
    this.list.append(...Object.entries(PLAYERS).map(([id, { name }]) => new Option(name, id)));
    const kept = localStorage.getItem(KEY) ?? "";
    this.list.value = kept in PLAYERS ? kept : "";
    this.list.addEventListener("change", () => {
      localStorage.setItem(KEY, this.list.value);
      this.draw();
    });
    this.draw();
  }

  /** Shows how notes are fingered.
   * @type {(notes: Note[]) => void} */
  see(notes) {
    this.notes = notes;
    if (this.list.value) this.draw();
  }

  draw() {
    const player = PLAYERS[this.list.value], notes = [...new Map(this.notes.map((note) => [note.key, note])).values()].slice(0, MOST);
    show(this.row, Boolean(player));
    const names = notes.map((note) => this.noteName(note)), wanted = player ? [player.name, ...notes.map(({ key }) => key), ...names].join() : "";
    if (!player || wanted === this.shown) return;
    this.shown = wanted;
    const label = Object.assign(document.createElement("b"), { textContent: player.name });
    const none = Object.assign(document.createElement("span"), { textContent: "No note is at the caret." });
    this.row.replaceChildren(label, ...(notes.length ? notes.map(({ key }, n) => noteOf(names[n] || nameOf(key), player.of(key))) : [none]));
  }
}

/** A note with its fingering.
 * @type {(name: string, fingering: Fingering) => HTMLElement} */
function noteOf(name, fingering) {
  const one = Object.assign(document.createElement("span"), { className: "fingered" }), words = fingeringWords(fingering);
  const picture = fingering === null ? [] : [`holes` in fingering ? holesOf(fingering.holes, fingering.isHigh) : stringsOf(fingering)];
  for (const part of picture) part.ariaHidden = "true";
  one.append(Object.assign(document.createElement("em"), { textContent: name }), ...picture, Object.assign(document.createElement("small"), { textContent: words }));
  return one;
}

/** @type {(holes: number[], isHigh: boolean) => HTMLElement} */
function holesOf(holes, isHigh) {
  const picture = Object.assign(document.createElement("span"), { className: "holes" });
  picture.append(...holes.map((hole) => Object.assign(document.createElement("i"), { className: hole === 1 ? "closed" : hole ? "half" : "open" })));
  if (isHigh) picture.append("+");
  return picture;
}

/** The strings, the lowest at the left as one sees them, and the fret on one.
 * @type {(fingering: { string: number, fret: number, strings: string[] }) => HTMLElement} */
function stringsOf({ string, fret, strings }) {
  const picture = Object.assign(document.createElement("span"), { className: "strings" });
  picture.append(...strings.map((name, n) => Object.assign(document.createElement("i"), { className: n === string ? "played" : "", textContent: n === string ? String(fret) : name })));
  return picture;
}
