// By how much the page plays and draws a tune higher or lower than its text says. The browser keeps both.

import { find } from "../base/elements.js";

/** How many semitones an instrument in a key sounds lower than its notes are written.
 * @type {Record<string, number>} */
const INSTRUMENTS = { "B♭": 2, "E♭": 9, F: 7 };
const CAPOS = [1, 2, 3, 4, 5, 6, 7]; // frets
const KEY = "abc2midi_live_transposition"; // in the browser's store

/** A choice: its name, its words, and the semitones up.
 * @typedef {{ name: string, words: string, semitones: number }} Choice */

/** What may be heard: the text as the part of an instrument, or as what a guitar with a capo plays.
 * @type {Choice[]} */
export const HEARD = [
  { name: "", words: "as written", semitones: 0 },
  ...Object.entries(INSTRUMENTS).map(([name, lower]) => ({ name, words: `${name} instrument (−${lower})`, semitones: -lower })),
  ...CAPOS.map((fret) => ({ name: `capo ${fret}`, words: `capo ${fret} (+${fret})`, semitones: fret })),
];

/** What the score may show: the part of an instrument that sounds as the text, or what a guitar with a capo plays for that.
 * @type {Choice[]} */
export const SHOWN = [
  { name: "", words: "as written", semitones: 0 },
  ...Object.entries(INSTRUMENTS).map(([name, lower]) => ({ name, words: `for ${name} instrument (+${lower})`, semitones: lower })),
  ...CAPOS.map((fret) => ({ name: `capo ${fret}`, words: `for capo ${fret} (−${fret})`, semitones: -fret })),
];

export class Transposition {
  /** @param {import("./player.js").Player} player
   * @param {(semitones: number) => void} draw draws the score by so many semitones higher
   * @param {boolean} hasScore */
  constructor(player, draw, hasScore) {
    this.heard = this.list("heard-as", HEARD);
    this.shown = this.list("shown-as", SHOWN);
    find("shown-as-label").hidden = !hasScore;
    this.player = player;
    this.draw = draw;
    const [heard = "", shown = ""] = keptNames();
    this.heard.value = HEARD.some(({ name }) => name === heard) ? heard : "";
    this.shown.value = hasScore && SHOWN.some(({ name }) => name === shown) ? shown : "";
    this.apply();
  }

  /** @type {(id: string, choices: Choice[]) => HTMLSelectElement} */
  list(id, choices) {
    const list = /** @type {HTMLSelectElement} */ (find(id));
    list.replaceChildren(...choices.map(({ name, words }) => new Option(words, name)));
    list.addEventListener("change", () => {
      this.apply();
      localStorage.setItem(KEY, JSON.stringify([this.heard.value, this.shown.value]));
    });
    return list;
  }

  /** What is heard from the next notes on, and what is drawn. */
  apply() {
    this.player.shift = HEARD.find(({ name }) => name === this.heard.value)?.semitones ?? 0;
    this.draw(SHOWN.find(({ name }) => name === this.shown.value)?.semitones ?? 0);
  }
}

/** The names that the browser keeps.
 * @type {() => string[]} */
function keptNames() {
  try {
    const kept = JSON.parse(localStorage.getItem(KEY) ?? "[]");
    return Array.isArray(kept) ? kept.map(String) : [];
  } catch {
    return [];
  }
}
