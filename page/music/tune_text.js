// What the page reads in the text of a tune, because a play does not have it: where parts begin, the names of voices, and how a tone is
// spelled. docs/architecture.md lists these expressions, with their reasons.

import { countBefore } from "../base/binary_search.js";
import { LETTERS, NATURALS } from "../tunes/pitch_names.js";

/** @typedef {{ line: number, from: number, to: number }} TextPlace
 * The letter of a tone, and its alteration in semitones.
 * @typedef {{ letter: string, alteration: number }} Spelling
 * A field at its place, and its value.
 * @typedef {{ line: number, from: number, value: string }} Field */

const BEAT = /^(?:"[^"]*"[ \t]*)?((?:\d+\/\d+[ \t]*)+)=/;
const VOICE = /^([^ \t]+)(?:.*[ \t](?:name|nm)="([^"]*)")?/;

/** Whether a place is before another one.
 * @type {(a: { line: number, from: number }, b: { line: number, from: number }) => boolean} */
export const isBefore = (a, b) => a.line < b.line || (a.line === b.line && a.from < b.from);

export class TuneWords {
  /** The lines of a book, of which first..last are the tune.
   * @param {string[]} lines
   * @param {number} first
   * @param {number} last */
  constructor(lines, first, last) {
    this.lines = lines;
    this.first = first;
    this.last = last;
    this.parts = this.fields("P");
    this.voices = this.fields("V");
    this.tempos = this.fields("Q");
  }

  /** The fields of a letter, as lines or in brackets.
   * @type {(letter: string) => Field[]} */
  fields(letter) {
    const spelling = new RegExp(`^${letter}:[ \\t]*([^%]*)|\\[${letter}:[ \\t]*([^\\]]*)\\]`, "g");
    return this.lines.slice(this.first, this.last).flatMap((words, n) => {
      return [...words.matchAll(spelling)].map(({ index = 0, 1: line, 2: inline }) => ({ line: this.first + n, from: index, value: line ?? inline }));
    });
  }

  /** The words at a place.
   * @type {(place: TextPlace) => string} */
  at({ line, from, to }) {
    return (this.lines[line] ?? "").slice(from, to);
  }

  /** In which section a place is, counted in the order of the text.
   * @type {(place: TextPlace) => number} */
  sectionOf(place) {
    return countBefore(this.parts, (part) => isBefore(part, place));
  }

  /** The beat of the last `Q:` before a place, in quarter notes; null if that has none, or there is none.
   * @type {(place: TextPlace) => number | null} */
  beatAt(place) {
    const field = this.tempos.findLast((one) => isBefore(one, place)), written = BEAT.exec(field?.value ?? "")?.[1];
    if (!written) return null;
    const parts = written.trim().split(/[ \t]+/).map((part) => part.split("/").map(Number));
    return parts.reduce((sum, [over, under]) => sum + (4 * over) / under, 0);
  }

  /** The name of the voice that plays at a place: that of the last `V:` of the music before it, else of the first `V:` of all.
   * @type {(place: TextPlace) => string} */
  voiceAt(place) {
    const { lines, first, last, voices } = this;
    const key = lines.slice(first, last).findIndex((words) => words.startsWith("K:"));
    const field = voices.findLast((one) => one.line > first + key && isBefore(one, place)) ?? voices[0];
    const id = field && VOICE.exec(field.value)?.[1];
    const names = voices.map(({ value }) => VOICE.exec(value)).filter((found) => found?.[1] === id && found?.[2]?.trim());
    return names.at(-1)?.[2].trim() ?? id ?? "";
  }

  /** How the tone with a key is spelled at its place, null if that is another one, as with `transpose=`.
   * @type {(place: TextPlace, key: number) => Spelling | null} */
  spelling(place, key) {
    const letter = [...this.at(place).toUpperCase()].find((sign) => LETTERS.includes(sign));
    if (!letter) return null;
    const alteration = ((key - NATURALS[LETTERS.indexOf(letter)] + 18) % 12) - 6;
    const most = /\^\^|__/.test(this.at(place)) ? 2 : 1;
    return Math.abs(alteration) <= most ? { letter, alteration } : null;
  }
}
