// Keys of a keyboard as notes of ABC, which sound as they were pressed at their place.

import { naturalOf, wordsOfNote } from "../tunes/pitch_names.js";
import { letterOf } from "./note_context.js";

/** @typedef {import("./note_context.js").NoteContext} NoteContext */

const MIDDLE_C = 60;
const FIFTHS = [0, 2, 4, -1, 1, 3, 5]; // of the letters from C on
const FLATTEST = -3, SHARPEST = 8; // fifths from the tonic: in C the notes from E flat to G sharp
const MOST_SIGNS = 2;
const MOST_TONES = 16; // of a chord

/** Keys that are pressed together as a note, or a chord from its lowest note on, of a length as it is written. The context hears of their
 * accidentals.
 * @type {(keys: number[], context: NoteContext, length: string) => string} */
export function spelled(keys, context, length) {
  const sorted = [...new Set(keys)].sort((a, b) => a - b).slice(0, MOST_TONES), words = sorted.map((key) => spelledNote(key, context));
  return (words.length > 1 ? `[${words.join("")}]` : words.join("")) + length;
}

/** @type {(key: number, context: NoteContext) => string} */
function spelledNote(key, context) {
  const pitch = key - MIDDLE_C - context.shift, sharps = context.letters.reduce((sum, one) => sum + one, 0);
  const places = placesOf(pitch).map((index) => ({ index, sign: pitch - naturalOf(index) }));
  const [{ index, sign }] = places.sort((a, b) => rank(a, context, sharps) - rank(b, context, sharps));
  const isImplied = context.implied(index) === sign;
  context.write(index, isImplied ? null : sign);
  return wordsOfNote(index, isImplied ? null : sign);
}

/** The letters by which a pitch can be written.
 * @type {(pitch: number) => number[]} */
function placesOf(pitch) {
  const guess = Math.round((pitch * 7) / 12);
  return [0, 1, -1, 2, -2].map((more) => guess + more).filter((index) => Math.abs(pitch - naturalOf(index)) <= MOST_SIGNS);
}

/** How far a letter is from what a musician expects: first that of the signature, then one that an accidental of the bar gives, then the one
 * that is near the key in the circle of fifths.
 * @type {(note: { index: number, sign: number }, context: NoteContext, sharps: number) => number} */
function rank({ index, sign }, context, sharps) {
  const fifths = FIFTHS[letterOf(index)] + 7 * sign - sharps;
  if (context.letters[letterOf(index)] === sign) return context.implied(index) === sign ? 0 : 1;
  if (context.implied(index) === sign) return 2;
  return fifths >= FLATTEST && fifths <= SHARPEST ? 3 : 4;
}
