// Notes and names of tones as they are written: letters, octaves, accidentals.

const NOTE = /^(\^\^?|__?|=)?([A-Ga-g])([',]*)$/;
export const LETTERS = "CDEFGAB";
export const NATURALS = [0, 2, 4, 5, 7, 9, 11]; // semitones of the letters above C
const SIGN_WORDS = ["__", "_", "=", "^", "^^"];
/** @type {Record<string, number>} */
const SIGNS = { "^": 1, "^^": 2, _: -1, __: -2, "=": 0 };
/** @type {Record<string, number>} */
const ALTERATIONS = { "": 0, "#": 1, "♯": 1, b: -1, "♭": -1 };
const MOST_SIGNS = 2;

/** The letter of an index: C has 0, and c has 7.
 * @type {(index: number) => string} */
const letterOf = (index) => LETTERS[((index % 7) + 7) % 7];

/** The semitones from C to the natural note of an index.
 * @type {(index: number) => number} */
export const naturalOf = (index) => NATURALS[((index % 7) + 7) % 7] + 12 * Math.floor(index / 7);

/** The index and the semitones above C of a name such as `F#`.
 * @type {(name: string) => { index: number, pitch: number }} */
export function pitchOf(name) {
  const index = LETTERS.indexOf(name[0]);
  return { index, pitch: naturalOf(index) + ALTERATIONS[name.slice(1)] };
}

/** The name of a pitch with the letter of an index; null if it needs more than one sharp or flat.
 * @type {(index: number, pitch: number) => string | null} */
export function nameOf(index, pitch) {
  const sign = ["b", "", "#"][pitch - naturalOf(index) + 1];
  return sign === undefined ? null : letterOf(index) + sign;
}

/** The index and the written accidental of a note without its length, null if it is none.
 * @type {(text: string) => { index: number, sign: number | null } | null} */
export function noteOf(text) {
  const found = NOTE.exec(text);
  if (!found) return null;
  const [, sign, letter, marks] = found, octave = (letter > "Z" ? 1 : 0) + [...marks].reduce((sum, mark) => sum + (mark === "'" ? 1 : -1), 0);
  return { index: LETTERS.indexOf(letter.toUpperCase()) + 7 * octave, sign: sign ? SIGNS[sign] : null };
}

/** A note as it is written.
 * @type {(index: number, sign: number | null) => string} */
export function wordsOfNote(index, sign) {
  const octave = Math.floor(index / 7);
  const written = octave > 0 ? letterOf(index).toLowerCase() + "'".repeat(octave - 1) : letterOf(index) + ",".repeat(-octave);
  return (sign === null ? "" : SIGN_WORDS[sign + MOST_SIGNS]) + written;
}

/** A sign with a letter, as a key lists them.
 * @type {(index: number, sign: number) => string} */
export const wordsOfSign = (index, sign) => SIGN_WORDS[sign + MOST_SIGNS] + letterOf(index).toLowerCase();

/** The accidental that a note with one has after it moved by letters and semitones; null if it would need three sharps or flats.
 * @type {(index: number, sign: number, steps: number, semitones: number) => number | null} */
export function movedSign(index, sign, steps, semitones) {
  const found = naturalOf(index) + sign + semitones - naturalOf(index + steps);
  return Math.abs(found) <= MOST_SIGNS ? found : null;
}
