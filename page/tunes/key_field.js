// The value of a `K:` field by docs/rules.md, and the same key some semitones higher.

import { movedSign, nameOf, noteOf, pitchOf, wordsOfSign } from "./pitch_names.js";

/** The value of a `K:`. `tonic` is empty without one; `mode` has the blanks before it; `words` are the words after both, and the blanks
 * between them. `isExplicit` is whether the listed accidentals are the whole signature, `isOfProperties` whether the value sets none.
 * @typedef {{ before: string, tonic: string, mode: string, words: string[], isExplicit: boolean, isOfProperties: boolean }} Key */

const TONIC = /^([A-G][#b]?)([A-Za-z]*)(.*)$/s;
const LATER_MODE = /^([ \t]+)([A-Za-z]+)(.*)$/s;
const LISTED = /^(?:(?:\^\^?|__?|=)[A-Ga-g])+$/;
const PROPERTY = /=|[+-]8$|^(?:treble|bass|alto|tenor|perc)[1-5]?$/;
const TONICS = ["C", "C#", "Cb", "D", "D#", "Db", "E", "Eb", "F", "F#", "G", "G#", "Gb", "A", "A#", "Ab", "B", "Bb"]; // in a list, the letter D alone chooses D
const MOST_SHARPS = 7;
const SHARPENED = [3, 0, 4, 1, 5, 2, 6]; // the letters F C G D A E B, counted from C: in this order sharps come, and flats in the other one
/** @type {Record<string, number>} */
const MODES = { lyd: 1, maj: 0, ion: 0, mix: -1, dor: -2, min: -3, aeo: -3, phr: -4, loc: -5 };

/** @type {(run: string) => boolean} */
const isMode = (run) => run === "m" || run.slice(0, 3).toLowerCase() in MODES;

/** @type {(text: string) => string[]} */
const wordsIn = (text) => text.split(/([ \t]+)/);

/** The value of a `K:`; null if it is refused.
 * @type {(value: string) => Key | null} */
export function keyOf(value) {
  const [, before, text] = /** @type {RegExpExecArray} */ (/^([ \t]*)(.*)$/s.exec(value)), [first] = wordsIn(text), found = TONIC.exec(text);
  const key = { before, tonic: "", mode: "", words: wordsIn(text), isExplicit: false, isOfProperties: false };
  if (/^(?:none)?[ \t]*$/.test(text)) return { ...key, words: wordsIn(text.replace("none", "")) };
  if (/^[_^=]/.test(first)) return { ...key, isExplicit: true };
  if (!found) return PROPERTY.test(first) ? { ...key, isOfProperties: true } : null;
  const [, tonic, run, rest] = found, later = run ? null : LATER_MODE.exec(rest), isExplicit = later?.[2] === "exp";
  if (run && !isMode(run)) return null;
  const [mode, words] = later && (isExplicit || isMode(later[2])) ? [later[1] + later[2], later[3]] : [run, rest];
  const named = { ...key, tonic, mode, words: wordsIn(words), isExplicit };
  return isWritable(named) ? named : null;
}

/** A key as the value of its field.
 * @type {(key: Key) => string} */
export const valueOf = ({ before, tonic, mode, words }) => before + tonic + mode + words.join("");

/** The signature of a key as the value of a field, without properties.
 * @type {(key: Key) => string} */
export function signatureOf({ tonic, mode, words }) {
  return [tonic + mode, ...words.filter((word) => LISTED.test(word))].join(" ").trim() || "none";
}

/** The sharps of a tonic and a mode, less than 0 for flats.
 * @type {(key: Key) => number} */
export function sharpsOf({ tonic, mode }) {
  const word = mode.trim(), { index, pitch } = pitchOf(tonic), alteration = pitch - pitchOf(tonic[0]).pitch;
  return [0, 2, 4, -1, 1, 3, 5][index] + 7 * alteration + (word === "m" ? MODES.min : MODES[word.slice(0, 3).toLowerCase()] ?? 0);
}

/** The alterations of the letters C to B in a key that sets its signature, in semitones.
 * @type {(key: Key) => number[]} */
export function alterationsOf(key) {
  const sharps = key.isExplicit || !key.tonic ? 0 : sharpsOf(key), order = sharps < 0 ? [...SHARPENED].reverse() : SHARPENED;
  const altered = new Set(order.slice(0, Math.abs(sharps)));
  const found = Array.from({ length: 7 }, (_, letter) => (altered.has(letter) ? Math.sign(sharps) : 0));
  for (const { index, sign } of key.words.flatMap(listedIn)) found[index] = sign;
  return found;
}

/** Whether a key is not refused for its sharps or flats.
 * @type {(key: Key) => boolean} */
const isWritable = (key) => key.isExplicit || Math.abs(sharpsOf(key)) <= MOST_SHARPS;

/** The accidentals that a word lists: the index and the sign of each.
 * @type {(word: string) => { index: number, sign: number }[]} */
function listedIn(word) {
  const notes = LISTED.test(word) ? word.match(/[_^=]+[A-G]/gi) ?? [] : [];
  return notes.map((note) => /** @type {{ index: number, sign: number }} */ (noteOf(note.toUpperCase())));
}

/** A key that moved by letters and semitones; null if that cannot be written. Without a tonic a key moves as C does.
 * @type {(key: Key, steps: number, semitones: number) => Key | null} */
export function movedKey(key, steps, semitones) {
  const { index, pitch } = pitchOf(key.tonic || "C"), tonic = nameOf(index + steps, pitch + semitones);
  const words = key.isExplicit ? explicitWords(key, steps, semitones) : key.words.map((word) => movedWord(word, steps, semitones));
  if (!tonic || words.includes(null)) return null;
  const mode = key.isExplicit ? " exp" : key.mode, blank = key.isOfProperties ? [" "] : [];
  const found = { ...key, tonic, mode, words: [...blank, .../** @type {string[]} */ (words)], isOfProperties: false };
  return isWritable(found) ? found : null;
}

/** A word of a key after it moved; null if that cannot be written. A word that lists no accidentals stays.
 * @type {(word: string, steps: number, semitones: number) => string | null} */
function movedWord(word, steps, semitones) {
  const listed = listedIn(word);
  if (!listed.length) return word;
  const moved = listed.map(({ index, sign }) => ({ index: index + steps, sign: movedSign(index, sign, steps, semitones) }));
  return moved.some(({ sign }) => sign === null) ? null : moved.map(({ index, sign }) => wordsOfSign(index, sign ?? 0)).join("");
}

/** The words of a key that lists its whole signature, after it moved: a natural letter may get an accidental, and the reverse.
 * @type {(key: Key, steps: number, semitones: number) => (string | null)[]} */
function explicitWords({ words }, steps, semitones) {
  const signs = new Map(words.flatMap(listedIn).map(({ index, sign }) => [index, sign]));
  const moved = [...Array(7).keys()].map((index) => ({ index: index + steps, sign: movedSign(index, signs.get(index) ?? 0, steps, semitones) }));
  if (moved.some(({ sign }) => sign === null)) return [null];
  const listed = moved.filter(({ sign }) => sign).map(({ index, sign }) => wordsOfSign(index, sign ?? 0));
  return [" ", listed.join("") || "=c", ...words.filter((word) => word.trim() && !LISTED.test(word)).flatMap((word) => [" ", word])];
}

/** The tonics that a key may have: those with at most seven sharps or flats.
 * @type {(key: Key) => string[]} */
export const tonicsOf = (key) => TONICS.filter((tonic) => isWritable({ ...key, tonic }));

/** By how many semitones a key moves to another tonic: 1 to 12 up or down, else at most 6.
 * @type {(key: Key, tonic: string, direction: "up" | "down" | "near") => number} */
export function semitonesTo(key, tonic, direction) {
  const up = (pitchOf(tonic).pitch - pitchOf(key.tonic || "C").pitch + 24) % 12;
  if (direction === "up") return up || 12;
  if (direction === "down") return up - 12;
  return up > 6 ? up - 12 : up;
}

/** The keys that a key may become, some semitones higher, and the letters by which notes move to them: those of the fewest sharps or flats
 * first.
 * @type {(key: Key, semitones: number) => { key: Key, steps: number }[]} */
export function keysAbove(key, semitones) {
  const guess = Math.round((semitones * 7) / 12);
  const found = [0, 1, -1, 2, -2].flatMap((more) => {
    const moved = movedKey(key, guess + more, semitones);
    return moved ? [{ key: moved, steps: guess + more }] : [];
  });
  const sharps = found.map((one) => sharpsOf(one.key)), order = [...found.keys()];
  order.sort((one, other) => Math.abs(sharps[one]) - Math.abs(sharps[other]) || sharps[other] - sharps[one]);
  return order.map((place) => found[place]);
}
