// What a note at a place of a tune would sound like, by docs/rules.md: the signature, the accidentals that reach it, tied notes, and the
// shift of its voice.

import { alterationsOf, keyOf } from "../tunes/key_field.js";
import { noteOf } from "../tunes/pitch_names.js";

/** @typedef {import("../link/tokens_and_plays.js").Token} Token
 * @typedef {{ text: string, tokens: Token[] }} Line
 * How far accidentals reach.
 * @typedef {"not" | "octave" | "pitch"} Reach
 * What a clef, `octave=` and `transpose=` give, in semitones; null for one that is not there.
 * @typedef {{ clef: number | null, octave: number | null, transpose: number | null }} Shift
 * A voice: its signature, null for that of the header; its shift; its accidentals since the bar line, by the places that they reach; the notes of
 * its last time token with their alterations, and those of them that are tied.
 * @typedef {object} Voice
 * @property {number[] | null} signature
 * @property {Shift} shift
 * @property {Map<number, number>} accidentals
 * @property {Map<number, number>} last
 * @property {Map<number, number>} tied */

const REACH = /^%%propagate-accidentals[ \t]+(not|octave|pitch)[ \t]*(?:%.*)?$/;
const NOTE = /^(?:\^\^?|__?|=)?[A-Ga-g][',]*/;
const NUMBER = /^[+-]?\d{1,9}$/;
const NO_MUSIC = /^(?!Inline).*Field$|^(?:Directive|Comment|FreeText)$/; // tokens that begin a line of another kind
const MOST_TONES = 16; // of a chord: those after them have no effect
const NOTHING = Array(7).fill(0);

/** What holds at a place of a tune whose lines begin with its `X:`. `header` are the lines of the file header. Null before its body.
 * @type {(header: string[], lines: Line[], place: { line: number, column: number }) => NoteContext | null} */
export function contextAt(header, lines, { line, column }) {
  const context = new NoteContext();
  for (const text of header) context.directive(text);
  lines.slice(0, line).forEach((one) => context.line(one, Infinity));
  context.line(lines[line], column);
  return context.isBody ? context : null;
}

/** The semitones of the properties of a field; null if it is refused.
 * @type {(words: string[]) => Shift | null} */
export function shiftIn(words) {
  /** @type {Shift} */
  const found = { clef: null, octave: null, transpose: null };
  for (const word of words) {
    const [, name = "", quoted = ""] = /^(clef|octave|transpose)=(.*)$/.exec(word) ?? [], value = /^"(.*)"$/.exec(quoted)?.[1] ?? quoted;
    if (name === "clef") found.clef = clefOf(value);
    else if (name && !NUMBER.test(value)) return null;
    else if (name === "octave") found.octave = 12 * Number(value);
    else if (name === "transpose") found.transpose = Number(value);
    else if (/[+-]8$/.test(word)) found.clef = clefOf(word);
  }
  return found;
}

/** @type {(word: string) => number} */
const clefOf = (word) => (word.endsWith("+8") ? 12 : word.endsWith("-8") ? -12 : 0);

/** @type {(text: string) => string[]} */
const wordsIn = (text) => text.split(/[ \t]+/).filter(Boolean);

/** A shift after another one: its parts go before.
 * @type {(before: Shift, { clef, octave, transpose }: Shift) => Shift} */
const after = (before, { clef, octave, transpose }) => ({
  clef: clef ?? before.clef, octave: octave ?? before.octave, transpose: transpose ?? before.transpose,
});

export class NoteContext {
  constructor() {
    /** @type {Reach} */
    this.reach = "pitch";
    this.isBody = false;
    this.signature = NOTHING; // of the header
    /** @type {Shift} */
    this.headerShift = { clef: 0, octave: 0, transpose: 0 };
    /** @type {Map<string, Voice>} */
    this.voices = new Map();
    this.name = ""; // of the present voice
    /** @type {string | null} */
    this.firstName = null; // of the header
  }

  /** The present voice.
   * @returns {Voice} */
  get voice() {
    return this.voiceOf(this.name);
  }

  /** @type {(name: string) => Voice} */
  voiceOf(name) {
    const known = this.voices.get(name);
    if (known) return known;
    const fresh = { signature: null, shift: { clef: null, octave: null, transpose: null }, accidentals: new Map(), last: new Map(), tied: new Map() };
    this.voices.set(name, fresh);
    return fresh;
  }

  /** The alterations of the letters in the signature that holds. */
  get letters() {
    return this.voice.signature ?? this.signature;
  }

  /** The semitones by which a note sounds higher than it is written. */
  get shift() {
    const { clef, octave, transpose } = after(this.headerShift, this.voice.shift);
    return (clef ?? 0) + (octave ?? 0) + (transpose ?? 0);
  }

  /** The alteration of a note that is written without an accidental.
   * @type {(index: number) => number} */
  implied(index) {
    const { accidentals, tied } = this.voice;
    return accidentals.get(this.placeOf(index)) ?? tied.get(index) ?? this.letters[letterOf(index)];
  }

  /** What an accidental at a note reaches.
   * @type {(index: number) => number} */
  placeOf(index) {
    return this.reach === "pitch" ? letterOf(index) : index;
  }

  /** A note is written, with an accidental or none.
   * @type {(index: number, sign: number | null) => number} */
  write(index, sign) {
    if (sign !== null && this.reach !== "not") this.voice.accidentals.set(this.placeOf(index), sign);
    return sign ?? this.implied(index);
  }

  /** @type {(text: string) => void} */
  directive(text) {
    this.reach = /** @type {Reach | undefined} */ (REACH.exec(text)?.[1]) ?? this.reach;
  }

  /** Reads a line up to a column.
   * @type {(line: Line, until: number) => void} */
  line({ text, tokens }, until) {
    if (tokens.length && !NO_MUSIC.test(tokens[0].kind)) this.enterBody();
    tokens.forEach((token, n) => {
      const own = text.slice(token.from, token.to);
      if (token.depth || token.to > until) return;
      if (token.kind === "Directive" && !this.isBody) this.directive(own);
      else if (token.kind.endsWith("Field")) this.field(own);
      else if (this.isBody) this.token(token.kind, own, text, tokens, n);
    });
  }

  /** The body of the tune begins, in the first voice of the header. */
  enterBody() {
    if (this.isBody) return;
    this.isBody = true;
    this.name = this.firstName ?? "";
  }

  /** @type {(kind: string, own: string, text: string, tokens: Token[], at: number) => void} */
  token(kind, own, text, tokens, at) {
    const { voice } = this;
    if (kind === "BarLine") voice.accidentals.clear();
    else if (kind === "Rest") Object.assign(voice, { last: new Map(), tied: new Map() });
    else if (kind === "Note") this.notes([own], []);
    else if (kind === "Chord") this.chord(text, partsOf(tokens, at));
    else if (kind === "Tie" && /^(?:Note|Chord)$/.test(before(tokens, at))) voice.tied = new Map(voice.last);
  }

  /** The notes of a chord, and which of them a tie inside it ties.
   * @type {(text: string, parts: Token[]) => void} */
  chord(text, parts) {
    const notes = parts.filter(({ kind }) => kind === "Note").slice(0, MOST_TONES), ties = parts.filter(({ kind }) => kind === "Tie");
    const tied = notes.flatMap(({ to }, n) => (ties.some(({ from }) => from === to) ? [n] : []));
    if (notes.length) this.notes(notes.map(({ from, to }) => text.slice(from, to)), tied);
  }

  /** A time token with notes, some of which are tied by ties inside it.
   * @type {(words: string[], tied: number[]) => void} */
  notes(words, tied) {
    const { voice } = this, found = words.map((word) => noteOf(NOTE.exec(word)?.[0] ?? "") ?? { index: 0, sign: null });
    const altered = found.map(({ index, sign }) => /** @type {[number, number]} */ ([index, this.write(index, sign)]));
    voice.last = new Map(altered);
    voice.tied = new Map(altered.filter((_, n) => tied.includes(n)));
  }

  /** A field, as a line or in brackets.
   * @type {(text: string) => void} */
  field(text) {
    const [letter, value] = text.startsWith("[") ? [text[1], text.slice(3, -1)] : [text[0], text.slice(2)];
    if (letter === "K") this.key(value.trim());
    if (letter === "V") this.enterVoice(wordsIn(value));
    if (letter === "P" && this.isBody && /^[ \t]*[A-Z]/.test(value)) for (const { accidentals } of this.voices.values()) accidentals.clear();
  }

  /** @type {(words: string[]) => void} */
  enterVoice([name, ...words]) {
    const shift = shiftIn(words);
    if (name === undefined || !shift) return;
    this.name = name;
    if (!this.isBody) this.firstName ??= name;
    const { voice } = this;
    voice.shift = after(voice.shift, shift);
  }

  /** A refused key has the signature of no accidentals, one of properties alone leaves it.
   * @type {(value: string) => void} */
  key(value) {
    const { isBody } = this, shift = shiftIn(wordsIn(value)), key = shift && keyOf(value);
    this.enterBody();
    const { voice } = this, signature = key ? (key.isOfProperties ? null : alterationsOf(key)) : NOTHING;
    if (isBody) {
      voice.accidentals.clear();
      voice.signature = signature ?? voice.signature;
      if (key && shift) voice.shift = after(voice.shift, shift);
    } else {
      this.signature = signature ?? NOTHING;
      if (key && shift) this.headerShift = after(this.headerShift, shift);
    }
  }
}

/** The place of a letter among those from C.
 * @type {(index: number) => number} */
export const letterOf = (index) => ((index % 7) + 7) % 7;

/** The kind of the token before another one that is in none.
 * @type {(tokens: Token[], at: number) => string} */
const before = (tokens, at) => tokens.slice(0, at).findLast(({ depth, to }) => !depth && to === tokens[at].from)?.kind ?? "";

/** The tokens in a chord.
 * @type {(tokens: Token[], at: number) => Token[]} */
function partsOf(tokens, at) {
  const end = tokens.findIndex(({ depth }, n) => n > at && !depth);
  return tokens.slice(at + 1, end < 0 ? tokens.length : end);
}
