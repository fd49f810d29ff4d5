// Transposes lines of a tune, or a part of them: notes, keys and names of chords. All notes of a key move by the same number of letters, so
// accidentals stay where they were. A part begins with its new key, and the old one follows after it.

import { keyOf, keysAbove, signatureOf, valueOf } from "./key_field.js";
import { movedSign, nameOf, noteOf, pitchOf, wordsOfNote } from "./pitch_names.js";

/** @typedef {import("./key_field.js").Key} Key
 * @typedef {import("../text/selection.js").Place} Place
 * @typedef {import("../link/tokens_and_plays.js").Token} Token
 * @typedef {{ text: string, tokens: Token[] }} Line
 * A part of lines, its places counted from the first of them.
 * @typedef {{ start: Place, end: Place }} Range
 * What could not be transposed: its line, counted from 0, its text and why.
 * @typedef {{ line: number, text: string, why: string }} Left
 * By how much: semitones, and the tonic of the first key if it is asked for by name.
 * @typedef {{ semitones: number, tonic?: string }} By
 * The key of a voice, null if its notes stay; that key transposed, with the letters by which its notes move, null until it is needed; and
 * whether the text has it transposed by now.
 * @typedef {{ key: Key | null, moved: { key: Key, steps: number } | null, isMoved: boolean }} State
 * A voice: its key, whether its last note was inside, and what reaches its next note.
 * @typedef {State & { wasInside: boolean | null, hasAccidental: boolean, isTied: boolean }} Voice
 * `keys` are the names of the first key, before and after.
 * @typedef {{ lines: string[], left: Left[], range: Range | null, keys: [string, string] | null }} Transposition */

const CHORD = /^(\(?)([A-G])([#b♯♭]?)((?:m|M|maj|min|dim|aug|sus|add|alt|\/(?=\d)|[-+°øΔ\d()#b♯♭,])*?)(?:\/([A-G])([#b♯♭]?))?(\)?)$/;
const LIKE_A_CHORD = /^[A-G](?![a-z]{2}|\.)/;
const NOTES = /(?:\^\^?|__?|=)?[A-Ga-g][',]*/g;
const FIELD = /^(\[?)([A-Za-z]):([^\]]*)(\]?)$/;
const MUSIC = new Set(["Note", "Chord", "Grace", "Quoted", "Decoration", "Dynamic", "Tuplet", "NoEffect"]); // a key may be put before these
const NO_MUSIC = /^(?!Inline).*Field$|^(?:Directive|Comment|FreeText)$/; // tokens that begin a line of another kind

/** Transposes lines, or a part of them. If a note cannot be written in the key of the fewest sharps or flats, it tries the other keys of the
 * same sound.
 * @type {(lines: Line[], by: By, range?: Range | null) => Transposition} */
export function transposed(lines, by, range = null) {
  const music = new Transposing(by, range), best = music.all(lines), others = music.first && best.left.length && !by.tonic ? keysAbove(music.first, by.semitones).slice(1) : [];
  return others.map(({ steps }) => new Transposing(by, range, steps).all(lines)).reduce((one, other) => (other.left.length < one.left.length ? other : one), best);
}

/** The whole bars that a part is in.
 * @type {(lines: Line[], range: Range) => Range} */
export function barsOf(lines, { start, end }) {
  const bars = (/** @type {Place} */ { line }) => lines[line].tokens.filter(({ kind }) => kind === "BarLine");
  const first = bars(start).filter(({ to }) => to <= start.column).at(-1), last = bars(end).find(({ to }) => to >= end.column);
  return { start: { line: start.line, column: first?.to ?? 0 }, end: { line: end.line, column: last?.from ?? lines[end.line].text.length } };
}

/** The key that holds where a part begins, for the voice there: null if there is none, or it is refused.
 * @type {(lines: Line[], range?: Range | null) => Key | null} */
export function firstKey(lines, range = null) {
  const music = new Transposing({ semitones: 0 }, range);
  music.all(lines);
  return music.first;
}

class Transposing {
  /** `steps` is the number of letters by which the first key moves, if that is asked for.
   * @param {By} by
   * @param {Range | null} range
   * @param {number | null} steps */
  constructor(by, range, steps = null) {
    this.by = by;
    this.range = range;
    /** @type {Left[]} */
    this.left = [];
    /** @type {Range | null} */
    this.now = null; // the part afterwards
    /** @type {Key | null} */
    this.first = null; // the first key that moved
    /** @type {[string, string] | null} */
    this.keys = null;
    this.steps = steps; // letters by which that key moved
    this.isOctaves = by.semitones % 12 === 0 && !by.tonic;
    this.number = 0; // of the present line
    /** @type {Map<string, Voice>} */
    this.voices = new Map();
    /** @type {State} */
    this.header = { key: null, moved: null, isMoved: false };
    this.name = ""; // of the present voice
    /** @type {string | null} */
    this.firstName = null; // of the header
    this.isBody = false;
    this.isKeyless = true; // no `K:` came yet
  }

  /** Transposes lines.
   * @type {(lines: Line[]) => Transposition} */
  all(lines) {
    const found = lines.map((line, n) => this.line(line, n));
    return { lines: found, left: this.left, range: this.now, keys: this.keys };
  }

  /** Another tune begins. */
  begin() {
    const header = { key: null, moved: null, isMoved: false };
    Object.assign(this, { voices: new Map(), header, name: "", firstName: null, isBody: false, isKeyless: true });
  }

  /** The present voice, which has the header's key until its own.
   * @returns {Voice} */
  get voice() {
    const found = this.voices.get(this.name) ?? { ...this.header, wasInside: null, hasAccidental: false, isTied: false };
    this.voices.set(this.name, found);
    return found;
  }

  /** @type {(line: Line, number: number) => string} */
  line({ text, tokens }, number) {
    this.number = number;
    if (tokens.length && !NO_MUSIC.test(tokens[0].kind)) this.enterBody();
    let at = 0, found = "";
    tokens.forEach((token, n) => {
      if (token.depth) return;
      const isInside = this.isInside(token), begin = found.length + token.from - at, own = text.slice(token.from, token.to);
      found += text.slice(at, token.from) + this.edge(token, isInside) + this.token(token.kind, own, partsOf(tokens, n), isInside);
      at = token.to;
      if (isInside) this.now = { start: this.now?.start ?? { line: number, column: begin }, end: { line: number, column: found.length } };
    });
    return found + text.slice(at);
  }

  /** @type {(token: Token) => boolean} */
  isInside({ from, to }) {
    const { range, number } = this;
    if (!range) return true;
    const { start, end } = range;
    return (number > start.line || (number === start.line && to > start.column)) && (number < end.line || (number === end.line && from < end.column));
  }

  /** The body of a tune begins: before its first `V:` the voice is the first one of the header. */
  enterBody() {
    if (this.isBody) return;
    this.isBody = true;
    this.name = this.firstName ?? "";
  }

  /** The key that is put before a token, if the part begins or ends there for its voice.
   * @type {(token: Token, isInside: boolean) => string} */
  edge({ kind }, isInside) {
    if (!MUSIC.has(kind)) return "";
    const { voice } = this;
    if (kind === "Note" || kind === "Chord") this.cross(voice, isInside);
    if (this.isOctaves || !voice.key || voice.isMoved === isInside) return "";
    const key = isInside ? this.moved(voice)?.key : voice.key;
    if (!key) return "";
    Object.assign(voice, { isMoved: isInside, hasAccidental: false });
    return `[K:${signatureOf(key)}]`;
  }

  /** Names what reaches over the begin or the end of the part.
   * @type {(voice: Voice, isInside: boolean) => void} */
  cross(voice, isInside) {
    if (voice.wasInside !== null && voice.wasInside !== isInside) {
      if (voice.isTied) this.leave("-", "a tie reaches over the edge of the selection");
      if (voice.hasAccidental && !this.isOctaves) this.leave("", "an accidental reaches over the edge of the selection");
    }
    Object.assign(voice, { wasInside: isInside, isTied: false });
  }

  /** What becomes of a token.
   * @type {(kind: string, text: string, parts: Token[], isInside: boolean) => string} */
  token(kind, text, parts, isInside) {
    if (kind.endsWith("Field")) return this.field(text, isInside);
    if (!this.isBody) return text;
    const { voice } = this, hasNotes = kind === "Note" || parts.some((part) => part.kind === "Note");
    if (kind === "BarLine") voice.hasAccidental = false;
    if (kind === "Tie") voice.isTied = true;
    if (hasNotes && /[_^=]/.test(text)) voice.hasAccidental = true;
    if (isInside && hasNotes && this.isKeyless) this.leaveKeyless();
    const steps = isInside && MUSIC.has(kind) ? this.moved(voice)?.steps : undefined;
    if (steps === undefined) return text;
    if (kind === "Note" || kind === "Grace") return this.notes(text, steps);
    if (kind === "Quoted") return `"${this.chord(text.slice(1, -1), steps)}"`;
    return kind === "Chord" ? this.together(text, parts, steps) : text;
  }

  /** The notes of a chord, which are among its parts.
   * @type {(text: string, parts: Token[], steps: number) => string} */
  together(text, parts, steps) {
    let at = 0, found = "";
    for (const { from, to, kind } of parts) {
      const own = text.slice(from, to);
      found += text.slice(at, from) + (kind === "Note" || kind === "Grace" ? this.notes(own, steps) : own);
      at = to;
    }
    return found + text.slice(at);
  }

  /** Names something that stays as it is.
   * @type {(text: string, why: string) => string} */
  leave(text, why) {
    this.left.push({ line: this.number, text, why });
    return text;
  }

  leaveKeyless() {
    this.isKeyless = false;
    this.leave("", "the notes have no K: before them");
  }

  /** @type {(text: string, steps: number) => string} */
  notes(text, steps) {
    return text.replace(NOTES, (word) => {
      const { index = 0, sign = null } = noteOf(word) ?? {}, moved = sign === null ? null : movedSign(index, sign, steps, this.by.semitones);
      return sign !== null && moved === null ? this.leave(word, "it would need three accidentals") : wordsOfNote(index + steps, moved);
    });
  }

  /** A name of a chord, which may have a bass.
   * @type {(text: string, steps: number) => string} */
  chord(text, steps) {
    const found = CHORD.exec(text);
    if (!found) return LIKE_A_CHORD.test(text) ? this.leave(`"${text}"`, "this is no name of a chord").slice(1, -1) : text;
    const [, open, root, sign, kind, bass, bassSign, close] = found;
    return open + this.tone(root + sign, steps) + kind + (bass ? `/${this.tone(bass + bassSign, steps)}` : "") + close;
  }

  /** The name of a tone: with the letter that a note would have, or with a neighbour's if that one needs two accidentals.
   * @type {(name: string, steps: number) => string} */
  tone(name, steps) {
    const { index, pitch } = pitchOf(name), { semitones } = this.by;
    const places = [0, 1, -1].map((more) => nameOf(index + steps + more, pitch + semitones));
    return places.find((found) => found !== null) ?? name;
  }

  /** @type {(text: string, isInside: boolean) => string} */
  field(text, isInside) {
    const [, open = "", letter = "", value = "", close = ""] = FIELD.exec(text) ?? [];
    if (letter === "X" && !open) this.begin();
    if (letter === "P") for (const voice of this.voices.values()) voice.hasAccidental = false;
    if (letter === "V") this.enterVoice(/[^ \t]+/.exec(value)?.[0] ?? this.name);
    return letter === "K" ? `${open}K:${this.key(value, isInside)}${close}` : text;
  }

  /** @type {(name: string) => void} */
  enterVoice(name) {
    this.name = name;
    if (!this.isBody) this.firstName ??= name;
  }

  /** The value of a `K:`, after which notes move as it does.
   * @type {(value: string, isInside: boolean) => string} */
  key(value, isInside) {
    const key = keyOf(value), { isBody } = this;
    this.enterBody();
    if (isBody) this.voice.hasAccidental = false;
    if (isBody && key?.isOfProperties) return value;
    this.isKeyless = false;
    if (!key && isInside) this.leave(`K:${value}`, "this key is not known, so its notes stay");
    const state = isBody ? this.voice : this.header;
    Object.assign(state, { key, moved: null, isMoved: false });
    const moved = isInside ? this.moved(state) : null;
    state.isMoved = moved !== null;
    return moved && !this.isOctaves ? valueOf(moved.key) : value;
  }

  /** The key of a voice after it moved: by as many letters as the first one, if that can be written, else to the fewest sharps or flats. The
   * first one goes to the tonic that is asked for. Null if the notes stay.
   * @type {(state: State) => { key: Key, steps: number } | null} */
  moved(state) {
    const { key } = state, { semitones, tonic } = this.by;
    if (!key || state.moved) return state.moved;
    const all = keysAbove(key, semitones), steps = this.isOctaves ? (semitones / 12) * 7 : this.steps;
    const asked = steps === null ? all.find((one) => one.key.tonic === tonic) : all.find((one) => one.steps === steps);
    state.moved = asked ?? all[0] ?? null;
    if (!state.moved) this.leave(`K:${valueOf(key)}`, "no key is that far from it");
    if (state.moved && !this.first) {
      this.first = key;
      this.steps = state.moved.steps;
      this.keys = [signatureOf(key), signatureOf(state.moved.key)];
    }
    return state.moved;
  }
}

/** The parts of a chord, at places of its text.
 * @type {(tokens: Token[], at: number) => Token[]} */
function partsOf(tokens, at) {
  const parts = [];
  for (let n = at + 1; n < tokens.length && tokens[n].depth; n += 1) parts.push({ ...tokens[n], from: tokens[n].from - tokens[at].from, to: tokens[n].to - tokens[at].from });
  return parts;
}
