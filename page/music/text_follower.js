// The text and the roll follow each other: what sounds is marked in the text, the caret's notes are marked in the roll, and a note in
// the roll leads to its place in the text. What has no known place is not marked.

import { Places } from "./note_places.js";
import { nameOf } from "./piano_roll_picture.js";
import { TuneWords } from "./tune_text.js";

/** @typedef {import("./midi_file.js").Score} Score
 * @typedef {import("./midi_file.js").Note} Note
 * The tune in the roll: its score, its number, and its lines first..last of the book.
 * @typedef {{ score: Score, number: number, first: number, last: number }} TuneInBook
 * @typedef {import("./tune_text.js").TextPlace} TextPlace
 * What the places were found of.
 * @typedef {{ score: Score | null, play: import("../link/tokens_and_plays.js").Play | null, lines: string[], first: number, own: string[], places: Places | null }} Known */

const PAUSE = 4000; // milliseconds for which the text stays where someone scrolls it
const SOON = 80; // milliseconds after which the caret's notes are marked
/** @type {Record<number, string>} */
const TIMES = { 2: "second", 3: "third" };
/** @type {Record<number, string>} */
const SIGNS = { "-2": "♭♭", "-1": "♭", 0: "", 1: "♯", 2: "♯♯" };

export class Follower {
  /** `tune` gives the tune in the roll, or null.
   * @param {import("../text/text.js").Text} text
   * @param {import("../editor/text_sheet.js").Sheet} sheet
   * @param {import("./piano_roll.js").Roll} roll
   * @param {import("../link/tokens_and_plays.js").Seen} seen
   * @param {() => TuneInBook | null} tune */
  constructor(text, sheet, roll, seen, tune) {
    this.text = text;
    this.sheet = sheet;
    this.roll = roll;
    this.seen = seen;
    this.tune = tune;
    /** @type {ReturnType<typeof setTimeout> | null} */
    this.timer = null;
    /** @type {Known} */
    this.known = { score: null, play: null, lines: [], first: 0, own: [], places: null };
    /** @type {TextPlace[]} */
    this.sounding = []; // places in the text: { line, from, to }
    /** @type {TextPlace[]} */
    this.picked = []; // where the caret's note is
    /** @type {(places: TextPlace[]) => void} */
    this.lit = () => {}; // hears of the places that sound
    /** @type {(notes: Note[]) => void} */
    this.noted = () => {}; // hears of the notes that sound, else of those at the caret
    this.layer = Object.assign(document.createElement("div"), { className: "sounding", ariaHidden: "true" });
    sheet.here.after(this.layer);
    sheet.layers.push(this);
    document.addEventListener("selectionchange", () => this.caretSoon());
    for (const name of ["keyup", "pointerup", "focus", "blur"]) sheet.area.addEventListener(name, () => this.caretSoon());
    this.free = -Infinity; // until when the text is not scrolled to what sounds
    const pause = () => (this.free = performance.now() + PAUSE);
    for (const name of ["wheel", "touchmove", "pointerdown"]) sheet.scroller.addEventListener(name, pause, { passive: true });
  }

  /** The places of the notes of the tune in the roll, null without one. They are found again when its text, play or file changes. */
  get places() {
    const tune = this.tune(), { known } = this, { lines } = this.text;
    if (!tune) return null;
    const { score, first, last } = tune, play = this.seen.playOf(tune.number), isSame = known.score === score && known.play === play && known.first === first;
    if (isSame && known.lines === lines) return known.places;
    const own = lines.slice(first, last);
    const isOld = isSame && own.length === known.own.length && own.every((line, n) => line === known.own[n]);
    const places = isOld ? known.places : new Places(play, new TuneWords(lines, first, last), score);
    this.known = { score, play, lines, first, own, places };
    return places;
  }

  /** The token of the text at a place, as the chord of a tone.
   * @type {(place: TextPlace) => TextPlace} */
  tokenAt({ line, from, to }) {
    const token = this.seen.tokensOf(line)?.find((one) => one.depth === 0 && one.from <= from && to <= one.to);
    return { line, from: token?.from ?? from, to: token?.to ?? to };
  }

  /** The name of a voice in the text, with a word before it if it is a number.
   * @type {(voice: number) => string} */
  voiceName(voice) {
    const name = this.places?.nameOf(voice) || String(voice + 1);
    return /^\d+$/.test(name) ? `Voice ${name}` : name;
  }

  /** Marks what sounds at a tick, or nothing.
   * @type {(tick: number | null) => void} */
  sound(tick) {
    const moments = tick === null ? [] : (this.places?.at(tick) ?? []), sounding = moments.map((moment) => this.tokenAt(moment));
    if (JSON.stringify(sounding) === JSON.stringify(this.sounding)) return;
    this.sounding = sounding;
    this.draw();
    this.reveal();
    this.lit(sounding);
    if (sounding.length) this.noted(moments.flatMap(({ tones }) => tones.flatMap(({ note }) => note ?? [])));
    else this.caretSoon();
  }

  /** Keeps in view what sounds, unless someone is at the text. */
  reveal() {
    const { sheet } = this, lines = this.sounding.map(({ line }) => line);
    if (!lines.length || document.activeElement === sheet.area || performance.now() < this.free) return;
    sheet.reveal(Math.max(...lines));
    sheet.reveal(Math.min(...lines));
    sheet.look();
    sheet.showMark(this.layer.querySelector(".note i"));
  }

  /** Marks lines and places in the text. */
  draw() {
    const { sheet } = this, rows = document.createDocumentFragment();
    const seen = (/** @type {TextPlace} */ { line }) => line >= sheet.first && line < sheet.last;
    for (const line of new Set(this.sounding.filter(seen).map((place) => place.line))) rows.append(this.row(line, "line"));
    for (const place of this.sounding.filter(seen)) rows.append(this.row(place.line, "note", place));
    if (document.activeElement !== sheet.area) for (const place of this.picked.filter(seen)) rows.append(this.row(place.line, "picked", place));
    this.layer.replaceChildren(rows);
  }

  /** A row over a line of the text. The text before the place, not to be seen, moves the mark there.
   * @param {number} line
   * @param {string} className
   * @param {TextPlace} [place] */
  row(line, className, place) {
    const row = Object.assign(document.createElement("div"), { className });
    const top = this.sheet.topInArea(line);
    row.style.top = `${top}px`;
    row.style.height = `${this.sheet.topInArea(line + 1) - top}px`;
    if (!place) return row;
    const words = this.text.lines[line] ?? "", mark = document.createElement("i");
    mark.textContent = words.slice(place.from, place.to);
    row.append(words.slice(0, place.from), mark);
    if (this.sheet.rows.width) row.append(words.slice(place.to)); // where a line wraps depends on what comes next
    return row;
  }

  /** The caret may have moved. */
  caretSoon() {
    this.timer ??= setTimeout(() => {
      this.timer = null;
      this.caret();
    }, SOON);
  }

  /** Marks the notes of the caret in the roll. */
  caret() {
    const { roll, places } = this, { line, column } = this.sheet.caret();
    const isSelected = JSON.stringify(this.sheet.selection().start) !== JSON.stringify(this.sheet.selection().end);
    const tokens = this.seen.tokensOf(line), moments = places && !isSelected ? places.under(line, column, tokens) : [];
    this.picked = moments.slice(0, 1).map((moment) => this.tokenAt(moment));
    const notes = places && moments.length ? places.notesUnder(line, column, tokens) : new Set();
    roll.point(notes);
    if (!this.sounding.length) this.noted([...notes]);
    this.draw();
  }

  /** What is at the caret, where it is played first: its tick and its notes. Begins the tune in a line without notes. Null if that is
   * not known, or something is selected.
   * @type {{ start: number, notes: Note[] } | null} */
  get touched() {
    const { places } = this, { line, column } = this.sheet.caret(), tokens = this.seen.tokensOf(line), tune = this.tune();
    const { start, end } = this.sheet.selection();
    if (!places || !tune || line < tune.first || line >= tune.last || start.line !== end.line || start.column !== end.column) return null;
    const moment = places.under(line, column, tokens)[0], notes = places.notesUnder(line, column, tokens);
    if (!moment) return places.inLine(line).length ? null : { start: 0, notes: [] };
    return { start: moment.start, notes: moment.tones.flatMap(({ note }) => (note && notes.has(note) ? note : [])) };
  }

  /** The tick at which the music at the caret begins, null if that is not known. */
  get tickOfCaret() {
    const { places } = this, { line, column } = this.sheet.caret(), tune = this.tune();
    if (!places || !tune || line < tune.first || line >= tune.last) return null;
    return places.tickFrom(line, column, this.seen.tokensOf(line));
  }

  /** The ticks of the lines that are selected, or of the caret's line; null if they are not known. */
  get rangeOfSelection() {
    const { places } = this, { start, end } = this.sheet.selection();
    if (!places) return null;
    const last = end.line > start.line && end.column === 0 ? end.line - 1 : end.line;
    return places.rangeOf(start.line, last);
  }

  /** The ticks of what is selected, null if nothing is, or they are not known. */
  get ticksOfSelection() {
    const { places } = this, { start, end } = this.sheet.selection();
    return places?.rangeBetween(start, end) ?? null;
  }

  /** Puts the caret at the place of a note: of the tone that sounds at a tick, if several are tied.
   * @type {(note: Note, tick: number) => void} */
  goTo(note, tick) {
    const tones = this.places?.tonesOf(note) ?? [];
    const found = tones.findLast(({ start }) => start <= tick) ?? tones[0];
    if (!found) return;
    const place = { line: found.entry.line, column: found.entry.from };
    this.sheet.select(place, place);
  }

  /** The name of a note, spelled as in the text if its place is known.
   * @type {(note: Note) => string} */
  noteName(note) {
    const { places } = this, tone = places?.tonesOf(note)[0], spelling = tone && places?.words.spelling(tone.entry, note.key);
    if (!spelling) return nameOf(note.key);
    const { letter, alteration } = spelling;
    return `${letter}${SIGNS[alteration]}${Math.floor((note.key - alteration) / 12) - 1}`;
  }

  /** What a note is: its name, its voice, its bar and beat.
   * @type {(note: Note) => string} */
  describe(note) {
    const { score, grid } = this.roll;
    if (!score || !grid) return this.noteName(note);
    const voice = score.voices > 1 ? `, ${this.voiceName(note.voice)}` : "";
    return `${this.noteName(note)}${voice}, ${momentName(grid.momentOf(note.start))}`;
  }
}

/** Where in the tune a moment is, in words.
 * @type {(moment: { bar: number, beat: number, pass: number }) => string} */
export function momentName({ bar, beat, pass }) {
  const again = pass > 1 ? `, ${TIMES[pass] ?? `${pass}th`} time` : "";
  return bar ? `bar ${bar}${again}, beat ${beat}` : `pickup${again}, beat ${beat}`;
}
