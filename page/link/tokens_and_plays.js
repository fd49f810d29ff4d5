// What the host finds in what is seen: the tokens of the lines in the window, and the play of the open tune. It comes with the answer
// to each edit, and is asked for when other lines or another tune are seen.
//
// The application has one `Seen`, which is `app.seen`. Whoever draws says what is seen, by `want`, and asks `tokensOf` and `playOf`, which
// answer at once by what is known. Whoever draws also adds a function to `hearers`, which is called when more is known.
//
// All lines and columns are those of the text of this window, counted from 0, columns in UTF-16 units, ends exclusive. While an edit has no
// answer yet, tokens and entries are at their places by what was typed: those of a changed line are kept as far as its ends are the same.

import { commonEnds } from "../text/line_edits.js";

/** The kinds of tokens are those of the JavaScript package, docs/javascript.md: "Note", "Rest", "BarRest", "Chord", "InlineField",
 * "BarLine", "Ending", "Tuplet", "BrokenRhythm", "Tie", "Dynamic", "Blank", "Quoted", "Decoration", "Grace", "Space", "NoEffect", "BadByte",
 * "Unclosed", "Comment", "NumberField", "TitleField", "KeyField", "OtherField", "Directive", "FreeText"; "Other" is a kind that is newer.
 * After a chord, of depth 0, come its parts, of depth 1. All others lie end to end.
 * @typedef {{ from: number, to: number, kind: string, depth: number }} Token */
/** A tone, a rest or a bar line that is played. `on` and `off` are ticks from the beginning of the tune, 480 a quarter note; `off` is its own
 * end, which a tie does not lengthen. `line` is -1 if its line was removed meanwhile. `key` and `velocity` are null for a silent tone, a
 * rest and a bar line. `joined` is whether a tie joins a tone with one before it: then the file has no note-on for it.
 * @typedef {object} Entry
 * @property {number} on
 * @property {number} off
 * @property {number} line
 * @property {number} from
 * @property {number} to
 * @property {"Note" | "Rest" | "Bar" | "Other"} kind
 * @property {number | null} key
 * @property {number | null} velocity
 * @property {boolean} joined */
/** What a number plays: its tracks in the order of its MIDI file. The first one is the conductor's and has no entries; the others are the
 * voices. The MIDI file has their names. The object is the same one until something in it is another.
 * @typedef {{ number: number, tracks: { entries: Entry[] }[] }} Play */
/** The lines of the window, `to` exclusive, and the number of the open tune, null without one.
 * @typedef {{ from: number, to: number, tune: number | null }} Want */

/** What the host answers: for each line the numbers of its tokens, four of each; and for each track the numbers of its entries, nine of each.
 * @typedef {{ from: number, to: number, tokens: number[][], tune: number | null, play: number[][] | null }} View
 * A line of the host's text that is known: its text and its tokens.
 * @typedef {{ text: string, tokens: Token[] }} Row
 * A line of a play as it was, and where it is now.
 * @typedef {{ text: string, line: number }} Origin
 * Lines start..stop became `count` others.
 * @typedef {{ start: number, stop: number, count: number }} Move */

export const KINDS = [
  "Other", "Note", "Rest", "BarRest", "Chord", "InlineField", "BarLine", "Ending", "Tuplet", "BrokenRhythm", "Tie", "Dynamic", "Blank", "Quoted",
  "Decoration", "Grace", "Space", "NoEffect", "BadByte", "Unclosed", "Comment", "NumberField", "TitleField", "KeyField", "OtherField", "Directive", "FreeText",
]; // of tokens, by their numbers
export const ENTRY_KINDS = /** @type {const} */ (["Other", "Note", "Rest", "Bar"]); // by their numbers
const TOKEN_SIZE = 4, ENTRY_SIZE = 9; // numbers
const LINE = 2; // the place of the line among those of an entry
export const NO_KEY = 128; // of an entry without a sound
export const JOINED = 1, TIED = 2; // bits of the ties of an entry
const MOST = 20_000; // lines of which the tokens are remembered
const NEAR = 30; // lines after an edit: as many as most windows show there
const REST = 300; // milliseconds without an edit

export class Seen {
  /** @param {import("../text/text.js").Text} text
   * @param {import("./host_link.js").Link} link
   * @param {import("./book_host.js").BookHost} server */
  constructor(text, link, server) {
    this.text = text;
    this.link = link;
    this.server = server;
    /** @type {Want} */
    this.wanted = { from: 0, to: 0, tune: null };
    /** @type {(() => void)[]} */
    this.hearers = []; // called when tokens or a play came
    this.isAsking = false;
    /** @type {ReturnType<typeof setTimeout> | undefined} */
    this.timer = undefined;
    this.version = -1; // of the host's text for which all of this is known:
    /** @type {Want} */
    this.told = this.wanted;
    /** @type {Map<number, Row>} */
    this.rows = new Map(); // by lines of the host's text
    /** @type {Map<string, Token[]>} */
    this.remembered = new Map(); // the tokens that a line had, by its text
    /** @type {{ number: number | null, tracks: number[][] | null, origins: Map<number, Origin> }} */
    this.play = { number: null, tracks: null, origins: new Map() }; // origins by the lines as they were
    /** @type {{ lines: string[], rows: Map<number, Row>, here: Map<number, Row> } | null} */
    this.placedRows = null;
    /** @type {{ lines: string[], tracks: number[][], key: string, play: Play } | null} */
    this.placedPlay = null;
    link.sees = (start, stop) => this.near(start, stop);
    link.viewed = (view, version) => this.learn(view, version);
  }

  /** Says what is seen. What is left out stays as it was: `want({ from, to })` and `want({ tune })` may come from two places.
   * @type {(what: Partial<Want>) => void} */
  want(what) {
    this.wanted = { ...this.wanted, ...what };
    this.look();
  }

  /** The tokens of a line, null if they are not known.
   * @type {(line: number) => Token[] | null} */
  tokensOf(line) {
    const text = this.text.lines[line], row = this.here.get(line);
    if (text === undefined) return null; // the text has fewer lines by now
    if (row?.text === text) return row.tokens;
    return this.remembered.get(text) ?? (row ? movedTokens(row, text) : null);
  }

  /** What a number plays: that of the tune that was wanted last; null if it has no file, or is not known.
   * @type {(number: number | null) => Play | null} */
  playOf(number) {
    const { placedPlay } = this, { tracks } = this.play, { lines } = this.text;
    if (number === null || number !== this.play.number || !tracks) return null;
    if (placedPlay?.lines === lines && placedPlay.tracks === tracks) return placedPlay.play;
    const places = this.placesOfPlay(), key = [...places.values()].map(({ line, text }) => `${line} ${text === lines[line]}`).join();
    const isSame = placedPlay !== null && placedPlay.tracks === tracks && placedPlay.key === key && !key.includes("false");
    const play = isSame ? placedPlay.play : { number, tracks: tracks.map((numbers) => ({ entries: entriesOf(numbers, places, lines) })) };
    this.placedPlay = { lines, tracks, key, play };
    return play;
  }

  /** Whether all that is wanted is known of the present text of the host. */
  get isCovered() {
    const { told, wanted } = this;
    return this.version === this.link.known.version && told.from <= wanted.from && wanted.to <= told.to && told.tune === wanted.tune;
  }

  /** Whether something that is wanted is not known of any text. */
  get isUrgent() {
    const { wanted, here } = this;
    for (let line = wanted.from; line < wanted.to; line += 1) if (!here.has(line)) return true;
    return wanted.tune !== this.play.number;
  }

  /** What the answer to an edit of lines has to bring: the lines that it may change in the window. An edit changes no line above it, but
   * in the file header. The others are asked for when nobody types.
   * @type {(start: number, stop: number) => Want} */
  near(start, stop) {
    const { from, to, tune } = this.wanted, first = Math.max(from, start);
    return { from: first, to: Math.max(first, Math.min(to, stop + NEAR)), tune };
  }

  /** The edits that the host does not have. */
  get unsent() {
    const { sent } = this.link, { pending } = this.text;
    return [...(sent ? [{ ...sent, count: sent.lines.length }] : []), ...(pending ? [pending] : [])];
  }

  /** The rows by the lines of this window's text. */
  get here() {
    const { rows, placedRows } = this, { lines } = this.text;
    if (placedRows?.lines === lines && placedRows.rows === rows) return placedRows.here;
    this.placedRows = { lines, rows, here: this.unsent.reduce(movedRows, rows) };
    return this.placedRows.here;
  }

  /** Where the lines of the play are in this window's text. */
  placesOfPlay() {
    return this.unsent.reduce(movedOrigins, this.play.origins);
  }

  /** Asks for what is wanted: soon if it is not known, and else when nobody types. */
  look() {
    clearTimeout(this.timer);
    this.timer = setTimeout(() => this.ask(), this.isUrgent ? 0 : REST);
  }

  async ask() {
    const { link, wanted } = this, { situation } = link;
    if (this.isAsking || situation.name !== "following" || link.awaited || !link.isSettled || this.isCovered) return;
    const { run, version } = link.known;
    this.isAsking = true;
    const answer = await this.server.ask("view", { run, version, sees: wanted }).catch(() => null); // a change that comes asks again
    this.isAsking = false;
    if (link.situation === situation && answer) this.learn(answer.view, version);
  }

  /** Learns what the host answered of its text of a version.
   * @type {(view: View, version: number) => void} */
  learn(view, version) {
    if (version !== this.link.known.version) return this.look();
    const { from, to, tune, tokens, play } = view, { lines } = this.link.texts, { wanted } = this;
    this.version = version;
    this.told = { from, to, tune };
    if (this.remembered.size > MOST) this.remembered.clear();
    this.rows = new Map([...this.rows].filter(([line]) => line >= wanted.from && line < wanted.to));
    for (let line = from; line < Math.min(to, lines.length); line += 1) this.rows.set(line, this.rowOf(lines[line], tokens[line - from] ?? []));
    const tracks = isSame(play, this.play.tracks) ? this.play.tracks : play;
    this.play = { number: tune, tracks, origins: originsOf(tracks ?? [], lines) };
    for (const hear of this.hearers) hear();
    this.look();
  }

  /** The host's text changed: what is known of it is at other lines.
   * @type {(edit: import("./finding_rows.js").Edit) => void} */
  change({ start, stop, lines }) {
    const move = { start, stop, count: lines.length };
    this.rows = movedRows(this.rows, move);
    this.play = { ...this.play, origins: movedOrigins(this.play.origins, move) };
    this.look();
  }

  /** A whole book came, of which nothing is known. */
  forget() {
    this.version = -1;
    this.rows = new Map();
    this.play = { number: null, tracks: null, origins: new Map() };
    this.look();
  }

  /** @type {(text: string, numbers: number[]) => Row} */
  rowOf(text, numbers) {
    const known = this.remembered.get(text), tokens = known && areTokens(known, numbers) ? known : tokensOf(numbers);
    if (tokens !== known) this.remembered.set(text, tokens);
    return { text, tokens };
  }
}

/** The rows after lines became others. A changed line keeps its row, whose text shows that it is another.
 * @type {(rows: Map<number, Row>, move: Move) => Map<number, Row>} */
function movedRows(rows, move) {
  /** @type {Map<number, Row>} */
  const now = new Map();
  for (const [line, row] of rows) {
    const place = movedLine(line, move);
    if (place >= 0) now.set(place, row);
  }
  return now;
}

/** @type {(origins: Map<number, Origin>, move: Move) => Map<number, Origin>} */
function movedOrigins(origins, move) {
  return new Map([...origins].map(([was, { text, line }]) => [was, { text, line: line < 0 ? line : movedLine(line, move) }]));
}

/** Where a line is after a move, -1 if it was removed.
 * @type {(line: number, move: Move) => number} */
function movedLine(line, { start, stop, count }) {
  if (line < start) return line;
  if (line >= stop) return line + count - (stop - start);
  return line - start < count ? line : -1;
}

/** The lines of a play, with their texts.
 * @type {(tracks: number[][], lines: string[]) => Map<number, Origin>} */
function originsOf(tracks, lines) {
  /** @type {Map<number, Origin>} */
  const origins = new Map();
  for (const numbers of tracks) {
    for (let at = LINE; at < numbers.length; at += ENTRY_SIZE) {
      const line = numbers[at];
      if (!origins.has(line)) origins.set(line, { text: lines[line] ?? "", line });
    }
  }
  return origins;
}

/** The tokens of a row of the host's answer.
 * @type {(numbers: number[]) => Token[]} */
export function tokensOf(numbers) {
  const tokens = [];
  for (let at = 0; at < numbers.length; at += TOKEN_SIZE) {
    tokens.push({ from: numbers[at], to: numbers[at + 1], kind: KINDS[numbers[at + 2]] ?? KINDS[0], depth: numbers[at + 3] });
  }
  return tokens;
}

/** Whether tokens are those of a row of the host's answer.
 * @type {(tokens: Token[], numbers: number[]) => boolean} */
function areTokens(tokens, numbers) {
  return TOKEN_SIZE * tokens.length === numbers.length && tokens.every(({ from, to, kind, depth }, n) => {
    const [start, end, number, inside] = numbers.slice(TOKEN_SIZE * n, TOKEN_SIZE * (n + 1));
    return from === start && to === end && kind === (KINDS[number] ?? KINDS[0]) && depth === inside;
  });
}

/** The tokens of a line that became another text: those of its begin and of its end.
 * @type {(row: Row, text: string) => Token[]} */
function movedTokens(row, text) {
  const move = columnsMove(row.text, text);
  return row.tokens.map((token) => ({ ...token, ...move(token) })).filter(({ from, to }) => from < to);
}

/** The entries of a track, at their places.
 * @type {(numbers: number[], places: Map<number, Origin>, lines: string[]) => Entry[]} */
function entriesOf(numbers, places, lines) {
  const moves = new Map([...places].map(([was, { text, line }]) => [was, text === lines[line] ? null : columnsMove(text, lines[line] ?? "")]));
  const entries = [];
  for (let at = 0; at < numbers.length; at += ENTRY_SIZE) {
    const [on, off, was, from, to, kind, key, velocity, ties] = numbers.slice(at, at + ENTRY_SIZE);
    const sound = key === NO_KEY ? { key: null, velocity: null } : { key, velocity };
    const place = moves.get(was)?.({ from, to }) ?? { from, to };
    entries.push({ on, off, line: places.get(was)?.line ?? -1, ...place, kind: ENTRY_KINDS[kind] ?? ENTRY_KINDS[0], ...sound, joined: (ties & JOINED) !== 0 });
  }
  return entries;
}

/** The entries of the tracks of the host's answer, at lines of its text.
 * @type {(tracks: number[][], lines: string[]) => Entry[][]} */
export function entriesIn(tracks, lines) {
  const origins = originsOf(tracks, lines);
  return tracks.map((numbers) => entriesOf(numbers, origins, lines));
}

/** How columns move if a text becomes another one: those of its begin stay, those of its end stay at the end.
 * @param {string} old
 * @param {string} now */
function columnsMove(old, now) {
  const { front, back } = commonEnds(old, now), end = old.length - back, more = now.length - old.length;
  return (/** @type {{ from: number, to: number }} */ { from, to }) => ({
    from: from >= end ? from + more : Math.min(from, front),
    to: to <= front ? to : to >= end ? to + more : front,
  });
}

/** @type {(one: number[][] | null, other: number[][] | null) => boolean} */
function isSame(one, other) {
  if (!one || !other || one.length !== other.length) return false;
  return one.every((track, n) => track.length === other[n].length && track.every((number, at) => number === other[n][at]));
}
