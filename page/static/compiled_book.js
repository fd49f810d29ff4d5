// A text of any kind in a session of the compiler. Lines that the session would refuse are comments there, and faults here.

import { WorkerSession } from "../abc2midi-live/worker.js";
import { ENTRY_KINDS, JOINED, KINDS, NO_KEY, TIED } from "../link/tokens_and_plays.js";
import { difference } from "../text/line_edits.js";
import { bytesOf } from "./book_text.js";
import { BookTunes } from "./book_tunes.js";
import { spanOf } from "./fault_spans.js";
import { MarkedLines } from "./marked_lines.js";

/** @typedef {import("./book_text.js").Line} Line
 * @typedef {import("./book_text.js").BookText} BookText
 * @typedef {import("../link/finding_rows.js").FaultRow} FaultRow
 * @typedef {import("../link/finding_rows.js").TuneRow} TuneRow
 * What the compiler finds in a text.
 * @typedef {{ faults: FaultRow[], tunes: TuneRow[] }} Rows
 * @typedef {import("../abc2midi-live/index.js").Report} Report
 * @typedef {import("../abc2midi-live/index.js").Entry} Entry */

const MOST_LINES = 1048576, MOST_BYTES = 65535; // of a text, of a line
const MOST_BYTES_OF_A_UNIT = 3;
const LEFT_OUT = "%"; // instead of a longer line: a comment has no effect
const MOST_SEEN = 1000; // lines of a window
const MOST_SPANS = 100000; // that are known

/** Whether a line has too many bytes.
 * @type {(line: Line) => boolean} */
function isTooLong(line) {
  return line.length * MOST_BYTES_OF_A_UNIT > MOST_BYTES && bytesOf(line).length > MOST_BYTES;
}

/** How many lines count: an empty one at the end does not.
 * @type {(text: BookText) => number} */
function countLines({ lines }) {
  return lines.length - Number(lines.at(-1)?.length === 0);
}

export class CompiledBook {
  /** `start` starts a session.
   * @param {() => Promise<WorkerSession>} start */
  constructor(start = () => WorkerSession.open()) {
    this.start = start;
    /** @type {WorkerSession | null} */
    this.session = null;
    /** @type {Line[]} */
    this.lines = []; // that the session has, but for those that are too long
    this.tunes = new BookTunes();
    this.long = new MarkedLines(isTooLong);
    /** @type {Map<string, [start: number, end: number]>} */
    this.spans = new Map(); // of faults, by their names, places and lines
  }

  /** Makes a text that of the session: what it changed. A session that fails is started again, once.
   * @type {(text: BookText) => Promise<Report>} */
  async become(text) {
    const lines = text.lines.slice(0, Math.min(countLines(text), MOST_LINES));
    try {
      return await this.edit(lines);
    } catch (error) {
      if (["OutOfMemory", "BadRange", "BadLine", "TooLarge"].includes(/** @type {Error} */ (error).name)) throw error;
      await this.close();
      return this.edit(lines);
    }
  }

  /** @type {(lines: Line[]) => Promise<Report>} */
  async edit(lines) {
    const session = (this.session ??= await this.start());
    const edit = difference(/** @type {string[]} */ (this.lines), /** @type {string[]} */ (lines));
    if (!edit) return { written: [], removed: [] };
    const { start, stop } = edit, put = /** @type {Line[]} */ (edit.put).map((line) => (isTooLong(line) ? LEFT_OUT : line));
    const report = await (put.length === 0 ? session.delete(start + 1, stop) : start === stop ? session.insert(start + 1, put) : session.replace(start + 1, stop, put));
    this.tunes.follow(start, stop, put);
    this.long.follow(start, stop, edit.put);
    this.lines = lines;
    return report;
  }

  /** Ends the session.
   * @type {() => Promise<void>} */
  async close() {
    const { session } = this;
    this.session = null;
    this.lines = [];
    this.tunes = new BookTunes();
    this.long = new MarkedLines(isTooLong);
    await session?.close();
  }

  /** What the session finds in its text, which is given.
   * @type {(text: BookText) => Promise<Rows>} */
  async rows(text) {
    const session = (this.session ??= await this.start());
    const [faults] = await Promise.all([session.faults, this.tunes.read(session)]);
    const long = this.long.places.map((line) => ({ line, at: MOST_BYTES, name: "BadLine" }));
    const large = countLines(text) > MOST_LINES ? [{ line: MOST_LINES, at: 0, name: "TooLarge" }] : [];
    const found = faults.filter((fault) => !this.isInside(fault)).map(({ line, utf16Column, name }) => ({ line: line - 1, at: utf16Column - 1, name }));
    const all = [...long, ...large, ...found].sort((one, other) => one.line - other.line || one.at - other.at);
    const spans = await Promise.all(all.map((fault) => this.span(text.shown(text.lines[fault.line]), fault)));
    const rows = all.map(({ line, name }, n) => /** @type {FaultRow} */ ([line, ...spans[n], name]));
    return { faults: rows, tunes: this.tunes.rows(faults) };
  }

  /** The begin and the end of a fault in its line, as it is shown.
   * @type {(shown: string, fault: { line: number, at: number, name: string }) => Promise<[start: number, end: number]>} */
  async span(shown, { line, at, name }) {
    const start = Math.min(at, shown.length), key = `${name} ${start} ${shown}`, known = this.spans.get(key);
    if (known) return known;
    const span = spanOf(shown, start, name, await this.tokens(line));
    if (this.spans.size === MOST_SPANS) this.spans.clear();
    this.spans.set(key, span);
    return span;
  }

  /** Whether a fault is at a byte of a letter that does not begin it: `BadByte` is at each byte of a letter.
   * @type {(fault: { line: number, column: number, name: string }) => boolean} */
  isInside({ line, column, name }) {
    const content = this.lines[line - 1];
    return name === "BadByte" && typeof content === "string" && (bytesOf(content)[column - 1] & 0xc0) === 0x80;
  }

  /** What is seen of the session's text: the tokens of lines, and the play of a number, as rows of numbers.
   * @type {(wanted: import("../link/tokens_and_plays.js").Want) => Promise<import("../link/tokens_and_plays.js").View>} */
  async view({ from, to, tune }) {
    const count = Math.max(0, Math.min(to, from + MOST_SEEN, this.lines.length) - from);
    const tokens = Promise.all(Array.from({ length: count }, (_, n) => this.tokens(from + n)));
    return { from, to, tokens: await tokens, tune, play: tune === null ? null : await this.play(tune) };
  }

  /** The numbers of the tokens of a line. A line that is left out has none.
   * @type {(line: number) => Promise<number[]>} */
  async tokens(line) {
    if (!this.session || line >= this.lines.length || isTooLong(this.lines[line])) return [];
    const tokens = await this.session.tokens(line + 1);
    return tokens.flatMap(({ utf16From, utf16To, kind, depth }) => [utf16From - 1, utf16To - 1, KINDS.indexOf(kind), depth]);
  }

  /** The numbers of the entries of each track of a number; null if it has no file, or plays too much.
   * @type {(number: number) => Promise<number[][] | null>} */
  async play(number) {
    const tracks = await this.session?.play(number).catch((error) => {
      if (error.name !== "PlayTooLong") throw error;
      return null;
    });
    return tracks?.map((entries) => entries.flatMap(numbersOf)) ?? null;
  }

  /** The bytes of the file of a number, or null.
   * @type {(number: number) => Promise<Uint8Array | null>} */
  async midi(number) {
    return this.session ? this.session.output(number) : null;
  }
}

/** The numbers of an entry.
 * @type {(entry: Entry) => number[]} */
function numbersOf({ on, off, line, utf16From, utf16To, kind, key, velocity, joined, tied }) {
  return [on, off, line - 1, utf16From - 1, utf16To - 1, ENTRY_KINDS.indexOf(kind), key ?? NO_KEY, velocity ?? 0, (joined ? JOINED : 0) + (tied ? TIED : 0)];
}
