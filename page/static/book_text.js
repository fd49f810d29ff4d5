// The text of a tune book: bytes in a file, lines in the page. A line that nobody edits keeps its bytes.

import { commonEnds, replaced } from "../text/line_edits.js";
import { windowsBytes, windowsText } from "../text/windows_1252.js";

/** A line of the file: a string if its bytes are UTF-8, else the bytes.
 * @typedef {string | Uint8Array} Line
 * Lines start..stop became others.
 * @typedef {{ start: number, stop: number, lines: Line[] }} LineEdit */

const MARK = [0xef, 0xbb, 0xbf];
const CONTROL = /[\0-\x08\x0b-\x1f]/g; // but for tabs and line feeds: halves of pairs show them, and no text has halves
const HALF = /[\udc00-\udc08\udc0b-\udc1f\udc80-\udcff]/gu;
const encoder = new TextEncoder();
const decoder = new TextDecoder("utf-8", { fatal: true, ignoreBOM: true });

/** The text of bytes, or null if they are not UTF-8.
 * @type {(bytes: Uint8Array) => string | null} */
function utf8(bytes) {
  try {
    return decoder.decode(bytes);
  } catch {
    return null;
  }
}

/** How many lines are not UTF-8.
 * @type {(lines: Line[]) => number} */
function oddLines(lines) {
  return lines.reduce((sum, line) => sum + Number(typeof line !== "string"), 0);
}

/** The bytes of a line.
 * @type {(line: Line) => Uint8Array} */
export function bytesOf(line) {
  return typeof line === "string" ? encoder.encode(line) : line;
}

/** The lines of bytes.
 * @type {(bytes: Uint8Array) => Line[]} */
function linesOf(bytes) {
  const text = utf8(bytes);
  if (text !== null) return text.split("\n");
  /** @type {Line[]} */
  const lines = [];
  for (let from = 0, end; from <= bytes.length; from = end + 1) {
    end = bytes.indexOf(10, from);
    if (end < 0) end = bytes.length;
    const line = bytes.slice(from, end);
    lines.push(utf8(line) ?? line);
  }
  return lines;
}

export class BookText {
  /** `returns` is whether the lines end in carriage returns. The last line is empty if the text ends with a line feed. `odd` is how many lines
   * are not UTF-8.
   * @param {boolean} mark
   * @param {Line[]} lines
   * @param {boolean} returns */
  constructor(mark, lines, returns, odd = oddLines(lines)) {
    this.mark = mark;
    this.lines = lines;
    this.returns = returns;
    this.odd = odd;
    /** @type {Uint8Array | null} */
    this.known = null; // its bytes, if they were asked for
  }

  /** The text of a file.
   * @type {(bytes: Uint8Array) => BookText} */
  static of(bytes) {
    const mark = MARK.every((byte, n) => bytes[n] === byte), lines = linesOf(mark ? bytes.subarray(MARK.length) : bytes);
    return new BookText(mark, lines, lines.length > 1 && bytesOf(lines[0]).at(-1) === 13);
  }

  /** The bytes of the file: those of a long book are made once. */
  get bytes() {
    return (this.known ??= this.encoded());
  }

  /** @type {() => Uint8Array} */
  encoded() {
    const mark = this.mark ? "\ufeff" : "";
    if (!this.odd) return encoder.encode(mark + this.lines.join("\n"));
    const parts = this.lines.map(bytesOf), front = encoder.encode(mark);
    const bytes = new Uint8Array(parts.reduce((sum, part) => sum + part.length + 1, front.length - 1)).fill(10);
    bytes.set(front);
    parts.reduce((at, part) => (bytes.set(part, at), at + part.length + 1), front.length);
    return bytes;
  }

  /** The name of the encoding that the lines have. */
  get letters() {
    if (!this.odd) return "utf-8";
    return this.lines.some((line) => typeof line === "string" && /[^\0-\x7f]/.test(line)) ? "both" : "windows-1252";
  }

  /** A line as the page shows it: each control is a half of a pair.
   * @type {(line: Line) => string} */
  shown(line) {
    const text = typeof line === "string" ? line : windowsText(line);
    const content = this.returns && text.endsWith("\r") ? text.slice(0, -1) : text;
    return content.replace(CONTROL, (control) => String.fromCharCode(0xdc00 + control.charCodeAt(0)));
  }

  /** All lines as the page shows them. */
  get shownLines() {
    return this.lines.map((line) => this.shown(line));
  }

  /** The edit that makes some lines those that the page shows. One that was there keeps its bytes. New ones are Windows-1252 if
   * the book is, or if one of the replaced lines is.
   * @type {(start: number, stop: number, lines: string[]) => LineEdit} */
  editOf(start, stop, lines) {
    const old = this.lines.slice(start, stop), shown = old.map((line) => this.shown(line));
    const content = old.map((line) => this.content(line)), known = new Map(shown.map((line, n) => [line, content[n]]));
    const isWindows = old.some((line) => typeof line !== "string") || (this.odd > 0 && this.letters === "windows-1252");
    const put = lines.map((line) => known.get(line) ?? lineOf(line, isWindows));
    const { front, back } = commonEnds(shown, lines);
    for (let n = 0; n < front; n += 1) put[n] = content[n];
    for (let n = 1; n <= back; n += 1) put[put.length - n] = content[content.length - n];
    return this.withEnds({ start, stop, lines: put });
  }

  /** A line without the carriage return that all lines have.
   * @type {(line: Line) => Line} */
  content(line) {
    if (!this.returns || bytesOf(line).at(-1) !== 13) return line;
    return line.slice(0, -1);
  }

  /** An edit with the carriage returns of the book. The last line has none. So the one before the edit changes if it was the
   * last one, or becomes it.
   * @type {(edit: LineEdit) => LineEdit} */
  withEnds({ start, stop, lines }) {
    if (!this.returns) return { start, stop, lines };
    const atEnd = stop === this.lines.length, joins = atEnd && start > 0 && (!lines.length || start === this.lines.length);
    const all = joins ? [this.content(this.lines[start - 1]), ...lines] : lines;
    const ended = all.map((line, n) => (atEnd && n === all.length - 1 ? line : withReturn(line)));
    return { start: joins ? start - 1 : start, stop, lines: ended };
  }

  /** The text after an edit.
   * @type {(edit: LineEdit) => BookText} */
  edited({ start, stop, lines }) {
    const odd = this.odd - oddLines(this.lines.slice(start, stop)) + oddLines(lines);
    return new BookText(this.mark, replaced(this.lines, start, stop, lines), this.returns, odd);
  }

  /** The same letters in UTF-8. */
  get inUtf8() {
    return new BookText(this.mark, this.lines.map((line) => (typeof line === "string" ? line : windowsText(line))), this.returns);
  }

  /** Whether it has the bytes of another text. A line at a place is compared first, as the one that an edit made: the others may be all of a
   * long book.
   * @type {(other: BookText, place?: number) => boolean} */
  isSame(other, place = 0) {
    const { lines, mark } = this;
    if (mark !== other.mark || lines.length !== other.lines.length) return false;
    if (place < lines.length && !isSame(lines[place], other.lines[place])) return false;
    return lines.every((line, n) => isSame(line, other.lines[n]));
  }
}

/** @type {(line: Line, other: Line) => boolean} */
function isSame(line, other) {
  if (typeof line === "string" || typeof other === "string" || line === other) return line === other;
  return line.length === other.length && line.every((byte, n) => byte === other[n]);
}

/** @type {(line: Line) => Line} */
function withReturn(line) {
  return typeof line === "string" ? `${line}\r` : Uint8Array.from([...line, 13]);
}

/** The line of the file for one that the page shows: UTF-8, or Windows-1252 if it is to be, and is then read as the same letters.
 * @type {(shown: string, isWindows: boolean) => Line} */
function lineOf(shown, isWindows) {
  const plain = shown.replace(HALF, (half) => String.fromCharCode(half.charCodeAt(0) - 0xdc00));
  const bytes = isWindows && /[^\0-\x7f]/.test(plain) ? windowsBytes(plain) : null;
  return bytes && utf8(bytes) === null ? bytes : plain.replace(/\p{Surrogate}/gu, "?");
}
