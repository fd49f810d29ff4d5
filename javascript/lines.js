// Lines: what edits take, and columns in bytes and in UTF-16 units.

export const FEED = 10;
export const MOST_LINES = 1048576; // of a text
const MOST_BYTES = 65535; // of a line
const MARK = [0xef, 0xbb, 0xbf]; // may begin a book
const MOST_LINE = 2 ** 32 - 1; // of an argument of the module
// The letters of Windows-1252 for the bytes 128 to 159, which are controls in Latin-1. It leaves five out, which stay controls.
const WINDOWS_LETTERS =
  "\u20ac\u0081\u201a\u0192\u201e\u2026\u2020\u2021\u02c6\u2030\u0160\u2039\u0152\u008d\u017d\u008f\u0090\u2018\u2019\u201c\u201d\u2022\u2013\u2014\u02dc\u2122\u0161\u203a\u0153\u009d\u017e\u0178";
const encoder = new TextEncoder();
const utf8 = new TextDecoder("utf-8", { fatal: true, ignoreBOM: true });

/** The bytes of a text: a string is written in UTF-8. */
function bytesOfText(text) {
  if (typeof text === "string") return encoder.encode(text);
  if (text instanceof Uint8Array) return text;
  throw new TypeError("a text is a string or a Uint8Array");
}

/** The bytes of what an edit takes: a text, or an array of lines, of which none has a line feed. */
export function bytesOfLines(lines) {
  if (!Array.isArray(lines)) return bytesOfText(lines);
  const each = lines.map(bytesOfText);
  if (each.some((line) => line.includes(FEED))) throw new TypeError("a line of an array has a line feed: cut it there, or pass one text");
  return joined(each);
}

/** Lines as one text, each with its line feed. */
export function joined(lines) {
  const bytes = new Uint8Array(lines.reduce((sum, line) => sum + line.length + 1, 0)).fill(FEED);
  let at = 0;
  for (const line of lines) {
    bytes.set(line, at);
    at += line.length + 1;
  }
  return bytes;
}

/** The bytes of a book, without a byte order mark, and with a line feed after its last line. */
export function bytesOfBook(text) {
  const all = bytesOfText(text);
  const bytes = MARK.every((byte, n) => all[n] === byte) ? all.subarray(MARK.length) : all;
  if (bytes.length && bytes.at(-1) !== FEED) return joined([bytes]);
  return all === text ? bytes.slice() : bytes; // the bytes of a caller may change later
}

/** How many lines a text has that ends with a line feed. */
export function countLines(text) {
  let count = 0;
  for (let at = text.indexOf(FEED); at >= 0; at = text.indexOf(FEED, at + 1)) count += 1;
  return count;
}

/** Whether a line of a text has too many bytes; each ends with a line feed. */
export function hasLongLine(text) {
  for (let at = 0, end; at < text.length; at = end + 1) {
    end = text.indexOf(FEED, at);
    if (end - at > MOST_BYTES) return true;
  }
  return false;
}

/** A number of an item, as the module takes it; null if it takes none so large, or a negative one. */
export function numberFor(value) {
  if (!Number.isInteger(value)) throw new TypeError(`a number is an integer, not ${String(value)}`);
  return value >= 0 && value <= MOST_LINE ? value : null;
}

/** The text of a line: UTF-8, or Windows-1252 if it is not UTF-8. */
export function textOf(bytes) {
  return utf8Text(bytes) ?? Array.from(bytes, (byte) => WINDOWS_LETTERS[byte - 0x80] ?? String.fromCharCode(byte)).join("");
}

function utf8Text(bytes) {
  try {
    return utf8.decode(bytes);
  } catch {
    return null;
  }
}

/** The index of a column among `length` bytes or units. A column outside of the line is that of its nearer end. */
function indexOf(column, length) {
  if (!Number.isInteger(column)) throw new TypeError(`a column is an integer, not ${String(column)}`);
  return Math.min(Math.max(column - 1, 0), length);
}

/** The column in UTF-16 units, from 1, at which the character begins that has the byte of a column. */
export function utf16ColumnOf(bytes, column) {
  let at = indexOf(column, bytes.length);
  if (utf8Text(bytes) === null) return at + 1;
  while ((bytes[at] & 0xc0) === 0x80) at -= 1;
  return utf8.decode(bytes.subarray(0, at)).length + 1;
}

/** The columns in UTF-16 units of all columns in bytes of a line, the first of them at index 0. */
export function utf16ColumnsOf(bytes) {
  const columns = new Uint32Array(bytes.length + 1), isText = utf8Text(bytes) !== null;
  let here = 1, next = 1;
  for (let at = 0; at < bytes.length; at += 1) {
    if (!isText || (bytes[at] & 0xc0) !== 0x80) {
      here = next;
      next += isText && bytes[at] >= 0xf0 ? 2 : 1;
    }
    columns[at] = here;
  }
  columns[bytes.length] = next;
  return columns;
}

/** The column in bytes, from 1, at which the character begins that has the unit of a column. */
export function byteColumnOf(bytes, column) {
  const text = utf8Text(bytes);
  if (text === null) return indexOf(column, bytes.length) + 1;
  const at = indexOf(column, text.length), before = text.slice(0, at);
  const isHalf = /[\ud800-\udbff]$/.test(before) && at < text.length;
  return encoder.encode(isHalf ? before.slice(0, -1) : before).length + 1;
}
