// The text of the book as a file of the browser.

import { windowsBytes } from "./windows_1252.js";

const HALVES = /([\udc00-\udc08\udc0b-\udc1f]+)/u; // each shows a control, as in book_text.py
const CONTROLS = /[\udc00-\udc1f]/g;

/** The bytes that a save writes for these lines, as far as a window knows: `mark` is whether a byte order mark precedes them,
 * `returns` whether they end in carriage returns, `letters` how they are encoded. If that differs from line to line, it is UTF-8.
 * @type {(lines: string[], state: { mark?: boolean, returns?: boolean, letters?: string }) => Blob} */
export function blobOf(lines, { mark, returns, letters }) {
  const end = returns ? "\r\n" : "\n";
  const parts = letters === "windows-1252" ? lines.flatMap((line, n) => windowsParts(n ? end + line : line)) : partsOf(lines.join(end));
  return new Blob([mark ? "\ufeff" : "", ...parts], { type: "text/vnd.abc" });
}

/** The parts of a file with a line in Windows-1252, or in UTF-8 if that lacks a letter.
 * @type {(line: string) => (string | Uint8Array)[]} */
function windowsParts(line) {
  const bytes = windowsBytes(line.replace(CONTROLS, controlOf));
  return bytes ? [bytes] : partsOf(line);
}

/** The parts of a file: texts, which will be UTF-8, and bytes.
 * @type {(text: string) => (string | Uint8Array)[]} */
function partsOf(text) {
  return text.split(HALVES).map((part, n) => (n % 2 ? Uint8Array.from(part, (half) => half.charCodeAt(0) & 255) : part));
}

/** @type {(half: string) => string} */
const controlOf = (half) => String.fromCharCode(half.charCodeAt(0) & 255);
