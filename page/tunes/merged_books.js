// A second book at the end of a book: its tunes, with numbers that are free, and with the fields of its file header.

import { windowsText } from "../text/windows_1252.js";
import { LARGEST } from "./tune_numbers.js";
import { withNumber } from "./tune_order.js";

/** @typedef {import("../text/line_edits.js").Replacement} Replacement
 * @typedef {{ edit: Replacement, tunes: number, renumbered: number }} Merge */

const OF_HEADER = /^(?:[A-Za-z]:|%%)/;

/** The lines of a file.
 * @type {(bytes: Uint8Array) => string[]} */
export function linesOfFile(bytes) {
  return textOf(bytes).replace(/^\ufeff/, "").split(/\r?\n/);
}

/** @type {(bytes: Uint8Array) => string} */
function textOf(bytes) {
  try {
    return new TextDecoder("utf-8", { fatal: true, ignoreBOM: true }).decode(bytes);
  } catch {
    return windowsText(bytes);
  }
}

/** The lines of a tune with the title of a name of a file.
 * @type {(lines: string[], name: string) => string[]} */
export function titled(lines, name) {
  const title = name.replace(/\.[^.]*$/, "").replace(/[\0-\x1f]/g, " ").trim(), at = lines.findIndex((line) => line.startsWith("T:"));
  return title && at >= 0 ? lines.with(at, `T:${title}`) : lines;
}

/** The edit that puts the tunes of other lines at the end of a book, whose tunes have some numbers; null if those lines have no tune, or
 * no number is left.
 * @type {(lines: string[], numbers: number[], others: string[]) => Merge | null} */
export function merged(lines, numbers, others) {
  const first = others.findIndex((line) => line.startsWith("X:"));
  if (first < 0) return null;
  const header = others.slice(0, first).filter((line) => OF_HEADER.test(line)), known = new Set(numbers);
  let largest = [...numbers, ...others.map(numberOf)].reduce((most, one) => Math.max(most, one), 0), tunes = 0, renumbered = 0;
  const put = others.slice(first).flatMap((line) => {
    if (!line.startsWith("X:")) return [line];
    const own = numberOf(line), isFree = own > 0 && !known.has(own), number = isFree ? own : (largest += 1);
    known.add(number);
    tunes += 1;
    renumbered += Number(!isFree);
    return [withNumber(line, number), ...header];
  });
  return largest > LARGEST ? null : { edit: atEnd(lines, put), tunes, renumbered };
}

/** The number of a line `X:`; 0 for one without, and for other lines.
 * @type {(line: string) => number} */
const numberOf = (line) => Number(/^X:[ \t]*(\d{1,9})/.exec(line)?.[1] ?? 0);

/** The edit that puts lines at the end of a text, after a blank line.
 * @type {(lines: string[], put: string[]) => Replacement} */
function atEnd(lines, put) {
  let end = lines.length;
  while (end > 0 && !lines[end - 1].trim()) end -= 1;
  const last = put[put.length - 1] === "" ? [] : [""];
  return { start: end, taken: lines.slice(end), put: [...(end ? [""] : []), ...put, ...last] };
}
