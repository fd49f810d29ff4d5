// The instruments of General MIDI, by the words of completion.json, and the directive that chooses one for a tune or from a line on.

import { BLANK } from "../text/blank_line.js";

/** An instrument: its program, counted from 0, its name, its family, and other words for it.
 * @typedef {{ program: number, name: string, family: string, others: string }} Instrument
 * The table: the names of each family, eight in order, and other words by the program.
 * @typedef {{ instruments: Record<string, string[]>, instrument_words: Record<string, string> }} Table */

export const DIRECTIVE = "%%MIDI program ";
const PROGRAM = /^%%MIDI[ ]+program[ ]+\d{1,9}[ \t]*(?:%.*)?$/;

/** The instruments of a table, in the order of their programs.
 * @type {(table: Table) => Instrument[]} */
export function instrumentsOf({ instruments, instrument_words: others }) {
  const all = Object.entries(instruments).flatMap(([family, names]) => names.map((name) => ({ name, family })));
  return all.map((one, program) => ({ ...one, program, others: others[program] ?? "" }));
}

/** Those instruments that have what is asked for: a number that begins so, or each word somewhere in the name, the family or the other
 * words.
 * @type {(all: Instrument[], asked: string) => Instrument[]} */
export function instrumentsLike(all, asked) {
  const words = asked.toLowerCase().split(/[ \t]+/).filter(Boolean);
  return all.filter(({ program, name, family, others }) => {
    const own = `${name} ${family} ${others}`.toLowerCase();
    return words.every((word) => (/^\d+$/.test(word) ? String(program).startsWith(word) : own.includes(word)));
  });
}

/** The edit that gives a tune of the lines first..last a program: in its header for all voices, or from a line of its body on for the
 * voice there. A directive that is at that place becomes the new one.
 * @type {(lines: string[], first: number, last: number, program: number, from: number | null) => import("../text/line_edits.js").Replacement} */
export function programEdit(lines, first, last, program, from) {
  const blank = lines.findIndex((text, line) => line > first && line < last && BLANK.test(text)), end = blank < 0 ? last : blank;
  const key = lines.findIndex((text, line) => line > first && line < end && text.startsWith("K:"));
  const put = [`${DIRECTIVE}${program}`], inBody = from !== null && key >= 0 && from > key && from < end;
  const places = inBody ? [from, from - 1] : Array.from({ length: Math.max(0, key - first - 1) }, (_, n) => key - 1 - n);
  const old = places.find((line) => PROGRAM.test(lines[line]));
  if (old !== undefined) return { start: old, taken: [lines[old]], put };
  return { start: inBody ? from : key < 0 ? first + 1 : key, taken: [], put };
}
