// What one click mends: the remedies that the sentences of faults and hints name.

import { freeNumber, nextNumber } from "../tunes/tune_numbers.js";
import { flatsBefore, germanNotes, plainBlanks, rewrittenTune, sharpsBefore, straightQuotes, withoutMarkup } from "./music_rewrites.js";
import { isOddSpace, visible } from "./unseen_signs.js";

/** Lines of the text, from `start` on, which become others, and the columns from..to of a line that become others; `words` are those of the button.
 * @typedef {{ words: string, start: number, taken: string[], put: string[], columns?: [from: number, to: number] }} Mend
 * What is known of a fault or a hint: its line, the text of that, its begin and its end there, its sentence if it is a hint, the lines
 * of the book, and the numbers of its tunes.
 * @typedef {{ line: number, text: string, start: number, end: number, hint: string, lines: string[], numbers: () => number[] }} Known */

/** @type {Record<string, string>} */
const CLOSING = { '"': '"', "!": "!", "{": "}", "[": "]" };
const isBlank = (/** @type {string | undefined} */ line) => line !== undefined && !line.trim();

/** By the name of a fault or a hint: what mends it, if anything does.
 * @type {Record<string, (known: Known) => Mend | null>} */
const MENDS = {
  Unclosed: (known) => closingQuotes(known) ?? closing(known),
  BadReference: (known) => renumbering(known),
  SameNumber: (known) => renumbering(known),
  BadByte: (known) => quotes(known) ?? tag(known) ?? sharp(known) ?? german(known) ?? decoration(known) ?? blanks(known) ?? deletion(known),
  BadBroken: (known) => tag(known),
  LostSharp: (known) => throughTune(known, sharpsBefore, "Write each sharp before its note"),
  LostFlat: (known) => throughTune(known, flatsBefore, "Write each flat before its note"),
  GermanNote: (known) => throughTune(known, germanNotes, "Write B for H"),
  Markup: (known) => throughTune(known, withoutMarkup, "Delete the markup"),
  BadKey: (known) => bagpipeKey(known),
  BagpipeKey: (known) => bagpipeKey(known),
  NoTune: (known) => (known.hint.includes("`X:1`") ? heading(known) : null),
  LooseTie: (known) => tie(known),
  MissingKey: (known) => key(known),
  BadProgram: (known) => (/^%%MIDI program +128\s*$/.test(known.text) ? written(known, "%%MIDI program 127") : null),
  LostProgram: (known) => directive(known),
  FreeMusic: (known) => (known.hint.includes("write a `%`") ? joining(known) : heading(known)),
};

/** What mends a fault, or does what a hint says; null if that is not one change.
 * @type {(fault: import("../link/finding_rows.js").FaultRow, lines: string[], numbers: () => number[]) => Mend | null} */
export function mendOf([line, start, end, name, hint = ""], lines, numbers) {
  const text = lines[line];
  return text === undefined ? null : (MENDS[name]?.({ line, text, start, end, hint, lines, numbers }) ?? null);
}

/** The change of a line into another one.
 * @type {(known: Known, put: string) => Mend} */
const written = (known, put) => replacing(known, 0, known.text.length, put);

/** The change of some characters of a line into others.
 * @type {(known: Known, from: number, to: number, put: string, words?: string) => Mend} */
function replacing({ line, text }, from, to, put, words = `Write ${put}`) {
  return { words, start: line, taken: [text], put: [text.slice(0, from) + put + text.slice(to)], columns: [from, to] };
}

/** The lines of the tune from a line on, written in another way.
 * @type {(known: Known, write: (text: string) => string | null, words: string) => Mend | null} */
function throughTune({ line, lines }, write, words) {
  const { taken, put } = rewrittenTune(lines, line, write);
  return taken.length ? { words, start: line, taken, put } : null;
}

/** The whole line written in another way, if it is one.
 * @type {(known: Known, put: string, words: string) => Mend | null} */
const rewritten = (known, put, words) => (put === known.text ? null : replacing(known, 0, known.text.length, put, words));

/** Straight quotes in the whole line for those of a word processor.
 * @type {(known: Known) => Mend | null} */
function quotes(known) {
  const isQuote = straightQuotes(known.text.slice(known.start, known.end)) !== known.text.slice(known.start, known.end);
  return isQuote ? rewritten(known, straightQuotes(known.text), "Write straight quotes") : null;
}

/** The same, if one of them closes what a straight one opens.
 * @type {(known: Known) => Mend | null} */
function closingQuotes(known) {
  const { text, start } = known, rest = text.slice(start + 1), straight = straightQuotes(rest);
  return text[start] === '"' && straight.includes('"') ? rewritten(known, text.slice(0, start + 1) + straight, "Write straight quotes") : null;
}

/** Blanks in the whole line for spaces that a keyboard does not have.
 * @type {(known: Known) => Mend | null} */
function blanks(known) {
  return isOddSpace(known.text.slice(known.start, known.end)) ? rewritten(known, plainBlanks(known.text), "Write a blank") : null;
}

/** The key with the sharps of the bagpipe.
 * @type {(known: Known) => Mend | null} */
function bagpipeKey(known) {
  const at = known.text.indexOf("K:", known.start), found = at < 0 ? null : /^K:[ \t]*H[Pp](?![A-Za-z])/.exec(known.text.slice(at));
  return found && replacing(known, at + found[0].length - 2, at + found[0].length, "D", "Write K:D");
}

/** Closes what begins at a character: after the word there, as in `"Em DEFD`.
 * @type {(known: Known) => Mend | null} */
function closing(known) {
  const { text, start } = known, sign = CLOSING[text[start]], word = /^[^\s|%"!{}[\]]+/.exec(text.slice(start + 1))?.[0];
  return sign && word ? replacing(known, start, start + 1 + word.length, text[start] + word + sign) : null;
}

/** Gives a tune the next number that is free.
 * @type {(known: Known) => Mend | null} */
function renumbering(known) {
  const found = /^X:[ \t]*([^ \t%\r]*)/.exec(known.text);
  const number = found && freeNumber(known.numbers(), Number(/^\d{1,9}$/.exec(found[1])?.[0]) || 0);
  return found && number ? replacing(known, found[0].length - found[1].length, found[0].length, String(number), `Write X:${number}`) : null;
}

/** A sharp before its note.
 * @type {(known: Known) => Mend | null} */
function sharp(known) {
  const { text, start } = known;
  if (text[start] !== "#") return null;
  if (/(?:^|[^\^_=])[A-Ga-g]$/.test(text.slice(0, start))) return replacing(known, start - 1, start + 1, `^${text[start - 1]}`);
  return /[A-Ga-g]/.test(text[start + 1] ?? "") ? replacing(known, start, start + 2, `^${text[start + 1]}`) : null;
}

/** The tune without markup, if a sign is in that: one sign less leaves the rest.
 * @type {(known: Known) => Mend | null} */
function tag(known) {
  const { text, start } = known, from = text.lastIndexOf("<", start), to = text.indexOf(">", start);
  const isInside = from >= 0 && to >= 0 && withoutMarkup(text.slice(from, to + 1)) === null;
  return isInside ? throughTune(known, withoutMarkup, "Delete the markup") : null;
}

/** The tune with B for H, if a sign is the length after an H.
 * @type {(known: Known) => Mend | null} */
function german(known) {
  return /\d/.test(known.text[known.start]) && /[Hh]$/.test(known.text.slice(0, known.start)) ? throughTune(known, germanNotes, "Write B for H") : null;
}

/** A decoration between exclamation marks.
 * @type {(known: Known) => Mend | null} */
function decoration(known) {
  const found = /^\+([A-Za-z.()<>]+)\+/.exec(known.text.slice(known.start));
  return found && replacing(known, known.start, known.start + found[0].length, `!${found[1]}!`);
}

/** The line without a sign. A `&` is not deleted: what follows it is a melody of its own. Nor is the length after a lost sharp.
 * @type {(known: Known) => Mend | null} */
function deletion(known) {
  const { text, start, end } = known, sign = text.slice(start, end);
  return sign.trim() && sign !== "&" && text[start - 1] !== "#" ? replacing(known, start, end, "", `Delete ${visible(sign)}`) : null;
}

/** A tie directly after its note.
 * @type {(known: Known) => Mend | null} */
function tie(known) {
  const found = /([A-Ga-g][,']*[\d/]*|\][\d/]*)[ \t]+$/.exec(known.text.slice(0, known.start));
  return found && replacing(known, found.index, known.start + 1, `${found[1]}-`);
}

/** A key after the other fields of the header.
 * @type {(known: Known) => Mend} */
function key({ line, lines }) {
  let at = line + 1;
  while (/^(?:[A-Za-z]:|%)/.test(lines[at] ?? "")) at += 1;
  return { words: "Write K:C", start: at, taken: [], put: ["K:C"] };
}

/** The line for a program that a hint names, if the line has no more.
 * @type {(known: Known) => Mend | null} */
function directive(known) {
  const found = /write `(%%MIDI program \d+)` from column 1/.exec(known.hint);
  return found && /^[ \t]*(?:%%|I:)/.test(known.text) ? written(known, found[1]) : null;
}

/** A `%` on the blank lines before music, so that they do not end its tune.
 * @type {(known: Known) => Mend | null} */
function joining({ line, lines }) {
  let stop = line;
  while (stop > 0 && !isBlank(lines[stop - 1])) stop -= 1;
  let start = stop;
  while (start > 0 && isBlank(lines[start - 1])) start -= 1;
  const taken = lines.slice(start, stop);
  return taken.length ? { words: "Write % on the blank line", start, taken, put: taken.map(() => "%") } : null;
}

/** A number before music, or before the fields above it.
 * @type {(known: Known) => Mend | null} */
function heading({ line, lines, numbers }) {
  let at = line;
  while (at > 0 && /^(?:[A-Za-z]:|%)/.test(lines[at - 1])) at -= 1;
  const number = nextNumber(numbers());
  return number ? { words: `Write X:${number}`, start: at, taken: [], put: [`X:${number}`] } : null;
}
