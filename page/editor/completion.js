// What may be written at a place: fields, their values, decorations. The words are in completion.json, which the language server reads too.

import { placeOf } from "../link/finding_rows.js";
import { BLANK } from "../text/blank_line.js";
import { DIRECTIVE, instrumentsLike, instrumentsOf } from "../tunes/instruments.js";
import { nextNumber } from "../tunes/tune_numbers.js";

/** The words by what they are, each with its meaning.
 * @typedef {{ header: Record<string, string>, body: Record<string, string>, values: Record<string, Record<string, string>>, decorations: Record<string, string> } & import("../tunes/instruments.js").Table} Words
 * Where something is written: the line up to there, whether it is in a header, the next free number if a tune may begin there, and the
 * voices of the tune.
 * @typedef {{ before: string, isInHeader: boolean, number: number | null, voices: string[] }} Situation
 * What may be written: its text, what it means, after which column of the line it replaces what is there, and whether it need not begin
 * with that.
 * @typedef {{ text: string, meaning: string, start: number, isFound?: boolean }} Item */

const FIELD_BEGUN = /^(?:[A-Za-z]?|%[%A-Za-z -]*)$/;
const VALUE_BEGUN = /^(.*\[)?([KMLQV]):[ \t]*([^\]]*)$/;
const MARK_BEGUN = /^(?:[^!]*![^!]*!)*[^!]*(![A-Za-z.]*)$/; // after an even number of exclamation marks
const FIELD_LINE = /^(?:[A-Za-z+]:|%)/;
const HEADER_LINE = /^(?:(?!K:)[A-Za-z+]:|%)/;

/** What may be written somewhere.
 * @type {(words: Words, where: Situation) => Item[]} */
export function completions(words, { before, isInHeader, number, voices }) {
  const items = (/** @type {Record<string, string>} */ found, /** @type {number} */ start) => Object.entries(found).map(([text, meaning]) => ({ text, meaning, start }));
  const value = VALUE_BEGUN.exec(before);
  if (value) {
    const found = value[2] === "V" ? Object.fromEntries(voices.map((name) => [name, "voice"])) : words.values[value[2]];
    return items(found, before.length - value[3].length);
  }
  if (before.startsWith(DIRECTIVE)) return programs(words, before);
  const mark = !isInHeader && !FIELD_LINE.test(before) && MARK_BEGUN.exec(before);
  if (mark) {
    const found = Object.fromEntries(Object.entries(words.decorations).map(([word, meaning]) => [`!${word}!`, meaning]));
    return items(found, before.length - mark[1].length).filter(({ text }) => text.startsWith(mark[1]));
  }
  if (!FIELD_BEGUN.test(before)) return [];
  const tune = number === null ? {} : { [`X:${number}`]: "a tune of this number" };
  return items({ ...(isInHeader ? words.header : words.body), ...tune }, 0).filter(({ text }) => text.startsWith(before));
}

/** The programs whose number begins with what is written, or whose instrument has it in its names.
 * @type {(words: Words, before: string) => Item[]} */
function programs(words, before) {
  const found = instrumentsLike(instrumentsOf(words), before.slice(DIRECTIVE.length));
  return found.map(({ program, name }) => ({ text: String(program), meaning: name, start: DIRECTIVE.length, isFound: true }));
}

/** Those items that begin with what is written, the exact one first; none if that is the only one, since nothing is left to write.
 * @type {(items: Item[], before: string) => Item[]} */
export function narrowed(items, before) {
  const those = items.filter(({ text, start, isFound }) => isFound || text.toLowerCase().startsWith(before.slice(start).toLowerCase()));
  const isExact = (/** @type {Item} */ { text, start }) => text === before.slice(start), exact = those.filter(isExact);
  return exact.length === those.length ? [] : [...exact, ...those.filter((item) => !isExact(item))];
}

/** Where a place of a book is, of which these are the rows of the tunes.
 * @type {(lines: string[], rows: import("../link/finding_rows.js").TuneRow[], place: import("../text/selection.js").Place) => Situation} */
export function situationOf(lines, rows, { line, column }) {
  const start = rows[placeOf(rows, line + 1) - 1]?.[0] ?? line, above = lines.slice(start, line), begins = rows[placeOf(rows, line)]?.[0] === line;
  const isInTune = (start < line || begins) && !above.some((text) => BLANK.test(text));
  const isInHeader = !isInTune || above.every((text) => HEADER_LINE.test(text));
  const names = above.flatMap((text) => /^V:[ \t]*([^ \t%]+)/.exec(text)?.[1] ?? []);
  return { before: lines[line].slice(0, column), isInHeader, number: isInTune ? null : nextNumber(rows.map(([, number]) => number)), voices: [...new Set(names)] };
}
