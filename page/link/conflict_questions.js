// The words of questions about texts that differ: each names its situation, and says what each answer does.

import { keysOf } from "../base/shortcut_names.js";
import { difference } from "../text/line_edits.js";

const MOST = 40; // characters of a line that are quoted
const BACK = `${keysOf("Ctrl-Z")} takes that back`;

/** Where some lines differ from others first, and what is there.
 * @type {(lines: string[], others: string[]) => string} */
export function firstDifference(lines, others) {
  const start = difference(others, lines)?.start ?? 0, line = (lines[start] ?? "").trim();
  const shown = line.length > MOST ? `${line.slice(0, MOST)}…` : line;
  return `from line ${start + 1} on${shown ? `, “${shown}”` : ""}`;
}

/** Another program changed the file, and the text has changes too.
 * @type {(name: string) => string} */
export function changedOnDisk(name) {
  return (
    `Another program changed ${name} on the disk, and this text has changes that are not saved. ` +
    `Saving replaces what that program wrote. Loading replaces this text, and ${BACK}.`
  );
}

/** The file is not there.
 * @type {(name: string) => string} */
export function goneFromDisk(name) {
  return `${name} is not on the disk any more. Saving this text makes it again.`;
}

/** A window's own text and the book both changed; `when` is when the window noticed.
 * @type {(name: string, when: string, mine: string[], book: string[]) => string} */
export function bothChanged(name, when, mine, book) {
  return (
    `While the server was away ${name || "the book"} changed, and so did your text of ${when}: it differs ${firstDifference(mine, book)}. ` +
    `The book is shown. Keeping your text replaces it, and ${BACK}. Taking the book drops your text.`
  );
}

/** The browser kept text that the book does not have.
 * @type {(when: string, text: string[], book: string[]) => string} */
export function keptByBrowser(when, text, book) {
  return (
    `This browser kept text of ${when} that the book does not have: it differs ${firstDifference(text, book)}. ` +
    `Taking it replaces the book's text, and ${BACK}. Forgetting it drops it.`
  );
}
