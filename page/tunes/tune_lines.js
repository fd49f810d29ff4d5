// The lines of tunes with their tokens and what they play, as the host finds them.

import { entriesIn, tokensOf } from "../link/tokens_and_plays.js";

/** @typedef {import("../link/finding_rows.js").TuneRow} TuneRow
 * @typedef {import("../link/tokens_and_plays.js").Token} Token
 * Tunes that follow each other: the place of their first line, their lines, and the entries of each track of each tune that has a file, at
 * lines of the book.
 * @typedef {{ first: number, lines: { text: string, tokens: Token[] }[], plays: import("../link/tokens_and_plays.js").Entry[][] }} TuneLines
 * @typedef {object} Parts
 * @property {import("../link/book_host.js").BookHost} server
 * @property {import("../link/host_link.js").Link} link
 * @property {import("../link/findings.js").Findings} findings */

const CHANGED = "the text changed meanwhile";

/** Asks the host for what a window sees of the present text.
 * @type {(parts: Pick<Parts, "server" | "link">) => (sees: import("../link/tokens_and_plays.js").Want) => Promise<import("../link/tokens_and_plays.js").View>} */
function viewing({ server, link }) {
  const { run, version } = link.known;
  return async (sees) => (await server.ask("view", { run, version, sees })).view;
}

/** Lines of the book that the host has, with their tokens. Throws an error if they cannot be known.
 * @type {(parts: Parts, from: number, to: number) => Promise<{ text: string, tokens: Token[] }[]>} */
export async function tokenLines(parts, from, to) {
  const { lines } = parts.findings.text, view = viewing(parts);
  /** @type {Token[][]} */
  const tokens = [];
  while (tokens.length < to - from) {
    const { tokens: rows } = await view({ from: from + tokens.length, to, tune: null });
    if (!rows.length) throw new Error("the tune is too long");
    tokens.push(...rows.map(tokensOf));
  }
  if (parts.findings.text.lines !== lines) throw new Error(CHANGED);
  return tokens.slice(0, to - from).map((those, n) => ({ text: lines[from + n], tokens: those }));
}

/** Asks for the tunes from one place among them to another; throws an error if that cannot be known.
 * @type {(parts: Parts, first: number, last: number) => Promise<TuneLines>} */
export async function tuneLines(parts, first, last) {
  const { link, findings } = parts;
  await link.flush();
  const { lines } = findings.text, from = findings.tunes[first][0], to = findings.endOf(last), view = viewing(parts);
  const known = await tokenLines(parts, from, to), plays = [];
  for (const [, number, , hasFile] of findings.tunes.slice(first, last + 1)) {
    /** @type {import("../link/tokens_and_plays.js").View | null} */
    const found = hasFile ? await view({ from, to: from, tune: number }) : null;
    plays.push(...entriesIn(found?.play ?? [], lines));
  }
  if (findings.text.lines !== lines) throw new Error(CHANGED);
  return { first: from, lines: known, plays };
}
