// The pair of the bracket at the caret, by the tokens of its line: brackets, braces, quotes and exclamation marks, and the parentheses of
// slurs.

import { Layer, rowOf } from "./text_layer.js";

/** @type {Record<string, string>} */
const CLOSING = { Chord: "]", Decoration: "!", Dynamic: "!", Grace: "}", InlineField: "]", Quoted: '"' }; // by kind

/** The columns of all pairs of a line.
 * @type {(line: string, tokens: import("../link/tokens_and_plays.js").Token[]) => [number, number][]} */
export function pairsOf(line, tokens) {
  /** @type {number[]} */
  const slurs = []; // that are open
  /** @type {[number, number][]} */
  const pairs = [];
  for (const { from, to, kind } of tokens) {
    const end = kind in CLOSING ? line.lastIndexOf(CLOSING[kind], to - 1) : -1;
    if (end > from) pairs.push([from, end]);
    else if (kind === "NoEffect" && line[from] === "(") slurs.push(from);
    else if (kind === "NoEffect" && line[from] === ")" && slurs.length) pairs.push([/** @type {number} */ (slurs.pop()), from]);
  }
  return pairs;
}

/** The pair one of whose two signs is after a column, or else before it; null if none is.
 * @type {(line: string, tokens: import("../link/tokens_and_plays.js").Token[], column: number) => [number, number] | null} */
export function pairAt(line, tokens, column) {
  const pairs = pairsOf(line, tokens), at = (/** @type {number} */ place) => pairs.find((pair) => pair.includes(place));
  return at(column) ?? at(column - 1) ?? null;
}

export class Brackets {
  /** @param {import("./text_sheet.js").Sheet} sheet
   * @param {import("../link/tokens_and_plays.js").Seen} seen */
  constructor(sheet, seen) {
    this.sheet = sheet;
    this.seen = seen;
    this.layer = new Layer(sheet, "finds brackets");
    seen.hearers.push(() => this.show(sheet.caret()));
  }

  /** Marks the pair at the caret.
   * @type {(place: import("../text/selection.js").Place) => void} */
  show({ line, column }) {
    const text = this.sheet.text.lines[line] ?? "", pair = pairAt(text, this.seen.tokensOf(line) ?? [], column);
    const isHere = pair && document.activeElement === this.sheet.area;
    this.layer.draw(line, isHere ? [`${pair} ${text}`] : [], () => rowOf(text, (pair ?? []).map((at) => [at, at + 1, "bracket"])));
  }
}
