// Colours for the tokens of a text: a layer below the text area, whose own letters cannot be seen, has the lines about those that are
// seen. The host finds the tokens.

import { Layer, rowOf } from "./text_layer.js";

/** @typedef {[start: number, end: number, name: string]} Part
 * A line with its parts. The key is the same if both are the same.
 * @typedef {{ line: string, parts: Part[], key: string }} Row */

const MOST = 5000; // characters of a line that is coloured
/** @type {Record<string, string>} */
const NAMES = {
  BarLine: "barline", Comment: "comment", Decoration: "decoration", Directive: "directive", Dynamic: "decoration", Ending: "barline",
  Grace: "grace", InlineField: "field", NoEffect: "decoration", Quoted: "chord",
}; // by kind
const FIELDS = ["NumberField", "TitleField", "KeyField", "OtherField"];
const LYRICS = "wWs"; // letters of fields
const WORDS = "^_<>@"; // a quoted text that begins with one of these is no chord
/** @type {import("../link/tokens_and_plays.js").Token[]} */
const NONE = [];
const SIGNS = ".~HIJKLMNOPQRSTUVWhijklmnopqrstuvw"; // decorations of one letter

/** The parts of a line that have a colour, in order: begin, end, name.
 * @type {(line: string, tokens: import("../link/tokens_and_plays.js").Token[]) => Part[]} */
export function partsOf(line, tokens) {
  return line.length > MOST ? [] : tokens.flatMap((token) => partsOfToken(line, token));
}

/** @type {(line: string, token: import("../link/tokens_and_plays.js").Token) => Part[]} */
function partsOfToken(line, { from, to, kind }) {
  if (FIELDS.includes(kind)) {
    const value = LYRICS.includes(line[from]) ? "lyric" : "value";
    return to > from + 2 ? [[from, from + 2, "field"], [from + 2, to, value]] : [[from, to, "field"]];
  }
  const name = kind === "Quoted" && WORDS.includes(line[from + 1]) ? "string" : NAMES[kind];
  return !name || (kind === "NoEffect" && !SIGNS.includes(line[from])) ? [] : [[from, to, name]];
}

/** @type {(line: string, tokens: import("../link/tokens_and_plays.js").Token[]) => Row} */
function coloured(line, tokens) {
  const parts = partsOf(line, tokens);
  return { line, parts, key: `${parts.join()} ${line}` };
}

export class Colours {
  /** @param {import("./text_sheet.js").Sheet} sheet
   * @param {import("../link/tokens_and_plays.js").Seen} seen */
  constructor(sheet, seen) {
    this.sheet = sheet;
    this.seen = seen;
    this.layer = new Layer(sheet, "colours");
    /** @type {WeakMap<import("../link/tokens_and_plays.js").Token[], Row>} */
    this.known = new WeakMap(); // by the tokens of a line
    sheet.layers.push(this);
    seen.hearers.push(() => this.show(...sheet.drawn));
  }

  /** Draws some lines, which are those that are seen.
   * @type {(first: number, last: number) => void} */
  draw(first, last) {
    this.seen.want({ from: first, to: last });
    this.show(first, last);
  }

  /** @type {(first: number, last: number) => void} */
  show(first, last) {
    const rows = this.sheet.text.lines.slice(first, last).map((line, n) => this.coloured(line, this.seen.tokensOf(first + n) ?? NONE));
    this.layer.draw(first, rows.map(({ key }) => key), (n) => rowOf(rows[n].line, rows[n].parts));
  }

  /** A line with its parts.
   * @type {(line: string, tokens: import("../link/tokens_and_plays.js").Token[]) => Row} */
  coloured(line, tokens) {
    let known = this.known.get(tokens);
    if (known?.line !== line) this.known.set(tokens, (known = coloured(line, tokens)));
    return known;
  }
}
