// Tidies lines of music, which play the same afterwards: one space between beats, bar lines below each other, lengths as short as they can be.

/** @typedef {import("../link/tokens_and_plays.js").Token} Token
 * @typedef {{ text: string, tokens: Token[] }} Line
 * What is tidied.
 * @typedef {{ spaces: boolean, bars: boolean, lengths: boolean }} Choices
 * A token with its text.
 * @typedef {{ kind: string, text: string }} Piece
 * A bar of a line: what is in it, and the bar line at its end, with an ending that follows directly: "" at the end of a line.
 * @typedef {{ inside: string, end: string }} Bar */

const NO_MUSIC = /^(?!Inline).*Field$|^(?:Directive|Comment|FreeText|Blank)$/; // tokens that a line of music has others than
const LENGTH = /^(.*?)(\d*)(\/*)(\d*)$/s;
const MORE = /^[\d/',]/; // letters that would go on with a length or a note
const ALONE = new Set(["Blank", "BarLine", "Ending", "BadByte", "Unclosed", "Comment"]); // tokens that get no space before them after a bar line
const MOST_DIGITS = 9, MOST_SLASHES = 29;

/** Tidies lines: those from one to another, if not all.
 * @type {(lines: Line[], choices: Choices, first?: number, last?: number) => string[]} */
export function tidied(lines, choices, first = 0, last = lines.length - 1) {
  const music = lines.map(({ tokens }, n) => n >= first && n <= last && tokens.some(({ kind }) => !NO_MUSIC.test(kind)));
  const rows = lines.map((line, n) => (music[n] ? barsOf(piecesOf(line, choices)) : [{ inside: line.text, end: "" }]));
  if (choices.bars) alignAll(rows, music);
  return rows.map((bars) => bars.map(({ inside, end }) => inside + end).join(""));
}

/** The tokens of a line, tidied one by one.
 * @type {(line: Line, choices: Choices) => Piece[]} */
function piecesOf({ text, tokens }, { spaces, lengths }) {
  const rest = text.slice(Math.max(...tokens.map(({ to }) => to)));
  const pieces = tokens.flatMap(({ from, to, kind, depth }, at) => {
    if (depth) return [];
    return [{ kind, text: lengths ? shortened(text, tokens, at) : text.slice(from, to) }];
  });
  return [...(spaces ? spaced(pieces) : pieces), ...(rest ? [{ kind: "Rest", text: rest }] : [])];
}

/** A token with short lengths.
 * @type {(text: string, tokens: Token[], at: number) => string} */
function shortened(text, tokens, at) {
  const { from, to, kind } = tokens[at];
  if (kind === "Note" || kind === "Rest" || kind === "BarRest") return short(text.slice(from, to), text.slice(to));
  if (kind !== "Chord") return text.slice(from, to);
  let end = from, found = "";
  for (let n = at + 1; n < tokens.length && tokens[n].depth; n += 1) {
    const part = tokens[n], own = text.slice(part.from, part.to);
    found += text.slice(end, part.from) + (part.kind === "Note" ? short(own, text.slice(part.to)) : own);
    end = part.to;
  }
  return found + short(text.slice(end, to), text.slice(to));
}

/** A text that ends in a length, with the shortest one of its value. A length that is refused stays, and one that what follows would lengthen.
 * @type {(text: string, after: string) => string} */
function short(text, after) {
  const [, note, digits, slashes, under] = /** @type {RegExpExecArray} */ (LENGTH.exec(text)), over = Number(digits || 1);
  const below = under ? Number(under) : 2 ** slashes.length, isLong = digits.length > MOST_DIGITS || under.length > MOST_DIGITS || slashes.length > MOST_SLASHES;
  if (MORE.test(after) || isLong || !over || !below) return text;
  const most = divisor(over, below);
  return note + (over === most ? "" : over / most) + (below === most ? "" : `/${below / most}`);
}

/** The greatest common divisor.
 * @type {(one: number, other: number) => number} */
const divisor = (one, other) => (other ? divisor(other, one % other) : one);

/** Pieces with one space where there were several, and one beside each bar line. A space at the begin of a line stays, one at its end goes.
 * @type {(pieces: Piece[]) => Piece[]} */
function spaced(pieces) {
  /** @type {Piece[]} */
  const found = [];
  for (const piece of pieces) {
    const before = found.at(-1), isBar = piece.kind === "BarLine", wasBar = before?.kind === "BarLine" || before?.kind === "Ending";
    if (piece.kind === "Blank") {
      if (before?.kind !== "Blank") found.push({ kind: "Blank", text: " " });
      continue;
    }
    const isApart = isBar ? before && before.kind !== "Blank" && !wasBar : wasBar && !ALONE.has(piece.kind);
    found.push(...(isApart ? [{ kind: "Blank", text: " " }] : []), piece);
  }
  return found.at(-1)?.kind === "Blank" && found.length > 1 ? found.slice(0, -1) : found;
}

/** The bars of a line.
 * @type {(pieces: Piece[]) => Bar[]} */
function barsOf(pieces) {
  const bars = [{ inside: "", end: "" }];
  for (const { kind, text } of pieces) {
    const last = bars[bars.length - 1], isEnd = kind === "BarLine" || (kind === "Ending" && last.end !== "");
    if (isEnd) last.end += text;
    else if (last.end) bars.push({ inside: text, end: "" });
    else last.inside += text;
  }
  return bars;
}

/** Aligns lines of music that follow each other, if they have as many bars.
 * @type {(rows: Bar[][], music: boolean[]) => void} */
function alignAll(rows, music) {
  let from = 0;
  for (let n = 1; n <= rows.length; n += 1) {
    if (n < rows.length && music[n] && music[from] && isAlike(rows[n], rows[from])) continue;
    if (music[from]) align(rows.slice(from, n));
    from = n;
  }
}

/** Whether lines have as many bars. A pickup is no bar.
 * @type {(one: Bar[], other: Bar[]) => boolean} */
function isAlike(one, other) {
  const counted = (/** @type {Bar[]} */ bars) => bars.filter(({ end }) => end).length;
  const first = one[0].inside.length, second = other[0].inside.length, isPickup = Math.max(first, second) > 2 * Math.min(first, second);
  return counted(one) === counted(other) && !isPickup;
}

/** Gives the bars of lines the same width, by spaces before their ends.
 * @type {(rows: Bar[][]) => void} */
function align(rows) {
  for (let n = 0; n < rows[0].length; n += 1) {
    const bars = rows.flatMap((row) => (row[n]?.end ? [row[n]] : []));
    const width = Math.max(...bars.map(({ inside, end }) => inside.length + end.length));
    for (const bar of bars) if (bar.inside || n) bar.inside += " ".repeat(width - bar.inside.length - bar.end.length);
  }
}
