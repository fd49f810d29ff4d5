// The matches of what is looked for in the lines of a book, and what replaces them.

const OFTEN = 255; // lines between two looks at the clock
const LETTER = /[\p{L}\p{N}_]/u;
const PARTS = /\\.|\[(?:\\.|[^\]\\])*\]|\((?:\?(?:<?[=!]|:|<[^>]*>))?|[^]/gu; // of an expression: a sign, a class, the begin of a group
const LOOK = /^\(\?<?[=!]/;
const PLACE = /^(?:[\^$]|\\[bB])$/;

/** What is looked for: an expression, whether it has to be whole words, and whether it is of places alone.
 * @typedef {{ expression: RegExp, isWhole: boolean, isRegular: boolean, isOfPlaces: boolean }} What
 * A match in a line: its place there, its text and those of its groups.
 * @typedef {{ start: number, end: number, texts: (string | undefined)[], groups: Record<string, string | undefined> }} Found
 * @typedef {Found & { line: number }} Match */

/** What is looked for. Throws an error that says what is wrong with it.
 * @param {{ words: string, matchesCase: boolean, isWhole: boolean, isRegular: boolean }} asked
 * @returns {What} */
export function sought({ words, matchesCase, isWhole, isRegular }) {
  const source = isRegular ? words : words.replace(/[\\^$.*+?()[\]{}|]/g, "\\$&");
  return { expression: compile(source, matchesCase ? "g" : "gi"), isWhole, isRegular, isOfPlaces: isRegular && isOfPlaces(source) };
}

/** Whether an expression is of places alone, as `^`, `$`, `\b` and what looks ahead or behind: it matches no characters.
 * @type {(source: string) => boolean} */
function isOfPlaces(source) {
  /** @type {boolean[]} */
  const groups = []; // that are open: whether each looks ahead or behind
  let count = 0;
  for (const [part] of source.matchAll(PARTS)) {
    const isPlace = LOOK.test(part) || PLACE.test(part);
    count += Number(isPlace);
    if (part[0] === "(") groups.push(LOOK.test(part));
    else if (part === ")") groups.pop();
    else if (!isPlace && !groups.includes(true)) return false;
  }
  return count > 0;
}

/** Whether an expression matches no characters, too: then it does so at many places, and these matches do not count.
 * @type {(what: What) => boolean} */
export function matchesNothing({ expression, isOfPlaces: counts }) {
  return !counts && "".search(expression) === 0;
}

/** An expression by characters, or by halves of pairs if it is not strict enough for that.
 * @param {string} source
 * @param {string} flags */
function compile(source, flags) {
  try {
    return new RegExp(source, `${flags}u`);
  } catch {
    try {
      return new RegExp(source, flags);
    } catch (error) {
      const why = String(/** @type {Error} */ (error).message).replace(/^Invalid regular expression: (\/.*\/\w*: )?/s, "");
      throw new Error(`This is no regular expression: ${why}`);
    }
  }
}

/** The matches in a line, in order. One of no characters counts only if the expression is of places.
 * @param {string} line
 * @param {What} what
 * @returns {Found[]} */
export function matchesIn(line, { expression, isWhole, isOfPlaces: counts }) {
  const matches = [...line.matchAll(expression)].filter((match) => match[0] || counts);
  const found = matches.map((match) => {
    const start = /** @type {number} */ (match.index);
    return { start, end: start + match[0].length, texts: [...match], groups: { ...match.groups } };
  });
  return isWhole ? found.filter(({ start, end }) => start === end || isWord(line, start, end)) : found;
}

/** Whether no letter or digit touches a part of a line.
 * @param {string} line
 * @param {number} start
 * @param {number} end */
function isWord(line, start, end) {
  return !LETTER.test(line.slice(0, start).match(/[^]?$/u)?.[0] ?? "") && !LETTER.test(line.slice(end).match(/^[^]?/u)?.[0] ?? "");
}

/** What replaces a match. In that for a regular expression `$1` is a group, `$&` the match, `\n` ends the line.
 * @param {Found} found
 * @param {string} put
 * @param {What} what */
export function replacement({ texts, groups }, put, { isRegular }) {
  if (!isRegular) return put;
  return put.replace(/\$(\$|&|\d\d?|<([^>]*)>)|\\([nt\\])/g, (whole, name, group, sign) => {
    if (sign) return sign === "n" ? "\n" : sign === "t" ? "\t" : "\\";
    if (name === "$") return "$";
    if (name === "&") return texts[0] ?? "";
    if (group !== undefined) return groups[group] ?? "";
    return Number(name) in texts ? (texts[Number(name)] ?? "") : whole;
  });
}

/** A line with these matches replaced, as lines.
 * @param {string} line
 * @param {Found[]} matches
 * @param {string} put
 * @param {What} what */
export function replacedIn(line, matches, put, what) {
  let at = 0, now = "";
  for (const found of matches) {
    now += line.slice(at, found.start) + replacement(found, put, what);
    at = found.end;
  }
  return (now + line.slice(at)).split("\n");
}

/** @type {Found[]} */
const NONE = [];

/** The matches in all lines, as far as they are known. Those of plain words are found when they are asked for; those of a regular
 * expression are learned, since it may take longer than anyone waits. */
export class Matches {
  /** @param {string[]} lines
   * @param {What} what */
  constructor(lines, what) {
    this.lines = lines;
    this.what = what;
    /** @type {(Found[] | null)[]} */
    this.lists = new Array(lines.length).fill(null);
    this.lacking = lines.length; // lines whose matches are not known
    this.total = 0;
    this.at = 0; // the lines before this one are known
  }

  get isDone() {
    return this.lacking === 0;
  }

  /** Finds matches of plain words for some milliseconds; whether those of all lines are known.
   * @param {number} milliseconds */
  count(milliseconds) {
    const until = performance.now() + milliseconds;
    for (; !this.what.isRegular && this.at < this.lines.length; this.at += 1) {
      this.of(this.at);
      if ((this.at & OFTEN) === OFTEN && performance.now() > until) break;
    }
    return this.isDone;
  }

  /** The matches of a line, null if they are not known.
   * @param {number} line
   * @returns {Found[] | null} */
  of(line) {
    if (!this.lists[line] && !this.what.isRegular) this.learn(line, [matchesIn(this.lines[line], this.what)]);
    return this.lists[line];
  }

  /** Takes the matches of lines from one on.
   * @param {number} from
   * @param {Found[][]} lists */
  learn(from, lists) {
    lists.forEach((found, n) => {
      if (!this.lists[from + n]) {
        this.lacking -= 1;
        this.total += found.length;
      }
      this.lists[from + n] = found.length ? found : NONE;
    });
  }

  /** Lines of the text became others.
   * @param {string[]} lines
   * @param {number} start
   * @param {number} stop
   * @param {number} count */
  edited(lines, start, stop, count) {
    const wasDone = this.isDone;
    for (const found of this.lists.slice(start, stop)) {
      this.total -= found?.length ?? 0;
      this.lacking -= found ? 0 : 1;
    }
    this.lacking += count;
    this.lists = this.lists.slice(0, start).concat(new Array(count).fill(null), this.lists.slice(stop));
    this.lines = lines;
    this.at = Math.min(this.at, start);
    if (wasDone && count <= OFTEN) for (let line = start; line < start + count; line += 1) this.of(line);
  }

  /** Where lines are whose matches are not known: from, to.
   * @returns {[number, number][]} */
  gaps() {
    /** @type {[number, number][]} */
    const gaps = [];
    this.lists.forEach((found, line) => {
      const last = gaps[gaps.length - 1];
      if (found) return;
      if (last?.[1] === line) last[1] = line + 1;
      else gaps.push([line, line + 1]);
    });
    return gaps;
  }

  /** Whether the matches of all lines before one are known.
   * @param {number} line */
  isKnownTo(line) {
    while (this.at < line && this.lists[this.at]) this.at += 1;
    return this.at >= line;
  }

  /** The known matches of a line, as places.
   * @param {number} line
   * @returns {Match[]} */
  placesIn(line) {
    return (this.of(line) ?? NONE).map((found) => ({ ...found, line }));
  }

  /** The first match at a place or after it, or the last one before it; beyond the end of the text it goes on at the other end.
   * Null if there is none, undefined if it is not known yet.
   * @param {{ line: number, column: number }} place
   * @param {boolean} isForward
   * @returns {Match | null | undefined} */
  next({ line, column }, isForward) {
    const count = this.lines.length, here = this.placesIn(line);
    const near = isForward ? here.find(({ start }) => start >= column) : here.reverse().find(({ start }) => start < column);
    if (near) return near;
    for (let far = 0; far <= count; far += 1) {
      const at = (line + (isForward ? far : count - far)) % count, found = this.of(at);
      if (!found) return undefined;
      if (far && found.length) return { ...found[isForward ? 0 : found.length - 1], line: at };
    }
    return null;
  }

  /** How many matches are before a place. Those of all lines before it are known.
   * @param {number} line
   * @param {number} column */
  before(line, column) {
    let count = 0;
    for (let n = 0; n < line; n += 1) count += this.lists[n]?.length ?? 0;
    return count + this.placesIn(line).filter(({ start }) => start < column).length;
  }
}
