// How many rows each line of the text has. On a narrow screen lines wrap after blanks, and after any letter in a word that is longer
// than a row. A browser may also wrap a line after other signs, as after a hyphen, so it says of some lines how many rows they have.

const USUAL = /^[ -~\xa1-\xac\xae-\u017f\u2010-\u2027]*$/; // a font that is as wide for each letter has these

export class LineRows {
  /** @param {(lines: string[]) => number[]} measure returns the rows of some lines as the browser lays them out */
  constructor(measure) {
    this.measure = measure;
    this.width = 0; // of a row, in characters; 0 if lines do not wrap
    /** @type {string[]} */
    this.lines = [];
    this.sums = new Uint32Array(1); // by line: the rows before it
  }

  /** Rows have as many characters at most, or lines do not wrap if these are 0. Returns whether that is new.
   * @type {(width: number) => boolean} */
  wrap(width) {
    if (width === this.width) return false;
    this.width = width;
    this.lines = [];
    this.sums = new Uint32Array(1);
    return true;
  }

  /** How many rows are before a line.
   * @type {(lines: string[], line: number) => number} */
  before(lines, line) {
    if (!this.width) return line;
    this.count(lines);
    return this.sums[Math.max(0, Math.min(lines.length, line))];
  }

  /** How many rows some lines have that may be no more in the text.
   * @type {(lines: string[]) => number} */
  sum(lines) {
    return this.width ? this.rowsOf(lines).reduce((sum, rows) => sum + rows, 0) : lines.length;
  }

  /** How many rows a line has.
   * @type {(lines: string[], line: number) => number} */
  of(lines, line) {
    return this.before(lines, line + 1) - this.before(lines, line);
  }

  /** The line that has a row; the last one if there are fewer.
   * @type {(lines: string[], row: number) => number} */
  lineOf(lines, row) {
    if (!this.width) return row;
    this.count(lines);
    let low = 0, high = lines.length - 1;
    while (low < high) {
      const middle = (low + high + 1) >> 1;
      if (this.sums[middle] <= row) low = middle;
      else high = middle - 1;
    }
    return low;
  }

  /** Counts the rows of lines that became others: of those between the same ones at both ends.
   * @type {(lines: string[]) => void} */
  count(lines) {
    const { lines: old, sums } = this;
    if (lines === old) return;
    const least = Math.min(old.length, lines.length), now = new Uint32Array(lines.length + 1);
    let front = 0, back = 0;
    while (front < least && old[front] === lines[front]) front += 1;
    while (back < least - front && old[old.length - 1 - back] === lines[lines.length - 1 - back]) back += 1;
    now.set(sums.subarray(0, front + 1));
    for (const [n, rows] of this.rowsOf(lines.slice(front, lines.length - back)).entries()) now[front + n + 1] = now[front + n] + rows;
    const more = now[lines.length - back] - sums[old.length - back];
    for (let n = lines.length - back; n < lines.length; n += 1) now[n + 1] = sums[n + 1 + old.length - lines.length] + more;
    this.lines = lines;
    this.sums = now;
  }

  /** The rows of some lines. The browser lays out those that need it at once.
   * @type {(lines: string[]) => number[]} */
  rowsOf(lines) {
    const rows = lines.map((text) => (USUAL.test(text) ? sureRows(text, this.width) : 0)), others = lines.filter((_, n) => !rows[n]);
    const measured = others.length ? this.measure(others).values() : null;
    return measured ? rows.map((count) => count || (measured.next().value ?? 1)) : rows;
  }
}

/** The rows of a line of letters that are equally wide, or 0 if they depend on the browser. No browser can do with fewer rows than the
 * letters fill, and each may wrap after blanks. If that needs no more rows, they are sure.
 * @type {(text: string, width: number) => number} */
function sureRows(text, width) {
  const least = Math.max(1, Math.ceil(text.length / width));
  return least === 1 || rowsByBlanks(text, width) === least ? least : 0;
}

/** The rows of a line that wraps after blanks alone, or 0 if a word with its blank is longer than a row.
 * @type {(text: string, width: number) => number} */
function rowsByBlanks(text, width) {
  let rows = 1, room = width;
  for (let at = 0; at < text.length; ) {
    const end = text.indexOf(" ", at) + 1 || text.length, word = end - at;
    if (word > width) return 0;
    if (word > room) {
      rows += 1;
      room = width;
    }
    room -= word;
    at = end;
  }
  return rows;
}
