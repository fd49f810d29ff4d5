// The lines that were pasted last, as long as the caret is in them: what is wrong there is shown first.

/** @typedef {import("../link/finding_rows.js").FaultRow} FaultRow */

const PASTES = ["insertFromPaste", "insertFromDrop"];
const MOST = 200; // remarks of pasted lines, which may be a whole book

export class PastedLines {
  constructor() {
    /** @type {[first: number, last: number] | null} */
    this.range = null; // from a line, before a line
  }

  /** Lines start..stop became others; `type` is how, as the browser names it.
   * @type {(start: number, stop: number, count: number, type: string) => void} */
  edited(start, stop, count, type) {
    if (PASTES.includes(type)) this.range = [start, start + count];
    else if (this.range) this.range = moved(this.range, start, stop, count);
  }

  /** Whether a line is one of them.
   * @type {(line: number) => boolean} */
  has(line) {
    return this.range !== null && line >= this.range[0] && line < this.range[1];
  }

  /** The remarks on them and on the tune of the caret; on the tune alone if the caret has left them. It is behind them after a paste.
   * @type {(findings: import("../link/findings.js").Findings, tune: { line: number, remarks: FaultRow[] }) => FaultRow[]} */
  remarks(findings, { line, remarks }) {
    if (this.range && (line < this.range[0] || line > this.range[1])) this.range = null;
    if (!this.range) return remarks;
    return [...findings.remarksIn(...this.range).slice(0, MOST), ...remarks.filter((row) => !this.has(row[0]))];
  }
}

/** Some lines after an edit; null if it reaches over one of their ends.
 * @type {(range: [first: number, last: number], start: number, stop: number, count: number) => [first: number, last: number] | null} */
function moved([first, last], start, stop, count) {
  const more = count - (stop - start);
  if (start >= last) return [first, last];
  if (stop <= first) return [first + more, last + more];
  return start >= first && stop <= last ? [first, last + more] : null;
}
