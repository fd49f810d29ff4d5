// The tune at the caret.

export class CaretTune {
  /** @param {import("../editor/text_sheet.js").Sheet} sheet
   * @param {import("../link/findings.js").Findings} findings */
  constructor(sheet, findings) {
    this.sheet = sheet;
    this.findings = findings;
  }

  /** The line of the caret. */
  get line() {
    return Math.max(0, this.sheet.caret().line);
  }

  /** Its place among the tunes, -1 before the first tune. */
  get at() {
    return this.findings.tuneAt(this.line);
  }

  /** Its row, null before the first tune. */
  get row() {
    return this.findings.tunes[this.at] ?? null;
  }

  /** Its faults and hints; before the first tune those of the lines there. */
  get remarks() {
    const { findings, at } = this;
    return findings.remarksIn(findings.tunes[at]?.[0] ?? 0, findings.endOf(at));
  }
}
