// A dialog that changes the tune at the caret, or what is selected, in one step. It shows before what it does.

import { button, find } from "../base/elements.js";
import { movedSelection } from "../text/selection.js";
import { tuneLines } from "../tunes/tune_lines.js";

/** @typedef {import("../tunes/tune_lines.js").TuneLines} TuneLines
 * @typedef {import("../tunes/transpose.js").Range} Range
 * What would become of some lines: they, in words what is done, and what was done; what stays, by its line among them; and the selection,
 * if it has to be another one.
 * @typedef {{ lines: string[], words: string, done: string, left: { line: number, text: string, why: string }[], range?: Range | null }} Change
 * `say` shows a sentence; `undoKey` is the name of the keys that take something back.
 * @typedef {object} Parts
 * @property {import("../link/book_host.js").BookHost} server
 * @property {import("../link/host_link.js").Link} link
 * @property {import("../link/findings.js").Findings} findings
 * @property {import("../editor/text_sheet.js").Sheet} sheet
 * @property {(words: string) => void} say
 * @property {string} undoKey */

const MOST_LEFT = 5; // that are named

export class TuneDialog {
  /** `name` is how the names of its elements begin; `change` makes the change of lines.
   * @param {Parts} parts
   * @param {string} name
   * @param {(tunes: TuneLines, range: Range | null) => Change} change */
  constructor(parts, name, change) {
    this.parts = parts;
    this.name = name;
    this.change = change;
    this.dialog = /** @type {HTMLDialogElement} */ (find(name));
    /** @type {TuneLines | null} */
    this.tunes = null; // null while they are asked for
    this.selection = parts.sheet.selection();
    /** @type {Element | null} */
    this.before = null; // what had the focus
    this.opened = () => {}; // the tunes are there
    this.form = /** @type {HTMLFormElement} */ (this.dialog.querySelector("form"));
    find(`${name}-open`).addEventListener("click", () => void this.open());
    find(`${name}-close`).addEventListener("click", () => this.dialog.close());
    this.form.addEventListener("input", () => this.show());
    this.form.addEventListener("submit", (event) => {
      event.preventDefault();
      void this.apply();
    });
    this.dialog.addEventListener("close", () => this.leave());
  }

  /** Whether the selection is to be changed, and not the whole tune. */
  get isOfSelection() {
    return new FormData(this.form).get(`${this.name}-what`) === "selection";
  }

  /** The selection among the lines of the tunes, null if the whole tune is to be changed.
   * @returns {Range | null} */
  get range() {
    const { tunes, selection } = this, { start, end } = selection;
    if (!tunes || !this.isOfSelection) return null;
    const isAtBegin = end.column === 0 && end.line > start.line; // the last line is not selected
    const last = isAtBegin ? { line: end.line - 1, column: this.parts.sheet.text.lines[end.line - 1].length } : end;
    return { start: { ...start, line: start.line - tunes.first }, end: { ...last, line: last.line - tunes.first } };
  }

  async open() {
    const { dialog, parts, name } = this, { sheet, link } = parts;
    if (!link.state || dialog.open) return;
    this.selection = sheet.selection();
    const { start, end } = this.selection, isNothing = start.line === end.line && start.column === end.column;
    this.before = document.activeElement;
    const [whole, part] = /** @type {HTMLInputElement[]} */ ([...this.form.querySelectorAll("[type=radio]")]);
    whole.checked = isNothing || !part.checked;
    part.disabled = isNothing;
    if (!isNothing) part.checked = true;
    dialog.showModal();
    find(`${name}-first`).focus();
    await this.read();
  }

  /** Gives the focus back. Browsers do that too, but some lose the caret of a text area. */
  leave() {
    this.parts.sheet.refresh(this.selection);
    if (this.before instanceof HTMLElement) this.before.focus({ preventScroll: true });
  }

  /** Asks for the tunes of the selection, or the tune of the caret. */
  async read() {
    const { parts } = this, { findings } = parts, { start, end } = this.selection, first = findings.tuneAt(start.line);
    this.tunes = null;
    this.shown("", []);
    if (first < 0) return this.shown("The caret is before the first tune.", []);
    try {
      this.tunes = await tuneLines(parts, first, Math.max(first, findings.tuneAt(end.line)));
    } catch (error) {
      return this.shown(`This cannot be done now: ${/** @type {Error} */ (error).message}.`, []);
    }
    this.opened();
    this.show();
  }

  /** Shows what would be done. */
  show() {
    if (!this.tunes) return;
    const { words, left, lines } = this.change(this.tunes, this.range);
    this.shown(words, left, lines.some((line, n) => line !== this.tunes?.lines[n].text));
  }

  /** @type {(words: string, left: Change["left"], isOther?: boolean) => void} */
  shown(words, left, isOther = false) {
    const { name, tunes } = this, more = left.length - MOST_LEFT;
    find(`${name}-words`).textContent = words;
    const rows = left.slice(0, MOST_LEFT).map(({ line, text, why }) => `Line ${line + 1 + (tunes?.first ?? 0)}${text && ` ${text}`}: ${why}.`);
    if (more > 0) rows.push(`${more} more.`);
    find(`${name}-left`).replaceChildren(...rows.map((textContent) => Object.assign(document.createElement("li"), { textContent })));
    button(`${name}-do`).disabled = !isOther;
  }

  /** Changes the text, in one step. If the text is another one by now, shows what would be done to that. */
  async apply() {
    const { tunes, parts, dialog } = this, { sheet, link, say, undoKey } = parts, { text } = sheet;
    if (!tunes) return;
    if (tunes.lines.some((line, n) => line.text !== text.lines[tunes.first + n])) return this.read();
    const { lines, done, range } = this.change(tunes, this.range), before = this.selection;
    const edits = lines.flatMap((put, n) => (put === tunes.lines[n].text ? [] : [{ start: tunes.first + n, taken: [tunes.lines[n].text], put: [put] }]));
    const at = (/** @type {import("../text/selection.js").Place} */ { line, column }) => ({ line: line + tunes.first, column });
    const after = range ? { start: at(range.start), end: at(range.end), direction: "forward" } : edits.reduce(movedSelection, before);
    if (edits.length) text.change(edits, before, after);
    this.selection = after;
    this.before = sheet.area; // Ctrl-Z is for the text
    dialog.close();
    await link.flush().catch(() => {}); // its answer has a sentence too
    say(`${done} ${undoKey} takes that back.`);
  }
}
