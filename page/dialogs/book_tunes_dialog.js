// The dialog that deletes, moves, numbers and sorts the tunes of the book, and takes in those of another book. Each is one step.

import { base64Of } from "../base/base64.js";
import { button, field, find, show } from "../base/elements.js";
import { counted } from "../base/plural.js";
import { movedSelection, selectionAt } from "../text/selection.js";
import { linesOfFile, merged, titled } from "../tunes/merged_books.js";
import { deleted, moved, renumbered, sorted } from "../tunes/tune_order.js";

/** @typedef {import("../text/line_edits.js").Replacement} Replacement
 * @typedef {import("../text/selection.js").Selection} Selection */

export class BookTunesDialog {
  /** @param {import("./tune_dialog.js").Parts} parts
   * @param {import("../tunes/caret_tune.js").CaretTune} caretTune
   * @param {() => void} needText shows the text */
  constructor(parts, caretTune, needText) {
    this.parts = parts;
    this.caretTune = caretTune;
    this.needText = needText;
    this.dialog = /** @type {HTMLDialogElement} */ (find("order"));
    find("order-open").addEventListener("click", () => this.open());
    find("order-close").addEventListener("click", () => this.dialog.close());
    this.dialog.addEventListener("close", () => this.leave());
    find("order-select").addEventListener("click", () => this.select());
    find("order-delete").addEventListener("click", () => this.delete());
    find("order-up").addEventListener("click", () => this.move(-1));
    find("order-down").addEventListener("click", () => this.move(1));
    find("order-number").addEventListener("click", () => this.number());
    find("order-sort").addEventListener("click", () => this.sort());
    find("order-merge").addEventListener("click", () => field("order-file").click());
    field("order-file").addEventListener("change", () => void this.merge());
    show(find("order-midi"), Boolean(parts.server.offers.midi));
    find("order-midi").addEventListener("click", () => field("order-midi-file").click());
    field("order-midi-file").addEventListener("change", () => void this.takeMidi());
  }

  /** The lines at which the tunes begin. */
  get starts() {
    return this.parts.findings.tunes.map(([line]) => line);
  }

  open() {
    if (!this.parts.link.state || this.dialog.open) return;
    this.show();
    this.dialog.showModal();
  }

  /** The text gets the focus: Ctrl-Z is for it. */
  leave() {
    this.parts.sheet.area.focus({ preventScroll: true });
  }

  /** Shows which tune is at the caret, and what can be done. */
  show() {
    const { caretTune } = this, { tunes } = this.parts.findings, row = caretTune.row, at = caretTune.at;
    find("order-tune").textContent = row ? `${row[1]} ${row[2] || "(no title)"}` : "The caret is before the first tune.";
    for (const name of ["select", "delete"]) button(`order-${name}`).disabled = !row;
    button("order-up").disabled = at < 1;
    button("order-down").disabled = at < 0 || at === tunes.length - 1;
    for (const name of ["number", "sort"]) button(`order-${name}`).disabled = !tunes.length;
  }

  /** Changes the text in one step, and says what was done.
   * @type {(edits: Replacement[], done: string, after?: Selection | null) => Promise<void>} */
  async change(edits, done, after = null) {
    const { sheet, link, say, undoKey } = this.parts, before = sheet.selection();
    if (!edits.length) return this.end(done);
    const next = after ?? edits.reduce((selection, edit) => movedSelection(selection, edit), before);
    sheet.text.change(edits, before, next);
    sheet.refresh(next);
    this.dialog.close();
    await link.flush().catch(() => {}); // its answer has a sentence too
    say(`${done} ${undoKey} takes that back.`);
  }

  /** Closes the dialog with a sentence.
   * @type {(words: string) => void} */
  end(words) {
    this.dialog.close();
    this.parts.say(words);
  }

  select() {
    const { sheet, findings } = this.parts, { at, row } = this.caretTune;
    this.dialog.close();
    if (!row) return;
    this.needText();
    const stop = findings.endOf(at), { lines } = sheet.text;
    const end = stop < lines.length ? { line: stop, column: 0 } : { line: stop - 1, column: lines[stop - 1].length };
    sheet.select(end, { line: row[0], column: 0 }); // the caret is at its begin, which is in this tune
    sheet.area.focus({ preventScroll: true });
  }

  delete() {
    const { row, at } = this.caretTune, { text } = this.parts.sheet;
    if (!row) return;
    const edit = deleted(text.lines, this.starts, at), left = text.lines.length - edit.taken.length + edit.put.length;
    void this.change([edit], `Deleted ${nameOf(row)}.`, selectionAt({ line: Math.max(0, Math.min(row[0], left - 1)), column: 0 }));
  }

  /** Moves the tune at the caret one place back or on. The caret stays in it.
   * @type {(by: -1 | 1) => void} */
  move(by) {
    const { row, at } = this.caretTune, { sheet } = this.parts;
    if (!row) return;
    const { edit, line } = moved(sheet.text.lines, this.starts, at, by), caret = sheet.caret();
    void this.change([edit], `Moved ${nameOf(row)}.`, selectionAt({ line: line + caret.line - row[0], column: caret.column }));
  }

  number() {
    const edits = renumbered(this.parts.sheet.text.lines, this.starts);
    void this.change(edits, edits.length ? `Numbered ${counted(this.starts.length, "tune")} from 1 on.` : "The tunes are numbered from 1 on.");
  }

  sort() {
    const by = field("order-by").value, edit = sorted(this.parts.sheet.text.lines, this.starts, by);
    void this.change(edit ? [edit] : [], edit ? `Sorted ${counted(this.starts.length, "tune")} by ${by}.` : `The tunes are sorted by ${by}.`, selectionAt({ line: this.starts[0], column: 0 }));
  }

  /** Puts the tunes of a file at the end. */
  async merge() {
    const file = await picked("order-file"), others = file && this.added(linesOfFile(file.bytes));
    if (!file) return;
    if (!others) return this.end(`${file.name} has no tune.`);
    const words = others.renumbered ? `, ${others.renumbered} of them with another number` : "";
    void this.change([others.edit], `Took in ${counted(others.tunes, "tune")} of ${file.name}${words}.`, others.first);
  }

  /** Puts the tune of a MIDI file at the end, as the server reads it. */
  async takeMidi() {
    const file = await picked("order-midi-file");
    if (!file) return;
    const answer = await this.parts.server.ask("midi-tune", { data: base64Of(file.bytes) }).catch((error) => ({ why: `Not read: ${error.message}.` }));
    const found = answer.lines && this.added(titled(answer.lines, file.name));
    if (!found) return this.end(answer.why ?? "Each number is used.");
    void this.change([found.edit], `Took in ${file.name}, as midi2abc reads it.${answer.note && ` ${answer.note}`}`, found.first);
  }

  /** The edit that puts other lines at the end of the text, and the selection at their first tune; null if they have none.
   * @type {(others: string[]) => import("../tunes/merged_books.js").Merge & { first: Selection } | null} */
  added(others) {
    const { findings, sheet } = this.parts, found = merged(sheet.text.lines, findings.tunes.map(([, number]) => number), others);
    return found && { ...found, first: selectionAt({ line: found.edit.start + (found.edit.start ? 1 : 0), column: 0 }) };
  }
}

/** @type {(row: import("../link/finding_rows.js").TuneRow) => string} */
const nameOf = ([, number, title]) => `tune ${number}${title && ` ${title}`}`;

/** The file that was picked, null if none was. The same file can be picked again.
 * @type {(id: string) => Promise<{ name: string, bytes: Uint8Array } | null>} */
async function picked(id) {
  const input = field(id), file = input.files?.[0];
  if (!file) return null;
  const bytes = new Uint8Array(await file.arrayBuffer());
  input.value = "";
  return { name: file.name, bytes };
}
