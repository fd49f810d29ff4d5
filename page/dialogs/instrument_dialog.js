// The dialog with the instruments of General MIDI by family. A click writes the directive of one.

import { field, find } from "../base/elements.js";
import { movedSelection } from "../text/selection.js";
import { DIRECTIVE, instrumentsLike, instrumentsOf, programEdit } from "../tunes/instruments.js";

/** @typedef {import("../tunes/instruments.js").Instrument} Instrument
 * `words` gives those of completion.json, when they are there; `say` shows a sentence.
 * @typedef {object} Parts
 * @property {import("../link/host_link.js").Link} link
 * @property {import("../editor/text_sheet.js").Sheet} sheet
 * @property {import("../link/findings.js").Findings} findings
 * @property {import("../tunes/caret_tune.js").CaretTune} caretTune
 * @property {() => import("../editor/completion.js").Words | null} words
 * @property {(words: string) => void} say
 * @property {string} undoKey */

export class InstrumentDialog {
  /** @param {Parts} parts */
  constructor(parts) {
    this.parts = parts;
    this.dialog = /** @type {HTMLDialogElement} */ (find("instruments"));
    find("instruments-open").addEventListener("click", () => this.open());
    find("instruments-close").addEventListener("click", () => this.dialog.close());
    field("instruments-find").addEventListener("input", () => this.show());
    field("instruments-find").addEventListener("keydown", (event) => this.key(event));
    this.dialog.addEventListener("close", () => parts.sheet.area.focus({ preventScroll: true }));
  }

  open() {
    const { say, caretTune } = this.parts;
    if (!caretTune.row) return say("The caret is in no tune.");
    field("instruments-find").value = "";
    this.show();
    this.dialog.showModal();
    field("instruments-find").focus();
  }

  /** The instruments that are searched for.
   * @returns {Instrument[]} */
  get listed() {
    const words = this.parts.words();
    return words ? instrumentsLike(instrumentsOf(words), field("instruments-find").value) : [];
  }

  /** Shows the instruments that are searched for. */
  show() {
    const { listed } = this, families = [...new Set(listed.map(({ family }) => family))];
    const groups = families.map((name) => this.group(name, listed.filter(({ family }) => family === name)));
    find("instruments-list").replaceChildren(...groups);
    find("instruments-none").hidden = listed.length > 0;
  }

  /** @type {(name: string, those: Instrument[]) => HTMLElement} */
  group(name, those) {
    const group = document.createElement("section");
    group.append(Object.assign(document.createElement("h3"), { textContent: name }), ...those.map((one) => this.button(one)));
    return group;
  }

  /** @type {(one: Instrument) => HTMLElement} */
  button({ program, name, others }) {
    const button = Object.assign(document.createElement("button"), { type: "button", title: others });
    button.append(Object.assign(document.createElement("code"), { textContent: String(program) }), name);
    button.addEventListener("click", () => void this.write(program, name));
    return button;
  }

  /** Enter takes the first one of those that are searched for.
   * @type {(event: KeyboardEvent) => void} */
  key(event) {
    if (event.key !== "Enter") return;
    event.preventDefault();
    if (field("instruments-find").value.trim()) find("instruments-list").querySelector("button")?.click();
  }

  /** Writes the directive of a program, in a step of its own.
   * @type {(program: number, name: string) => Promise<void>} */
  async write(program, name) {
    const { link, sheet, findings, caretTune, say, undoKey } = this.parts, { text } = sheet, { row, at, line } = caretTune;
    this.dialog.close();
    if (!row) return;
    const edit = programEdit(text.lines, row[0], findings.endOf(at), program, field("instruments-from-here").checked ? line : null);
    const before = sheet.selection(), isOther = edit.taken[0] !== edit.put[0], after = isOther ? movedSelection(before, edit) : before;
    if (isOther) text.change([edit], before, after);
    sheet.refresh(after);
    await link.flush().catch(() => {}); // its answer has a sentence too
    say(`${DIRECTIVE}${program}: ${name}. ${undoKey} takes that back.`);
  }
}
