// The dialog with the sets of the book. It is beside the text, so that the caret chooses what is added; what it changes is in the text.

import { button, field, find, show } from "../base/elements.js";
import { movedSelection } from "../text/selection.js";
import { MOST_ITEMS, MOST_TIMES, addedSet, lineOf, setsIn, timesOf } from "../tunes/tune_sets.js";

/** @typedef {import("../tunes/tune_sets.js").Item} Item
 * @typedef {import("../tunes/tune_sets.js").TuneSet} TuneSet
 * @typedef {object} Parts
 * @property {import("../editor/text_sheet.js").Sheet} sheet
 * @property {import("../link/findings.js").Findings} findings
 * @property {import("../tunes/caret_tune.js").CaretTune} caretTune
 * @property {import("../music/set_player.js").SetPlayer} player */

export class SetDialog {
  /** @param {Parts} parts */
  constructor(parts) {
    this.parts = parts;
    this.dialog = /** @type {HTMLDialogElement} */ (find("sets"));
    this.choice = /** @type {HTMLSelectElement} */ (find("sets-choice"));
    this.at = 0; // the place of the set among all
    this.shown = ""; // what the dialog shows
    find("sets-open").addEventListener("click", () => (this.dialog.open ? this.close() : this.open()));
    find("sets-close").addEventListener("click", () => this.close());
    find("sets-new").addEventListener("click", () => this.begin());
    find("sets-add").addEventListener("click", () => this.add());
    find("sets-play").addEventListener("click", () => this.set && void parts.player.play(this.set.items));
    find("sets-delete").addEventListener("click", () => this.set && this.edit(this.set.line, [], [parts.sheet.text.lines[this.set.line]]));
    field("sets-name").addEventListener("change", () => this.set && this.write(field("sets-name").value, this.set.items));
    this.choice.addEventListener("change", () => this.choose(this.choice.selectedIndex));
    this.dialog.addEventListener("keydown", ({ key }) => key === "Escape" && this.close());
  }

  /** The line at which the first tune begins. */
  get first() {
    const { findings, sheet } = this.parts;
    return findings.tunes[0]?.[0] ?? sheet.text.lines.length;
  }

  get sets() {
    return setsIn(this.parts.sheet.text.lines, this.first);
  }

  /** @returns {TuneSet | null} */
  get set() {
    return this.sets[this.at] ?? null;
  }

  open() {
    this.dialog.show();
    find("sets-open").setAttribute("aria-expanded", "true");
    this.show();
  }

  close() {
    this.dialog.close();
    find("sets-open").setAttribute("aria-expanded", "false");
    this.parts.sheet.area.focus({ preventScroll: true });
  }

  /** @type {(at: number) => void} */
  choose(at) {
    this.at = at;
    this.show();
  }

  /** Shows the sets of the text, and the one that is chosen. */
  show() {
    if (!this.dialog.open) return;
    const { sets } = this, { findings } = this.parts;
    this.at = Math.max(0, Math.min(this.at, sets.length - 1));
    const set = sets[this.at], titles = (set?.items ?? []).map(({ number }) => findings.tunes[findings.ownerOf(number)]?.[2]);
    const wanted = JSON.stringify([this.at, sets, titles]);
    if (wanted === this.shown) return; // what is typed into a field of it stays
    this.shown = wanted;
    this.choice.replaceChildren(...sets.map(({ name }, n) => new Option(name || `Set ${n + 1}`, String(n), false, n === this.at)));
    show(find("sets-of-one"), Boolean(set));
    show(find("sets-none"), !set);
    this.choice.disabled = !set;
    field("sets-name").value = set?.name ?? "";
    const rows = (set?.items ?? []).map((item, at) => this.row(set.items, item, at));
    find("sets-rows").replaceChildren(...rows);
    button("sets-play").disabled = !rows.length;
    button("sets-add").disabled = rows.length >= MOST_ITEMS;
  }

  /** @type {(items: Item[], item: Item, at: number) => HTMLElement} */
  row(items, { number, times }, at) {
    const { findings } = this.parts, row = document.createElement("li"), title = findings.tunes[findings.ownerOf(number)]?.[2] ?? "no such tune";
    const name = Object.assign(document.createElement("span"), { textContent: `${number} ${title}` });
    const count = Object.assign(document.createElement("input"), { type: "number", min: "1", max: String(MOST_TIMES), value: String(times), ariaLabel: `How often ${number} is played` });
    count.addEventListener("change", () => {
      const wanted = timesOf(count.valueAsNumber);
      count.value = String(wanted);
      if (wanted !== times) this.write(null, items.with(at, { number, times: wanted }));
    });
    const up = this.act("↑", `${number} earlier`, () => this.write(null, items.toSpliced(at - 1, 2, items[at], items[at - 1])));
    const away = this.act("×", `Take ${number} out of the set`, () => this.write(null, items.toSpliced(at, 1)));
    up.disabled = at === 0;
    row.append(name, count, up, away);
    return row;
  }

  /** @type {(textContent: string, label: string, act: () => void) => HTMLButtonElement} */
  act(textContent, label, act) {
    const made = Object.assign(document.createElement("button"), { type: "button", textContent, title: label, ariaLabel: label });
    made.addEventListener("click", act);
    return made;
  }

  /** Begins a set, with the tune at the caret. */
  begin() {
    const { row } = this.parts.caretTune, count = this.sets.length, { lines } = this.parts.sheet.text;
    const { start, put } = addedSet(lines, this.first, lineOf(`Set ${count + 1}`, row ? [{ number: row[1], times: 1 }] : []));
    this.at = count;
    this.edit(start, put, []);
    field("sets-name").select();
  }

  /** Adds the tune at the caret. */
  add() {
    const { row } = this.parts.caretTune;
    if (row && this.set) this.write(null, [...this.set.items, { number: row[1], times: 1 }]);
  }

  /** Writes the set that is chosen, with its name if none is given.
   * @type {(name: string | null, items: Item[]) => void} */
  write(name, items) {
    const { set } = this;
    if (set) this.edit(set.line, [lineOf(name ?? set.name, items)], [this.parts.sheet.text.lines[set.line]]);
  }

  /** Lines become others, in a step of its own.
   * @type {(start: number, put: string[], taken: string[]) => void} */
  edit(start, put, taken) {
    const { sheet } = this.parts, before = sheet.selection(), edit = { start, taken, put }, after = movedSelection(before, edit);
    sheet.text.change([edit], before, after);
    sheet.refresh(after);
    this.show();
  }
}
